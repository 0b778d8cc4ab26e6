# A collection by steps: a client reads between its units, and sees no old address.

# An arena of 16 grains. f:300:1 has 300 words, of which word 1 is a reference, so a segment has room for one.
arena 16 16
table t 3
pool p amc front
ap x p exact

# A list of three objects, and one that nothing refers to.
reserve x f:300:1
init x 2 30
commit x t.0
reserve x f:300:1
init x 1 t.0
init x 2 20
commit x t.0
reserve x f:300:1
commit x t.1
clear t.1
reserve x f:300:1
init x 1 t.0
init x 2 10
commit x t.0
addr t.0
live

# The flip moves what slots hold: the first object. The others wait for units.
start
addr t.0
num t.0 2

# While it runs, no second collection begins, and no block is dumped.
start
dump 0x2000

# Before a `get` reads from the first object, that is scanned: the second one moves, and the slot gets its new address.
get t.1 t.0 1
addr t.1
num t.1 2

# Each step is one unit, and the program reads on.
step 1
step 1
get t.2 t.1 1
addr t.2
num t.2 2

# A `reserve` that takes a new segment does the rest: the object that nothing refers to is freed, and so are the old segments.
committed
reserve x f:300:1
init x 1 t.0
init x 2 0
commit x t.0
live
committed
step 1

# The new object refers to those that were moved.
get t.1 t.0 1
num t.1 2
