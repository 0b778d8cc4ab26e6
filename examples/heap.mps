# A heap at rest: objects, an area, manual blocks, finalization, a dependency, and what is refused.

# An arena of 16 grains, of which 4 may be held.
arena 16 4
table t 3
area a 2
pool p amc mapped
ap x p exact

# Two objects in a ring: cell 1 of each refers to the other. m:3:2 has three words, of which word 1 is a reference.
reserve x m:3:2
init x 2 10
commit x t.0
reserve x m:3:2
init x 1 t.0
init x 2 20
commit x t.1
put t.0 1 t.1
get t.2 t.0 1
same t.1 t.2
num t.2 2

# A reference is no number (6), cell 3 is past the last (3), and slot 3 is not there (3).
num t.0 1
num t.0 3
num t.3 1

# The area holds what its words lie in: the second object, by an address within it.
addr t.1
poke a.0 0x1020
take t.2 a.0
same t.1 t.2
peek a.0
poke a.1 7
take t.2 a.1

# Manual blocks of four words. A place that has a block takes no other (2), and word 4 is past the last (3).
pool m mfs 4
blocks b 2
alloc m 4 b.0
store b.0 3 99
load b.0 3
load b.0 4
alloc m 4 b.0
alloc m 5 b.1
free b.0
free b.0

# A dependency on an address is stale where the object may have moved since. Nothing moves here.
ld d
ldadd d t.1
ldstale d

# The first object is registered for finalization; no message comes before a collection.
finalize t.0
message t.2
definalize t.0
definalize t.0

# What lives, and the words of the block at an address.
live
committed
dump 0x1000
droproot a
live
