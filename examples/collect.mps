# A collection of everything: what can be reached stays and is moved, but for what a word of an area pins.

# An arena of 8 grains. f:3:1 has three words, of which word 1 is a reference.
arena 8 8
table t 3
area a 1
pool p amc front
ap x p exact

# Three objects. The first refers to the third, and no slot to the second any more.
reserve x f:3:1
init x 2 10
commit x t.0
reserve x f:3:1
init x 2 20
commit x t.1
reserve x f:3:1
init x 2 30
commit x t.1
put t.0 1 t.1
addr t.0
addr t.1
live

# A word of the area pins the third.
pin a.0 t.1
collect

# The first has moved, the third lies where it lay, and the second is gone.
addr t.0
addr t.1
live
get t.2 t.0 1
same t.1 t.2
num t.2 2

# Without the pin it moves too.
poke a.0 0
collect
addr t.1
num t.1 2

# A reservation that a collection ends is committed as flipped: slot 2 stays.
reserve x f:3:1
collect
commit x t.2
num t.2 2

# Nothing refers to anything any more, so nothing is left.
clear t.0
clear t.1
clear t.2
collect
live
committed
