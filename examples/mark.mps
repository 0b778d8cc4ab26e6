# A pool that marks: a collection keeps its objects where they lie, and frees the others in place.

# An arena of 8 grains. f:3:1 has three words, of which word 1 is a reference.
arena 8 8
table t 3
area a 2
pool p ams front
ap x p exact
ld d

# Four objects. The first refers to the second, and its address is noted in d.
reserve x f:3:1
init x 2 10
commit x t.0
reserve x f:3:1
init x 2 20
commit x t.1
put t.0 1 t.1
reserve x f:3:1
init x 2 30
commit x t.1
reserve x f:3:1
init x 2 40
commit x t.2
addr t.1
addr t.2
ldadd d t.0
live

# Words of the area have the third's address, and that of the byte after the fourth's.
poke a.0 0x1030
poke a.1 0x1049
clear t.1
clear t.2
collect

# Nothing has moved. The third is kept by its address; an address inside an object keeps nothing, so the fourth is gone.
addr t.0
ldstale d
live
get t.1 t.0 1
num t.1 2
take t.2 a.0
num t.2 2

# The next object takes the place of the fourth.
reserve x f:3:1
commit x t.2
addr t.2

# Without the word of the area the third goes too.
poke a.0 0
collect
live

# Nothing refers to anything any more, so nothing is left.
clear t.0
clear t.1
clear t.2
collect
live
committed
