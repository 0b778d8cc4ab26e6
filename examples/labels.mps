# A label follows one object through all its moves: read the log of this script by `cnv` and `txt`.

# An arena of 8 grains. f:3:1 has three words, of which word 1 is a reference.
arena 8 8
table t 2
pool p amc front
ap x p exact

# Two objects. The first refers to itself, so it is a ring.
reserve x f:3:1
commit x t.0
put t.0 1 t.0
reserve x f:3:1
commit x t.1

# The name of the label is interned, and the ring labelled by it.
intern ring
label t.0 ring

# The second object is dropped. Each collection moves the ring, and its label with it.
clear t.1
collect
addr t.0
collect
addr t.0

# A name is a label once, and a label has no object of its own.
intern ring
label t.1 ring
