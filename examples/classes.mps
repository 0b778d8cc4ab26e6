# A transform: the instances of a class get another layout, and all references lead to the new ones at once.

# An arena of 8 grains, and a pool of objects of which the first cells are references.
arena 8 8
table t 6
area a 1
pool p amc front
ap x p exact

# Two instances of a class: a reference and a number. Each refers to the other.
reserve x f:3:1
init x 2 7
commit x t.0
reserve x f:3:1
init x 1 t.0
init x 2 8
commit x t.1
put t.0 1 t.1

# A third object refers to the first instance, with a tag.
reserve x f:2:1
init x 1 t.0
commit x t.2
settag t.2 1 5

# The class gets a second number. These are the new instances, which still refer to the old ones.
reserve x f:4:1
init x 1 t.1
init x 2 7
commit x t.3
reserve x f:4:1
init x 1 t.0
init x 2 8
commit x t.4

# Pairs of an old object and a new one are added while the arena is parked, and none for an old one twice.
transform z
transadd z t.0 t.3
park
transadd z t.0 t.3
transadd z t.1 t.4
transadd z t.0 t.4

# While a word of an area lies in an old object nothing is replaced.
pin a.0 t.1
transapply z
poke a.0 0
transapply z

# Slots lead to the new instances, and so do the cells of all objects, each with its tag.
head t.0
same t.0 t.3
get t.5 t.2 1
same t.5 t.3
tag t.2 1
get t.5 t.3 1
same t.5 t.4
get t.5 t.4 1
same t.5 t.3

# The transform is dropped.
transdrop z

# Nothing refers to the old instances, so a collection frees them.
live
collect
live
