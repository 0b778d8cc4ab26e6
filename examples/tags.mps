# The tag of a reference is the client's: here it says which edges of a graph were visited.

# An arena of 8 grains. f:3:1 has three words, of which word 1 is a reference.
arena 8 8
table t 3
pool p amc front
ap x p exact

# Two objects that refer to each other. A new reference has the tag 0.
reserve x f:3:1
commit x t.0
reserve x f:3:1
init x 1 t.0
commit x t.1
put t.0 1 t.1
tag t.0 1

# The first reference is visited. Its target stays.
settag t.0 1 5
tag t.0 1
get t.2 t.0 1
same t.2 t.1

# A collection moves both objects, and the tag stays in the word beside the new address.
collect
tag t.0 1
addr t.0
addr t.1
dump 0x2000

# So it does when the reference gets another target, or none.
put t.0 1 t.0
tag t.0 1
clear t.2
put t.0 1 t.2
tag t.0 1
dump 0x2000

# Word 2 is a number and word 0 the head: neither has a tag.
tag t.0 2
settag t.0 0 1
tag t.2 1
