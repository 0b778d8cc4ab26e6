# A full arena: one grain, which one block of 512 words fills.
arena 1 1
table t 1
pool p amc front
ap x p exact

# The slot is null as yet.
num t.0 1
reserve x f:512:0
commit x t.0

# Neither the segment that the pool holds nor the commit limit has room for two words more.
reserve x f:2:0

# The object has no reference cell: refusal 5.
get t.0 t.0 1
