# A table of keys and one of values: a value goes with its key.

# An arena of 8 grains. The keys are two leaf objects l:2, and so are the values. The weak table f:3:2 has the keys, and its dependent,
# an exact one of the same pool, has the values.
arena 8 8
table t 6
pool l lo leaf
pool w awl front
ap x l exact
ap k w weak
ap v w exact
reserve x l:2
commit x t.0
reserve x l:2
commit x t.1
reserve k f:3:2
init k 1 t.0
init k 2 t.1
commit k t.2
reserve x l:2
commit x t.3
reserve x l:2
commit x t.4
reserve v f:3:2
init v 1 t.3
init v 2 t.4
commit v t.5
depend t.2 t.5
clear t.3
clear t.4
live

# The first key is dropped. A collection frees it, and makes its reference and that of its value null. The value goes in the next one.
clear t.0
collect
live
get t.3 t.2 1
null t.3
get t.3 t.5 1
null t.3
get t.3 t.2 2
same t.3 t.1
get t.3 t.5 2
null t.3
clear t.3
collect
live

# Without its dependent the table clears its own reference alone.
undepend t.2
clear t.1
collect
live
get t.3 t.2 2
null t.3
get t.3 t.5 2
null t.3

# An exact object has no dependent, and a weak one is none.
depend t.5 t.2
undepend t.2
