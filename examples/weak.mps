# A weak table: a collection makes its references null, but those to what is kept for another reason.

# An arena of 8 grains. Objects f:2:1 have two words, of which word 1 is a reference; the weak table f:6:5 has five of them.
arena 8 8
table t 4
pool p amc front
pool w awl front
ap x p exact
ap y w weak

# The table, in t.0, refers to itself and to four objects.
reserve y f:6:5
commit y t.0
put t.0 1 t.0
reserve x f:2:1
commit x t.1
put t.0 2 t.1
reserve x f:2:1
commit x t.2
put t.0 3 t.2
reserve x f:2:1
commit x t.3
put t.0 4 t.3
finalize t.3
clear t.3
reserve x f:2:1
commit x t.3
put t.0 5 t.3
put t.1 1 t.3
clear t.3
clear t.2
addr t.1
live

# The first object is in a slot, and moves. The second is gone. The third is registered, so it is kept for its message. The fourth is
# reached from the first.
collect
live
addr t.1
get t.2 t.0 1
same t.2 t.0
get t.2 t.0 2
same t.2 t.1
get t.2 t.0 3
null t.2
get t.2 t.0 4
null t.2
get t.2 t.0 5
null t.2
clear t.2

# Once the message is taken and dropped the third goes too, and its reference becomes null.
message t.3
clear t.3
collect
live
get t.2 t.0 4
null t.2

# Without the first the fourth goes, too. Both references become null, and the table is left.
clear t.1
clear t.2
collect
live
get t.2 t.0 5
null t.2
get t.2 t.0 1
same t.2 t.0
