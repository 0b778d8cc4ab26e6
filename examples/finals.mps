# Finalization: a client learns of each registered object that nothing else reaches.

# An arena of 8 grains. Objects f:3:1 have three words, of which word 1 is a reference and word 2 a number, here that of an open file.
arena 8 8
table t 3
pool p amc front
ap x p exact

# Three files. The second is registered twice, and the third refers to the first.
reserve x f:3:1
init x 2 10
commit x t.0
finalize t.0
reserve x f:3:1
init x 2 20
commit x t.1
finalize t.1
finalize t.1
reserve x f:3:1
init x 2 30
commit x t.2
put t.2 1 t.0
finalize t.2
live

# All are in slots, so there is no message, but all have moved.
collect
message t.0
addr t.0
addr t.1
addr t.2

# Nothing reaches the second any more: one message. Its other registration stays.
clear t.1
collect
live
message t.1
num t.1 2
message t.0
clear t.1
collect
message t.1
num t.1 2
clear t.1
collect
live

# The first is reached from the third alone. Both registrations are examined in their order: first the first, then the third.
clear t.0
clear t.2
collect
message t.0
num t.0 2
message t.1
num t.1 2
get t.2 t.1 1
same t.2 t.0

# A registration that is taken away gives no message.
finalize t.0
definalize t.0
clear t.0
clear t.1
clear t.2
collect
message t.0
live
