# An allocation cache: blocks that are freed are kept by size, and given again without the pool.

# An arena of 8 grains, and a pool of blocks of any sizes.
arena 8 8
pool v mvff
blocks b 4

# A cache of two classes: of blocks of 8 words it keeps two, and of blocks of 16 words one.
cache q v 8 2 16 1

# It is empty yet, so the pool makes these two.
calloc q 8 b.0
calloc q 8 b.1
store b.0 3 7
live

# They go into the cache. They live on, and dump still shows what was stored.
cfree q b.0
cfree q b.1
live
dump 0x1000

# The block that was cached last comes first, and each with all its words 0.
calloc q 8 b.2
calloc q 8 b.3
load b.3 3

# A block of a size without a class comes from the pool, and goes back to it.
calloc q 5 b.0
cfree q b.0

# Of two blocks of 16 words one is kept: the other is freed.
calloc q 16 b.0
calloc q 16 b.1
cfree q b.0
cfree q b.1
live

# A flush frees what the cache has.
cflush q
live

# What is refused: a size that is none, and classes whose sizes fall.
calloc q 0 b.0
cache r v 16 1 8 1
