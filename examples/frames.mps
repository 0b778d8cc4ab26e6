# A pool of frames: a parser's scratch memory. What is made since a frame was opened is freed at once, the latest first.

# An arena of 8 grains, and a pool of stack-like frames.
arena 8 8
pool s snc
blocks b 8

# The file: a block for its table of names, which lasts as long as its frame.
push s
alloc s 16 b.0
store b.0 0 7

# The first statement: a frame for its nodes, one of them large.
push s
alloc s 4 b.1
alloc s 4 b.2
alloc s 600 b.3
live
committed

# It is read, so its nodes are freed, and their places are empty. The grains of the large one are given back.
pop s 1
live
committed
load b.1 0
load b.0 0

# The second statement has a frame for each of two expressions in it. A mistake is found in the inner one: one pop closes both.
push s
alloc s 4 b.1
push s
alloc s 4 b.2
alloc s 4 b.3
pop s 1
live

# What is refused: to free such a block alone, and to close a frame that isn't open.
free b.0
pop s 1

# The end of the file.
pop s 0
live
committed

# A block that is made while no frame is open is never freed.
alloc s 4 b.0
free b.0
push s
pop s 0
live
