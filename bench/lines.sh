#!/bin/sh
# Measures how many lines a second `mps run` answers, and how much memory it takes at most: on a script of 1,000,000 lines that
# read a number, on one of as many lines that take turns through many commands, of which most are refused, so
# that reading them is most of the work, and on one of 20,000 lines of 4,096 bytes, most of them spaces. Each is run five
# times, and the least processor time counts: of a line, and of a byte of the script.
home=$(cd "$(dirname "$0")/.." && pwd)
folder=$(mktemp -d)
cd "$folder" || exit 1
cp "$home/examples/first.mps" numbers
awk 'BEGIN { for (i = 0; i < 1000000; i++) print "num t.0 2" }' >> numbers
cat > forms <<'F'
limit 64
committed
chain c 4 8
pool p amc front
pool q amcz leaf c
pool m mfs 4
pool v mvff
table t 16
area a 16
blocks b 16
droproot a
ap x p exact
dropap x
ld d
reserve x f:8:3
init x 4 1234
init x 1 t.7
commit x t.3
alloc v 512 b.0
free b.0
load b.0 1
store b.0 1 0xff
get t.3 t.7 1
put t.3 2 t.7
num t.3 4
setnum t.3 4 77
copy t.3 t.7
clear t.3
same t.3 t.7
null t.3
head t.3
addr t.3
poke a.0 0x1000
peek a.0
pin a.0 t.3
take t.3 a.0
start
start c 1
step 7
collect
clamp
park
release
finalize t.3
definalize t.3
message t.3
ldreset d
ldadd d t.3
ldmerge d e
ldstale d
live
dump 0x1000
F
cp "$home/examples/first.mps" commands
awk '{ line[NR] = $0 } END { for (i = 0; i < 1000000; i++) print line[i % NR + 1] }' forms >> commands
cp "$home/examples/first.mps" long
awk 'BEGIN { for (i = 0; i < 20000; i++) printf "num%4091s 2\n", "t.0" }' >> long
"$home/mps" run < "$home/examples/first.mps" > /dev/null || exit 1
python3 - "$home/mps" numbers commands long <<'P'
import os, subprocess, sys

REPEATS = 5

def run(program, name):
    """The processor time in seconds, the status and the peak memory in KiB."""
    with open(name, 'rb') as script, open('answers', 'wb') as answers:
        child = subprocess.Popen([program, 'run'], stdin=script, stdout=answers)
        _, status, used = os.wait4(child.pid, 0)
        child.returncode = os.waitstatus_to_exitcode(status)
    return used.ru_utime + used.ru_stime, child.returncode, used.ru_maxrss

for name in sys.argv[2:]:
    took, status, most = min(run(sys.argv[1], name) for _ in range(REPEATS))
    lines = sum(1 for _ in open('answers', 'rb'))
    size = os.path.getsize(name)
    print(f'{name}: status {status}, {lines} answers in {took:.3f} seconds: {1e9 * took / lines:.1f} ns a line, '
          f'{1e9 * took / size:.2f} ns a byte, at most {most} KiB')
P
rm -r "$folder"
