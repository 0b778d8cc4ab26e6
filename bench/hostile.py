#!/usr/bin/env python3
"""Times the readers over logs and texts whose addresses are chosen: python3 bench/hostile.py PATH-OF-MPS [BLOCKS]

Each kind of addresses is compared with random ones of 64 bits:
- those that collide if the secret of the hashes is 0: such a hash is the xor of the four 32-bit limbs of (ADDRESS xor BEGUN)
  times a factor, a table takes its low bits, and the low 12 bits of each limb are 0 for the numbers of STEPS, so sums of them
  have few values there;
- those that ascend or descend word by word from 16 MiB on, and odd ones from 4 GiB on, which are in the hash table too;
- the last word below 16 MiB and then random ones: the table of words grows at once to its greatest length;
- words below 16 MiB, in no order.
Prints for `blocks` and `txt` the least seconds of processor of five runs over each kind, in turn, and their ratio to those over
random ones. The status is 1 if one is above 1.5.
"""
import os
import random
import struct
import subprocess
import sys
import tempfile

REPEATS = 5
COMMIT = 80
BEGUN = 0xa58d2dfdad70bb16
STEPS = [
    0x005faa90bde50000, 0x04db0dfb54e55000, 0x07745eb69f557000, 0x01b1a214be1a0000, 0x02c2e0ecd64f6000,
    0x01c65d3a88ba3000, 0x0665f4bec7f59000, 0x04fb6a5148e52000, 0x06562e228becf000, 0x042e2092c4a08000,
]


def colliding(count):
    """Sums of the steps, which may stand in a sum more than once."""
    sums = {0: None}
    while len(sums) < count:
        for step in STEPS:
            sums.update((total + step, None) for total in list(sums) if total + step < 1 << 64)
    return [BEGUN ^ total for total in list(sums)[:count]]


def kinds(count):
    """The addresses of each kind; the first are the ones that the others are compared with."""
    random_bits = random.Random(3)
    others = list({random_bits.getrandbits(64): None for _ in range(count)})
    ascending = [(1 << 24) + 8 * number for number in range(count)]
    words = list(range(0x1000, 1 << 24, 8))
    random_bits.shuffle(words)
    return {
        'random': others,
        'colliding': colliding(count),
        'ascending': ascending,
        'descending': ascending[::-1],
        'odd': [(1 << 32) + 2 * number + 1 for number in range(count)],
        'last word': [(1 << 24) - 8] + others[1:],
        'low words': words[:count],
    }


def make_log(path, addresses):
    with open(path, 'wb') as log:
        log.write(b'MPSLOG\x01\x00')
        log.write(b''.join(struct.pack('<HHIQQQ', COMMIT, 3, 1, at, 3, 0) for at in addresses))


def make_text(path, addresses):
    with open(path, 'w') as text:
        text.write('mpslog 2\n1 96 0 61 0\n')
        text.write(''.join('2 97 %x 0\n' % at for at in addresses))


def seconds(words):
    """Of processor, by the program and by the system for it."""
    with open(os.devnull, 'wb') as nowhere:
        child = subprocess.Popen(words, stdout=nowhere)
        _, status, used = os.wait4(child.pid, 0)
        child.returncode = os.waitstatus_to_exitcode(status)
        if child.returncode != 0:
            sys.exit('%s: status %d' % (' '.join(words), child.returncode))
        return used.ru_utime + used.ru_stime


def compare(words, names, paths):
    best = [float('inf')] * len(paths)
    for _ in range(REPEATS):
        best = [min(least, seconds(words + [path])) for least, path in zip(best, paths)]
    for name, least in zip(names, best):
        print('%-8s %-11s %7.3f %6.2f' % (words[1], name, least, least / best[0]), flush=True)
    return max(best) <= 1.5 * best[0]


def main():
    mps = os.path.abspath(sys.argv[1])
    count = int(sys.argv[2]) if len(sys.argv) > 2 else 1_000_000
    with tempfile.TemporaryDirectory() as folder:
        os.chdir(folder)
        names = []
        for name, addresses in kinds(count).items():
            make_log(name + '.log', addresses)
            make_text(name + '.txt', addresses)
            names.append(name)
        print('%-8s %-11s %7s %6s' % ('', '', 'seconds', 'ratio'))
        good = [compare([mps, 'blocks', '-f'], names, [name + '.log' for name in names]),
                compare([mps, 'txt', '-l'], names, [name + '.txt' for name in names])]
    sys.exit(0 if all(good) else 1)


main()
