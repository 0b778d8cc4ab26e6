#!/usr/bin/env python3
"""Times the tools beside another program with the same command line:
python3 bench/side_by_side.py PATH-OF-MPS PATH-OF-OTHER [PART-OF-A-NAME]

Makes the inputs in a folder that is removed after, runs both programs in turn, five times each, and prints a row for each
piece of work: the least wall seconds of each, their ratio (1.0: as fast as the other), and the peak memory of each. Of
'run' the peak is that of the whole program. The inputs are the same in each run of this script.
"""
import os
import random
import struct
import subprocess
import sys
import tempfile
import time

REPEATS = 5
COMMIT, MOVE, FREE, FLIP = 80, 82, 85, 32
OBJECTS, ROUNDS = 50_000, 50


def record(line, code, *fields):
    return struct.pack('<HHI%dQ' % len(fields), code, len(fields), line, *fields)


def collecting_log(path):
    """Objects are made, and in each round half of those that are old move and half are freed."""
    old = []
    with open(path, 'wb') as log:
        log.write(b'MPSLOG\x01\x00')
        for number in range(ROUNDS):
            line, space = number + 1, 0x1000_0000 * (number % 2 + 1)
            log.write(record(line, FLIP, line, 0, 0))
            log.write(b''.join(record(line, MOVE, at, space + 24 * i) for i, at in enumerate(old[::2])))
            log.write(b''.join(record(line, FREE, at) for at in old[1::2]))
            moved = [space + 24 * i for i in range(len(old[::2]))]
            made = [space + 24 * i for i in range(len(moved), len(moved) + OBJECTS)]
            log.write(b''.join(record(line, COMMIT, at, 3, 0) for at in made))
            old = moved + made


def scattered_log(path):
    """Blocks that stay, at random addresses."""
    addresses = random.Random(1).sample(range(0x200, 0x2000_0000_0000), 4_700_000)
    with open(path, 'wb') as log:
        log.write(b'MPSLOG\x01\x00')
        log.write(b''.join(record(1, COMMIT, 8 * at, 3, 0) for at in addresses))


def labelled_text(path):
    """Blocks with labels, at random addresses, which then move."""
    labels = 200_000
    places = random.Random(2).sample(range(0x200, 0x2000_0000), labels)
    with open(path, 'w') as text:
        text.write('mpslog 2\n')
        for i in range(1000):
            text.write('1 96 %x %x 0\n' % (i, int.from_bytes(b'name%03d' % i, 'little')))
        for i, at in enumerate(places):
            text.write('2 80 %x 3 0\n2 97 %x %x\n' % (0x10_0000_0000 + 8 * at, 0x10_0000_0000 + 8 * at, i % 1000))
        for number in range(14):
            here, there = 0x10_0000_0000 * (number % 2 + 1), 0x10_0000_0000 * ((number + 1) % 2 + 1)
            text.write(''.join('3 82 %x %x\n' % (here + 8 * at, there + 8 * at) for at in places))


def script(path, head, lines, times):
    with open(path, 'w') as text:
        text.write(head + times * lines)


def make_inputs():
    """In a process of its own: what a process holds when it starts another counts to the peak of that."""
    collecting_log('collecting.log')
    scattered_log('scattered.log')
    labelled_text('labels.txt')
    head = 'arena 2048 2048\ntable t 4\npool p amc front\nap x p exact\n'
    object_lines = 'reserve x f:3:1\ninit x 2 7\ncommit x t.0\n'
    script('num.script', head + object_lines, 'num t.0 2\n', 1_000_000)
    script('commit.script', head, 'reserve x f:2:0\ncommit x t.0\n', 500_000)


def timed(words, source):
    """Wall seconds, the status and the peak memory in KB."""
    with open(source or os.devnull, 'rb') as given, open(os.devnull, 'wb') as nowhere:
        began = time.perf_counter()
        child = subprocess.Popen(words, stdin=given, stdout=nowhere, stderr=nowhere)
        _, status, used = os.wait4(child.pid, 0)
        child.returncode = os.waitstatus_to_exitcode(status)
        return time.perf_counter() - began, child.returncode, used.ru_maxrss


def compare(name, ours, other, words, source=None):
    best = {}
    for _ in range(REPEATS):
        for program in (ours, other):
            seconds, status, peak = timed([program] + words, source)
            former = best.get(program, (seconds, status, peak))
            best[program] = (min(former[0], seconds), status, max(former[2], peak))
    (a, first, here), (b, second, there) = best[ours], best[other]
    note = '' if (first, second) == (0, 0) else '  status %d and %d' % (first, second)
    print('| %-44s | %7.3f | %7.3f | %5.2f | %7d | %7d |%s' % (name, a, b, a / b, here, there, note), flush=True)


def main():
    if sys.argv[1] == '--make':
        make_inputs()
        return
    ours, other = (os.path.abspath(path) for path in sys.argv[1:3])
    part = sys.argv[3] if len(sys.argv) > 3 else ''
    this = os.path.abspath(__file__)
    with tempfile.TemporaryDirectory() as folder:
        os.chdir(folder)
        subprocess.run([sys.executable, this, '--make'], check=True)
        with open('collecting.txt', 'wb') as text:
            subprocess.run([ours, 'cnv', '-f', 'collecting.log'], stdout=text, check=True)
        work = [
            ('blocks, a collecting run', ['blocks', '-f', 'collecting.log'], None),
            ('blocks, 4.7 million at random addresses', ['blocks', '-f', 'scattered.log'], None),
            ('txt, 200,000 labels', ['txt', '-l', 'labels.txt'], None),
            ('cnv -k user, a collecting run', ['cnv', '-f', 'collecting.log', '-k', 'user'], None),
            ('cnv, a collecting run', ['cnv', '-f', 'collecting.log'], None),
            ('txt, a collecting run', ['txt', '-l', 'collecting.txt'], None),
            ('gen 1 1000000', ['gen', '1', '1000000'], None),
            ('gen -r 1 1000000', ['gen', '-r', '1', '1000000'], None),
            ('run, 1,000,000 num', ['run', '-o', 'run.log'], 'num.script'),
            ('run, 500,000 reserve and commit', ['run', '-o', 'run.log'], 'commit.script'),
        ]
        print('| %-44s | %7s | %7s | %5s | %7s | %7s |' % ('Work', 'ours', 'other', 'ratio', 'KB ours', 'other'))
        for name, words, source in work:
            if part in name:
                compare(name, ours, other, words, source)


main()
