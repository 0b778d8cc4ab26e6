#!/usr/bin/env python3
"""Times the readers of a log: python3 bench/readers.py PATH-OF-MPS [BLOCKS]

Makes a log in which each of BLOCKS blocks is committed, moved and freed, and prints for `cnv`, `blocks` and `txt` the
seconds, the records a second and a bound on the peak memory (that of this program is counted before the start).
"""
import os
import struct
import sys
import tempfile


def made_log(path, blocks):
    with open(path, 'wb') as log:
        log.write(b'MPSLOG' + struct.pack('<H', 1))
        for i in range(blocks):
            at = 4096 + (i % 50000) * 64
            log.write(struct.pack('<HHIQQQ', 80, 3, i + 1, at, 8, 0)
                      + struct.pack('<HHIQQ', 82, 2, i + 1, at, at + 8)
                      + struct.pack('<HHIQ', 85, 1, i + 1, at + 8))


def timed(words, output, records):
    began = os.times()
    child = os.posix_spawn(words[0], words, os.environ,
                           file_actions=[(os.POSIX_SPAWN_OPEN, 1, output, os.O_WRONLY | os.O_CREAT | os.O_TRUNC, 0o644)])
    _, status, used = os.wait4(child, 0)
    seconds = os.times().elapsed - began.elapsed
    print('%-6s status %d  %.2f s  %.1f million records a second  at most %d KB' % (
        words[1], os.waitstatus_to_exitcode(status), seconds, records / max(seconds, 0.001) / 1e6, used.ru_maxrss))


def main():
    mps = os.path.abspath(sys.argv[1])
    blocks = int(sys.argv[2]) if len(sys.argv) > 2 else 2000000
    with tempfile.TemporaryDirectory() as folder:
        log, text, out = (os.path.join(folder, name) for name in ('log', 'text', 'out'))
        made_log(log, blocks)
        print('%d records, %d bytes' % (3 * blocks, os.path.getsize(log)))
        timed([mps, 'cnv', '-f', log], text, 3 * blocks)
        timed([mps, 'blocks', '-f', log], out, 3 * blocks)
        timed([mps, 'txt', '-l', text], out, 3 * blocks)


main()
