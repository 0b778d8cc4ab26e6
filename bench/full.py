#!/usr/bin/env python3
"""Prints the instructions that a collection of a full arena takes, for each object: of 2,048 grains none is free and each object is live,
so objects of a pool that moves stay where they are. Beside it what the same arena takes with a pool that marks, and the ratio of the two.

full.py PROGRAM [OTHER]: PROGRAM is the program `mps`, and OTHER one with the same command line, for which the same is printed after it.
Instructions are counted by callgrind of valgrind. The objects are a list, by which each but the newest is held. The cost is that of the two
collections after the first.

full.py --clock PROGRAM OTHER: nanoseconds of the processor in place of instructions, of both programs and their ratio, on a quiet machine.
The least of seven runs in turn with many collections, less the least of as many with one.
"""
import os
import subprocess
import sys
import tempfile

from instructions import instructions

GRAINS, WORDS_OF_GRAIN = 2048, 512
SIZES = (3, 8, 64, 512)    # words of an object
COLLECTIONS = 3
RUNS = 7


def objects_of(words):
    """How many objects of this size fill the arena. None lies in two grains."""
    return GRAINS * (WORDS_OF_GRAIN // words)


def script(pool, words, collections):
    """A list of objects, as many as fill the arena, which is then collected."""
    lines = [f"arena {GRAINS} {GRAINS}", "table t 1", f"pool p {pool} front", "ap x p exact"]
    lines += [f"reserve x f:{words}:1", "init x 1 t.0", "commit x t.0"] * objects_of(words)
    return lines + ["collect"] * collections + ["committed", "live"]


def cost(program, pool, words):
    """The instructions that a collection takes for each object."""
    objects = objects_of(words)
    answers = [str(GRAINS), f"{objects} {objects * words}"]
    once, often = (instructions(program, script(pool, words, n), answers) for n in (1, COLLECTIONS))
    return (often - once) / ((COLLECTIONS - 1) * objects)


def seconds(program, script_file):
    """What the processor has spent on a run of the script. It is written to a file first, so that no pipe is waited for."""
    script_file.seek(0)
    process = subprocess.Popen([program, "run"], stdin=script_file, stdout=subprocess.DEVNULL)
    _, status, usage = os.wait4(process.pid, 0)
    process.returncode = os.waitstatus_to_exitcode(status)
    if process.returncode != 0:
        sys.exit(f"{program}: status {process.returncode}")
    return usage.ru_utime + usage.ru_stime


def file_of(lines):
    script_file = tempfile.TemporaryFile()
    script_file.writelines(f"{line}\n".encode() for line in lines)
    script_file.flush()
    return script_file


def nanoseconds(programs, pool, words):
    """The nanoseconds that a collection takes for each object, of each program."""
    more = max(8, 2_000_000 // objects_of(words))
    files = [file_of(script(pool, words, n)) for n in (1, 1 + more)]
    times = {program: ([], []) for program in programs}
    for _ in range(RUNS):
        for number, script_file in enumerate(files):
            for program in programs:
                times[program][number].append(seconds(program, script_file))
    return [(min(often) - min(once)) * 1e9 / (more * objects_of(words)) for once, often in times.values()]


def show_clock(programs):
    print(f"{'words each':>10}{'pool':>6}{'ns':>8}{'other':>8}{'ratio':>8}")
    for words in SIZES:
        for pool in ("amc", "ams"):
            ours, other = nanoseconds(programs, pool, words)
            print(f"{words:10}{pool:>6}{ours:8.1f}{other:8.1f}{ours / other:8.2f}", flush=True)


def show(program):
    print(f"{program}\n{'words each':>10}{'objects':>10}{'amc':>10}{'ams':>10}{'ratio':>8}")
    for words in SIZES:
        moving, marking = (cost(program, pool, words) for pool in ("amc", "ams"))
        print(f"{words:10}{objects_of(words):10}{moving:10.0f}{marking:10.0f}{moving / marking:8.2f}")


def main():
    if sys.argv[1:2] == ["--clock"]:
        show_clock([os.path.abspath(name) for name in sys.argv[2:4]])
        return
    for name in sys.argv[1:]:
        show(os.path.abspath(name))


if __name__ == "__main__":
    main()
