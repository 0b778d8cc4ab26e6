#!/usr/bin/env python3
"""Prints how many instructions the program takes for some lines of a script, and for making an arena, with the most memory that is resident.

instructions.py PROGRAM: PROGRAM is the program `mps`. Instructions are counted by callgrind of valgrind, so another load of the machine
doesn't change them. Those of a line are the difference between a run with twice as many of these lines and one with as many.
"""
import os
import re
import subprocess
import sys
import tempfile
import time

TIMES = 2_000

SMALL = ["arena 2048 2048", "table t 2", "pool p amc front", "ap x p exact", "reserve x f:3:1", "commit x t.0", "reserve x f:3:1",
         "commit x t.1"]
MANUAL = ["arena 2048 2048", "pool v mvff", "cache q v 17 8", "pool s snc", "blocks b 1"]


def full(*pool):
    """An arena of 2,048 grains, each of which a block of 511 words has, so there is no place for another of two."""
    opening = ["arena 2048 2048", "table t 1", "chain c" + 8 * " 2048", " ".join(("pool p amc front",) + pool), "ap x p exact"]
    return opening + ["reserve x f:511:0", "commit x t.0"] * 2048


REFUSED = ["reserve x f:2:0"], ["refused 10 2048 1 2048"]

# What is measured: the lines before, the lines that are repeated, and what these answer.
LINES = {
    "num": (SMALL, ["num t.0 2"], ["0"]),
    "setnum": (SMALL, ["setnum t.0 2 7"], ["ok"]),
    "get": (SMALL, ["get t.1 t.0 1"], ["ok"]),
    "put": (SMALL, ["put t.0 1 t.1"], ["ok"]),
    "tag": (SMALL, ["tag t.0 1"], ["0"]),
    "settag": (SMALL, ["settag t.0 1 5"], ["ok"]),
    "label": (SMALL + ["intern ring"], ["label t.0 ring"], ["0x1000"]),
    "reserve, commit": (SMALL, ["reserve x f:8:1", "commit x t.0"], ["ok", "ok"]),
    "alloc, free": (MANUAL, ["alloc v 17 b.0", "free b.0"], ["ok", "ok"]),
    "calloc, cfree": (MANUAL, ["calloc q 17 b.0", "cfree q b.0"], ["ok", "ok"]),
    "push, alloc, pop": (MANUAL, ["push s", "alloc s 17 b.0", "pop s 0"], ["0", "ok", "ok"]),
    "no room, clamped": (full() + ["clamp"], *REFUSED),
    "no room, polls": (full(), *REFUSED),
    "the same on a chain": (full("c"), *REFUSED),
}

# Scripts of which the whole run is measured.
RUNS = {
    "nothing": [],
    "arena 1 1": ["arena 1 1"],
    "arena 2048 2048": ["arena 2048 2048"],
}


def ran(words, lines, folder):
    """Runs a program on these lines."""
    return subprocess.run(words, input="".join(f"{line}\n" for line in lines), capture_output=True, text=True, cwd=folder, check=True)


def instructions(program, lines, answers):
    """How many instructions the program takes on these lines, whose last answers are checked."""
    with tempfile.TemporaryDirectory() as folder:
        given = ran(["valgrind", "--tool=callgrind", "--callgrind-out-file=/dev/null", program, "run"], lines, folder)
    if answers and given.stdout.split("\n")[-1 - len(answers):-1] != answers:
        sys.exit(f"the last answers aren't {answers}")
    return int(re.search(r"Collected : (\d+)", given.stderr)[1])


def of_line(program, before, lines, answers):
    """The instructions of each time these lines stand in a script."""
    once, twice = (instructions(program, before + lines * times, answers * times) for times in (TIMES, 2 * TIMES))
    return (twice - once) / TIMES


def resident(program, lines):
    """The most KiB that were resident once the program has answered these lines and waits for the next."""
    with tempfile.TemporaryDirectory() as folder:
        process = subprocess.Popen([program, "run"], stdin=subprocess.PIPE, stdout=subprocess.PIPE, text=True, cwd=folder)
        process.stdin.write("".join(f"{line}\n" for line in lines))
        process.stdin.flush()
        for _ in lines:
            process.stdout.readline()
        time.sleep(0.2)
        with open(f"/proc/{process.pid}/status") as status:
            most = re.search(r"VmHWM:\s*(\d+) kB", status.read())[1]
        process.communicate()
    return int(most)


def main():
    program = os.path.abspath(sys.argv[1])
    print(f"{'a line':20}{'instructions':>14}")
    for name, (before, lines, answers) in LINES.items():
        print(f"{name:20}{of_line(program, before, lines, answers):14.0f}")
    print(f"\n{'a run of':20}{'instructions':>14}{'KiB':>12}")
    for name, lines in RUNS.items():
        print(f"{name:20}{instructions(program, lines, []):14}{resident(program, lines):12}")


if __name__ == "__main__":
    main()
