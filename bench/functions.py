#!/usr/bin/env python3
"""Prints the functions in which a script spends its instructions: a ring and a wide table that are collected, garbage that is collected, and
manual blocks that are made and freed.

functions.py PROGRAM [MOST]: PROGRAM is the program `mps`, of which callgrind of valgrind counts the instructions of each function, without
those of the functions that it calls. Of each workload two scripts are run that differ in the work alone, and what is printed is the
difference for each object or line: at most MOST functions (12), then the rest and the sum.
"""
import collections
import os
import re
import subprocess
import sys
import tempfile

SIZE = 10_000
OPENING = ["arena 2048 2048", "pool p amc front", "ap x p exact", "pool v mvff", "pool m mfs 4"]
FUNCTION = re.compile(r"\s*([\d,]+) \([ \d.]+%\)  (.*?)(?: \[[^]]*\])?$")


def ring():
    """Objects of three words, each of which refers to the next, and the last to the first."""
    lines = OPENING + ["table t 3", "reserve x f:3:1", "commit x t.0", "copy t.1 t.0"]
    for _ in range(1, SIZE):
        lines += ["reserve x f:3:1", "commit x t.2", "put t.1 1 t.2", "copy t.1 t.2"]
    lines += ["put t.1 1 t.0", "clear t.1", "clear t.2"]
    return lines + ["collect"], lines + 3 * ["collect"], 2 * SIZE


def wide():
    """Objects that refer to nothing, each in a slot of its own."""
    lines = OPENING + [f"table t {SIZE}"]
    for slot in range(SIZE):
        lines += ["reserve x f:3:1", f"commit x t.{slot}"]
    return lines + ["collect"], lines + 3 * ["collect"], 2 * SIZE


def garbage():
    """Objects of which no slot has any but the last."""
    lines = OPENING + ["table t 1"]
    each = SIZE * ["reserve x f:3:1", "commit x t.0"]
    return lines + 2 * (each + ["committed"]), lines + 2 * (each + ["collect"]), 2 * SIZE


def manual():
    """Blocks of 2 to 16 words, and of 4. Every other one is freed, its place is filled by one of another size, and all are freed."""
    lines = OPENING + [f"blocks b {SIZE}", f"blocks d {SIZE}"]

    def made(slots, factor):
        return [line for i in slots for line in (f"alloc v {2 + i * factor % 15} b.{i}", f"alloc m 4 d.{i}")]

    def freed(slots):
        return [line for i in slots for line in (f"free b.{i}", f"free d.{i}")]

    each = made(range(SIZE), 7) + freed(range(0, SIZE, 2)) + made(range(0, SIZE, 2), 4) + freed(range(SIZE))
    return lines + each, lines + 2 * each, len(each)


def instructions(program, lines):
    """The instructions of each function."""
    counts = collections.Counter()
    with tempfile.TemporaryDirectory() as folder:
        found = os.path.join(folder, "found")
        words = ["valgrind", "--tool=callgrind", f"--callgrind-out-file={found}", program, "run"]
        text = "".join(f"{line}\n" for line in lines)
        subprocess.run(words, input=text, capture_output=True, text=True, cwd=folder, check=True)
        shown = subprocess.run(["callgrind_annotate", "--threshold=100", "--auto=no", found], capture_output=True, text=True, check=True)
    for line in shown.stdout.splitlines():
        row = FUNCTION.match(line)
        if row and row[2] != "PROGRAM TOTALS":
            counts[row[2].rpartition("/")[2]] += int(row[1].replace(",", ""))
    return counts


def show(program, workload, most):
    less, more, units = workload()
    counts = instructions(program, more)
    counts.subtract(instructions(program, less))
    print(f"\n{workload.__name__}: {sum(counts.values()) / units:.0f} instructions each")
    first = counts.most_common(most)
    for name, count in first + [("all other functions", sum(counts.values()) - sum(count for _, count in first))]:
        print(f"{count / units:10.1f}  {name}")


def main():
    program = os.path.abspath(sys.argv[1])
    most = int(sys.argv[2]) if len(sys.argv) > 2 else 12
    for workload in (ring, wide, garbage, manual):
        show(program, workload, most)


if __name__ == "__main__":
    main()
