#!/usr/bin/env python3
"""Prints what a transform costs in segments that are passed over, as their summaries have the zone of no old object, and in others.

passing.py PROGRAM: PROGRAM is the program `mps`. There are 1,000 pairs, of objects that fill four grains, and 57,000 objects of 17 words
with two references each, in 1,900 segments. All references lead to one object, in a grain of its own or in one of the old objects.
Instructions are counted by callgrind of valgrind, so another load of the machine doesn't change them: those of a script that applies the
transform, less those of the same script that doesn't.
"""
import os
import sys

from functions import instructions

PAIRS = 1_000
SIZES = 0, 28_500, 57_000


def made(words, references, slot):
    """An object with so many words and references."""
    return [f"reserve x f:{words}:{references}", f"commit x {slot}"]


def opening(objects, target):
    """The pairs, and so many objects that refer to the one in a slot."""
    lines = ["arena 2048 2048", f"table o {PAIRS}", f"table n {PAIRS}", "table t 3", "pool p amc front", "ap x p exact"]
    for index in range(PAIRS):
        lines += made(2, 0, f"o.{index}")
    lines += made(2, 0, "t.0") + made(512, 0, "t.1")
    for index in range(PAIRS):
        lines += made(2, 0, f"n.{index}")
    for _ in range(objects):
        lines += ["reserve x f:17:2", f"init x 1 {target}", f"init x 2 {target}", "commit x t.2"]
    lines += ["park", "transform z"]
    return lines + [f"transadd z o.{index} n.{index}" for index in range(PAIRS)]


def cost(program, objects, target):
    """Instructions of the transform."""
    lines = opening(objects, target)
    without, applied = (sum(instructions(program, lines + more).values()) for more in ([], ["transapply z"]))
    return applied - without


def main():
    program = os.path.abspath(sys.argv[1])
    print(f"{'objects':>8}{'passed over':>14}{'read':>14}")
    for objects in SIZES:
        passed, read = (cost(program, objects, target) for target in ("t.1", "t.0"))
        print(f"{objects:8}{passed:14}{read:14}")


if __name__ == "__main__":
    main()
