#!/usr/bin/env python3
"""Prints what a collection costs in which half of the keys of a weak object die, without a pair and if the object has a dependent.

dependents.py PROGRAM: PROGRAM is the program `mps`. The weak object has a reference to each key, and another object has as many references
beside it. If that is its dependent its references of the same numbers become null. Instructions are counted by callgrind of valgrind, so
another load of the machine doesn't change them: those of a script that collects, less those of the same script that doesn't. Nanoseconds
are of the shortest of 15 runs of each, in turn. The last columns are the instructions in functions that follow moves, by their names.
"""
import os
import sys

from flat import seconds
from functions import instructions

RUNS = 15
SIZES = 16_000, 65_535


def opening(keys, is_linked):
    """A weak object with a reference to each key, of which every other one is in a slot too, and another object with as many."""
    lines = ["arena 2048 2048", "table t 4", f"table u {keys // 2 + 1}", "pool p amc front", "ap x p exact", "pool w awl front"]
    lines += ["ap y w weak", "ap z w exact", f"reserve y f:{keys + 1}:{keys}", "commit y t.0"]
    lines += [f"reserve z f:{keys + 1}:{keys}", "commit z t.1", "reserve x f:2:0", "commit x t.2"]
    for key in range(keys):
        slot = f"u.{key // 2}" if key % 2 else "t.3"
        lines += ["reserve x f:2:0", f"commit x {slot}", f"put t.0 {key + 1} {slot}", f"put t.1 {key + 1} t.2"]
    return lines + ["clear t.3"] + (["depend t.0 t.1"] if is_linked else [])


def following(counts):
    """The instructions in functions that follow moves."""
    return sum(count for name, count in counts.items() if "follow" in name or "mps_dep::" in name)


def cost(program, keys, is_linked):
    """Instructions of the collection, those in functions that follow, and nanoseconds, for each key."""
    lines = opening(keys, is_linked)
    without, with_one = instructions(program, lines), instructions(program, lines + ["collect"])
    times = [(seconds(program, lines, 1), seconds(program, lines + ["collect"], 1)) for _ in range(RUNS)]
    shortest = [min(of_each) for of_each in zip(*times)]
    both = sum(with_one.values()) - sum(without.values()), following(with_one) - following(without)
    return [count / keys for count in both] + [(shortest[1] - shortest[0]) * 1e9 / keys]


def main():
    program = os.path.abspath(sys.argv[1])
    print(f"{'keys':>8}{'instr. a key':>14}{'linked':>10}{'ratio':>8}{'ns a key':>10}{'linked':>10}{'ratio':>8}"
          f"{'follows':>12}{'linked':>10}")
    for keys in SIZES:
        alone, linked = (cost(program, keys, is_linked) for is_linked in (False, True))
        print(f"{keys:8}{alone[0]:14.1f}{linked[0]:10.1f}{linked[0] / alone[0]:8.3f}"
              f"{alone[2]:10.0f}{linked[2]:10.0f}{linked[2] / alone[2]:8.3f}{alone[1]:12.4f}{linked[1]:10.1f}")


if __name__ == "__main__":
    main()
