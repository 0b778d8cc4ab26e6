#!/usr/bin/env python3
"""Prints what collections cost that mark, sweep, post and splat, at 10,000 and at 65,536 blocks, and how these costs grow.

flat.py PROGRAM [BEST]: PROGRAM is the program `mps`. Each script runs BEST times (5), and the shortest time counts: user time of the
process, with its log. A round has the lines of the client and a collection. Its cost is that of the five rounds after the first.
flat.py PROGRAM instructions: the same by instructions, which callgrind of valgrind counts, so the load of the machine doesn't matter.
"""
import os
import resource
import subprocess
import sys
import tempfile

from instructions import instructions

SMALL, LARGE = 10_000, 65_536
GROUP = 1_023    # references of one weak object
MOST = 65_535    # the most that one has
ROUNDS = 6


def opening(pool, slots, rank="exact"):
    return [f"arena 2048 2048", f"table t {slots}", f"pool p {pool} front", f"ap x p {rank}"]


def objects(heads, slots):
    lines = []
    for head, slot in zip(heads, slots):
        lines += [f"reserve x {head}", f"commit x t.{slot}"]
    return lines


def sizes(n, mixed):
    """Heads of n objects without references: all of 8 words, or of 2 to 14 words in an order that repeats late."""
    return [f"f:{2 + (i * 7919 + i // 13) % 13 if mixed else 8}:0" for i in range(n)]


def swept(n, mixed):
    """Half of the blocks of a marking pool die, are swept, and their words are filled again."""
    heads = sizes(n, mixed)
    odd = range(1, n, 2)
    refill = objects(reversed([heads[i] for i in odd]), odd)
    return opening("ams", n) + objects(heads, range(n)), [f"clear t.{i}" for i in odd] + ["collect"] + refill


def posted(n):
    """All registered objects are lost, become messages, and the messages are taken."""
    each = objects(["f:2:0"] * n, range(n)) + [f"finalize t.{i}" for i in range(n)] + [f"clear t.{i}" for i in range(n)]
    return opening("amc", n), each + ["collect"] + ["message t.0"] * n + ["clear t.0", "collect"]


def splatted(n, width):
    """Weak references to n objects that are lost become null. Each weak object has some of them."""
    holders = -(-n // width)
    make = ["arena 2048 2048", f"table t {holders}", "table u 1", "pool p amc front", "ap x p exact", "pool w awl front", "ap y w weak"]
    each = []
    for i in range(holders):
        make += [f"reserve y f:{width + 1}:{width}", f"commit y t.{i}"]
        for k in range(min(width, n - i * width)):
            each += ["reserve x f:2:0", "commit x u.0", f"put t.{i} {k + 1} u.0"]
    return make, each + ["clear u.0", "collect"]


def seconds(program, lines, best):
    """The shortest user time of the program on these lines."""
    shortest = None
    with tempfile.TemporaryDirectory() as folder:
        script = os.path.join(folder, "script")
        with open(script, "w") as out:
            out.write("\n".join(lines) + "\n")
        for _ in range(best):
            before = resource.getrusage(resource.RUSAGE_CHILDREN).ru_utime
            with open(script) as given:
                subprocess.run([program, "run"], stdin=given, stdout=subprocess.DEVNULL, cwd=folder, check=True)
            time = resource.getrusage(resource.RUSAGE_CHILDREN).ru_utime - before
            shortest = time if shortest is None else min(shortest, time)
    return shortest


def measure(program, lines, best):
    """Nanoseconds, or instructions if these are asked for."""
    return instructions(program, lines, []) if best == "instructions" else seconds(program, lines, int(best)) * 1e9


def cost(program, make, each, best, n):
    """What a round costs for each of n blocks, with the lines by which the client prepares it."""
    first, all_of_them = (measure(program, make + each * rounds, best) for rounds in (1, ROUNDS))
    return (all_of_them - first) / ((ROUNDS - 1) * n)


WORKLOADS = {
    "swept, one size": lambda n: swept(n, False),
    "swept, mixed sizes": lambda n: swept(n, True),
    "posted": posted,
    f"splatted, {GROUP} each": lambda n: splatted(n, GROUP),
    f"splatted, {MOST} each": lambda n: splatted(n, MOST),
    "splatted, one each": lambda n: splatted(n, 1),
}


def main():
    program = os.path.abspath(sys.argv[1])
    best = sys.argv[2] if len(sys.argv) > 2 else "5"
    what = "instr. at" if best == "instructions" else "ns at"
    print(f"{'':24}{what:>10}{what:>10}")
    print(f"{'':24}{SMALL:>10}{LARGE:>10}{'growth':>8}")
    for name, workload in WORKLOADS.items():
        small, large = (cost(program, *workload(n), best, n) for n in (SMALL, LARGE))
        print(f"{name:24}{small:10.0f}{large:10.0f}{large / small:8.2f}")


if __name__ == "__main__":
    main()
