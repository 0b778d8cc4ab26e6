#!/usr/bin/env python3
"""Compares the clauses of public functions with those of an earlier commit: python3 bench/clauses.py COMMIT [PART-OF-A-NAME]

A function is known by its name, whatever its crate, and a clause by its word and its own name. Prints each function that is
gone or new, each promise that is gone or reads otherwise, and each condition that is new or reads otherwise; last a count of
each. It doesn't judge whether what reads otherwise is stronger: that is for its reader. The status is always 0.
"""
import collections
import pathlib
import re
import subprocess
import sys

HOME = pathlib.Path(__file__).resolve().parent.parent
FUNCTION = re.compile(r"(\s*)(pub )?(?:const )?fn (\w+)")
CLAUSE = re.compile(r"^\s*(requires|ensures)\*?(?: (\w+))? \{", re.M)


def git(*words):
    return subprocess.run(["git", *words], cwd=HOME, capture_output=True, text=True, check=True).stdout


def texts_of(commit):
    """The sources of the crates as they are in a commit, by their paths; those of now if there is none."""
    if commit is None:
        return {name: (HOME / name).read_text() for name in git("ls-files", "crates").splitlines() if is_source(name)}
    names = [name for name in git("ls-tree", "-r", "--name-only", commit, "crates").splitlines() if is_source(name)]
    return {name: git("show", f"{commit}:{name}") for name in names}


def is_source(name):
    parts = name.split("/")
    return name.endswith(".rt") and parts[2] == "src" and not any("test" in part for part in parts[1:])


def body_at(text, start):
    """What stands between the brace before `start` and the one that closes it, with its blanks made one."""
    depth, at = 1, start
    while depth:
        depth += {"{": 1, "}": -1}.get(text[at], 0)
        at += 1
    return " ".join(text[start:at - 1].split())


def heads(text):
    """The name of each public function, or function of a trait, with the rows from there to its body or its end."""
    rows = text.split("\n")
    for number, row in enumerate(rows):
        found = FUNCTION.match(row)
        if not found:
            continue
        indent, depth = found.group(1), 0
        for end in range(number, len(rows)):
            if end > number and depth == 0 and rows[end].startswith(indent + "{"):
                break
            depth += rows[end].count("{") - rows[end].count("}")
            if depth == 0 and rows[end].endswith(";") or depth == 1 and rows[end].endswith(") {"):
                break
        if found.group(2) or rows[end].endswith(";"):
            yield found.group(3), "\n".join(rows[number:end + 1])


def clauses(texts):
    """For each function the clauses of each of its word and name, whichever of the functions of that name has them."""
    found = collections.defaultdict(lambda: collections.defaultdict(set))
    for text in texts.values():
        for name, head in heads(text):
            found[name]
            for clause in CLAUSE.finditer(head):
                found[name][clause.group(1), clause.group(2) or ""].add(body_at(head, clause.end()))
    return found


def compare(before, now):
    """A line for each difference, by its kind."""
    for name in sorted(before.keys() - now.keys()):
        yield "functions that are gone", name
    for name in sorted(now.keys() - before.keys()):
        yield "functions that are new", name
    for name in sorted(before.keys() & now.keys()):
        yield from differences(name, before[name], now[name])


def differences(name, before, now):
    for word, clause in sorted(before.keys() | now.keys()):
        old, new = before.get((word, clause), set()), now.get((word, clause), set())
        if word == "ensures" and old - new:
            yield "promises that are gone" if not new else "promises that read otherwise", f"{name}: {clause}"
        if word == "requires" and new - old:
            yield "conditions that are new" if not old else "conditions that read otherwise", f"{name}: {clause}"


def main():
    if len(sys.argv) < 2:
        sys.exit(__doc__)
    part = sys.argv[2] if len(sys.argv) > 2 else ""
    found = collections.defaultdict(list)
    for kind, line in compare(clauses(texts_of(sys.argv[1])), clauses(texts_of(None))):
        if part in line:
            found[kind].append(line)
    for kind, lines in found.items():
        print(f"{kind}:")
        for line in lines:
            print(f"  {line}")
    for kind, lines in found.items():
        print(f"{kind}: {len(lines)}")


main()
