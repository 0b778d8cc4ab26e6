#!/usr/bin/env python3
"""Measures how the tree is kept: the longest chain of crates, long functions, files and lines, notions that are defined twice, and
code that stands twice.

Run it anywhere in the repository. It prints a line for each finding and a count for each kind, and changes nothing.
With `--check LEMMAS IMPORTS` it fails if more lemmas or more imports than these numbers are used by nothing.
"""
import collections
import pathlib
import re
import subprocess
import sys

MAX_FUNCTION, MAX_FILE, MAX_LINE, MAX_CRATE, SHARED = 40, 500, 140, 1500, 6
HOME = pathlib.Path(__file__).resolve().parent.parent
DEFINES = re.compile(r"^(?:abbrev |data |record |unfoldable )*pub (?:abbrev |data |record |unfoldable )*(\w+)")


def sources():
    listed = subprocess.run(["git", "ls-files", "crates"], cwd=HOME, capture_output=True, text=True).stdout
    return [pathlib.Path(name) for name in listed.splitlines() if name.endswith((".rt", ".antt"))]


def is_product(path):
    return path.suffix == ".rt" and not any("test" in part for part in path.parts[3:])


def functions(path, rows):
    """The name of each function and the number of lines of its body."""
    name = indent = start = None
    for number, row in enumerate(rows):
        found = re.match(r"(\s*)(?:pub(?:\(\w+\))? )?(?:const )?fn (\w+)", row)
        if found:
            indent, name, start = found.group(1), found.group(2), None
        if name and start is None and (row == indent + "{" or (found and row.endswith("{"))):
            start = number
        elif name and start is not None and row == indent + "}":
            yield name, number - start - 1
            name = None


def definitions(path, rows):
    """The public definitions of a file of definitions, by their names, each with its text but for comments."""
    names = [(number, DEFINES.match(row)) for number, row in enumerate(rows)]
    names = [(number, found.group(1)) for number, found in names if found and not row_is_use(rows[number])]
    ends = [number for number, _ in names[1:]] + [len(rows)]
    for (number, name), end in zip(names, ends):
        yield name, "\n".join(row for row in rows[number:end] if not row.startswith("--")).strip()


def row_is_use(row):
    return row.startswith(("pub use ", "pub mod "))


def significant(rows):
    """The rows that count where code is compared: no comments, imports or lone punctuation."""
    for number, row in enumerate(rows, 1):
        text = " ".join(row.split())
        if len(text) > 3 and not text.startswith(("//", "--", "use ", "ghost use ", "pub use ", "mod ", "pub mod ")):
            yield number, text


def shared_runs(texts):
    """Pairs of places that share rows to the letter, each as long as it goes."""
    places = collections.defaultdict(list)
    rows = {path: list(significant(text)) for path, text in texts.items()}
    for path, lines in rows.items():
        for at in range(len(lines) - SHARED + 1):
            places[tuple(text for _, text in lines[at:at + SHARED])].append((path, at))
    seen = set()
    for window in places.values():
        for index, (path, at) in enumerate(window):
            for other, there in window[index + 1:]:
                if (path, at - 1, other, there - 1) in seen:
                    seen.add((path, at, other, there))
                    continue
                seen.add((path, at, other, there))
                if path == other and there - at < SHARED:
                    continue
                count = 0
                while (at + count < len(rows[path]) and there + count < len(rows[other])
                       and rows[path][at + count][1] == rows[other][there + count][1]):
                    count += 1
                yield path, rows[path][at][0], other, rows[other][there][0], count


def listed():
    """The crates of crates.txt, each with those of them that it lists."""
    rows = [row.split("#")[0] for row in (HOME / "crates.txt").read_text().splitlines()]
    crates = {row.split(":")[0].split()[0]: row.split(":")[1].split() for row in rows if ":" in row}
    return {name: [low for low in lows if low in crates] for name, lows in crates.items()}


def named_by_code(crates, texts):
    """The same, but each with those alone that a line of its products names."""
    named = collections.defaultdict(set)
    for path, rows in texts.items():
        if is_product(path):
            named[path.parts[1]].update(re.findall(r"^(?:pub )?use (mps_\w+)::", "\n".join(rows), re.M))
    return {name: [low for low in lows if low in named[name]] for name, lows in crates.items()}


def longest_chain(crates):
    """The most crates of which each stands on the one before it."""
    chains = {}

    def chain_to(name):
        if name not in chains:
            chains[name] = max((chain_to(low) for low in crates[name]), key=len, default=[]) + [name]
        return chains[name]

    return max((chain_to(name) for name in crates), key=len, default=[])


def report(title, findings):
    print(f"{title}: {len(findings)}")
    for finding in findings:
        print(f"  {finding}")



# ---- figures: each kind with its count, and the findings of those that are to go

MAX_ARGUMENTS, MAX_FOLDER, MAX_SENTENCE = 8, 40, 30
WORDS = "pub|abbrev|unfoldable|inline"
SIGNATURE = re.compile(rf"^(\s*)(?:(?:{WORDS}) )*([^\s(){{}}.,;:λ→=]+) :(?: |$)")
BLOCK = re.compile(r"^(\s*)(?:(?:pub|abbrev|unfoldable) )*(?:data|record) ")
IMPORT = re.compile(r"^\s*(?:pub |ghost )?use (?:Rattle\.)?([^\s;{}]+?)(?:\.\{(.*)\}|(?: as (\S+?))?);?$")
TOKEN = re.compile(r"[^\s(){}.,;:λ→=|]+")
NAME = re.compile(r"[^\s(){}.,;:λ|]+")


def indent_of(row):
    return len(row) - len(row.lstrip())


def lemmas(rows):
    """Each definition of a file but those of records and data: its name, the rows of its type, and all of its rows."""
    found, starts, block = [], [], None
    for number, row in enumerate(rows):
        if block is not None and row.strip() and indent_of(row) <= block:
            block = None
        named = SIGNATURE.match(row)
        if BLOCK.match(row):
            block = indent_of(row)
            starts.append(number)
        elif block is None and named and not row.lstrip().startswith("--"):
            found.append((number, named.group(2)))
            starts.append(number)
    ends = dict(zip(starts, starts[1:] + [len(rows)]))
    for number, name in found:
        end = ends[number]
        body = re.compile(rf"^\s*{re.escape(name)}(?=[\s({{]|$)(?! :)")
        first = next((n for n in range(number + 1, end) if body.match(rows[n])), end)
        yield name, range(number, first), range(number, end)


def arguments(signature):
    """How many arguments a type has that are passed by their places: names in brackets, and premises."""
    text, depth, parts, part = signature.split(" : ", 1)[-1] if " : " in signature else "", 0, [], ""
    text = re.sub(r"λ [^.]*\.", "λ.", text)
    for mark in text:
        depth += (mark in "({") - (mark in ")}")
        if mark == "→" and depth == 0:
            parts.append(part)
            part = ""
        else:
            part += mark
    return sum(arguments_of(part) for part in parts)


def arguments_of(part):
    """How many arguments stand before one arrow: those of brackets with names, or one premise."""
    groups = re.findall(r"[({](?:[^(){}]|[({](?:[^(){}]|[({][^(){}]*[)}])*[)}])*[)}]", part)
    bound = [group for group in groups if re.match(r"[({][^(){}:]+ : ", group)]
    rest = part
    for group in bound:
        rest = rest.replace(group, "", 1)
    if rest.strip():
        return 1
    return sum(len(group[1:].split(" : ")[0].split()) for group in bound if group[0] == "(")


def imports(rows):
    """Each name that a file imports, as the file calls it, with the path that it comes from and its name there."""
    for number, row in enumerate(rows):
        found = IMPORT.match(row)
        if not found or row.lstrip().startswith("pub use"):
            continue
        path, names, other = found.groups()
        if names is None:
            yield number, other or path.split(".")[-1], path, None
        for name in (names or "").split(", "):
            if name:
                there, _, here = name.partition(" as ")
                yield number, here or there, path, there


def tokens(rows):
    """The words of a file but for its comments and imports, each with the rows in which it stands. An operator is its parts."""
    places = collections.defaultdict(set)
    for number, row in enumerate(rows):
        if not row.lstrip().startswith(("--", "use ", "pub use ", "ghost use ", "//")):
            for word in TOKEN.findall(row) + NAME.findall(row) + re.findall(r"\w+", row) + re.findall(r"[^\w\s]+", row):
                places[word].add(number)
    return places


def is_named(name, places, text):
    """Whether a file names this: by a part of an operator, by brackets, or by a `do`, which stands for its two operators."""
    if name == "[]":
        return name in text
    return any(part in places for part in name.split("◌") if part) or (name in ("◌>>=◌", "◌>>◌") and "do" in places)


def unused_imports(antt, words):
    for path, rows in antt.items():
        text = "\n".join(row for row in rows if not IMPORT.match(row))
        for number, here, source, _ in imports(rows):
            if not is_named(here, words[path], text):
                yield f"{path}:{number + 1}: {here} of {source}"


def uses_elsewhere(antt, texts, words):
    """The lemmas that other files use, as pairs of the last part of a path and a name; None stands for any path."""
    used = set()
    for path, rows in antt.items():
        for _, here, source, there in imports(rows):
            if there is not None and is_named(here, words[path], ""):
                used.add((source.split(".")[-1], there))
        text = "\n".join(row for row in rows if not IMPORT.match(row))
        used.update((None, name) for name in re.findall(r"\.([^\s(){}.,;:]+)", text))
    for path, rows in texts.items():
        if path.suffix == ".rt":
            used.update((file, name) for file, name in re.findall(r"(\w+)::([\w-]+)[,)\]]", "\n".join(rows)))
    return used


def unused_lemmas(antt, texts, words):
    used = uses_elsewhere(antt, texts, words)
    for path, rows in antt.items():
        if path.parts[2] != "proofs" or path.stem in ("Answers", "Invariants", "Lib"):
            continue
        for name, _, own in lemmas(rows):
            here = words[path].get(name, set()) - set(own)
            if not here and (path.stem, name) not in used and (None, name) not in used and "◌" not in name:
                yield f"{path}:{own[0] + 1}: {name}"


def laws(texts):
    """The public functions without a body that ensure something."""
    for path, rows in texts.items():
        if path.suffix != ".rt" or "test" in str(path):
            continue
        for found in re.finditer(r"^pub fn (\w+)[^\n]*\n(.*?)^\{(\}?)", "\n".join(rows), re.M | re.S):
            if found.group(3) and "ensures" in found.group(2):
                yield f"{path}: {found.group(1)}"


def sentences(text):
    """The sentences of a page but for its blocks of code; a cell of a table has sentences of its own."""
    text = re.sub(r"^    .*$", "", re.sub(r"```.*?```", "", text, flags=re.S), flags=re.M)
    text = re.sub(r"\]\([^)\n]*\)", "]", re.sub(r"`[^`\n]*`", "CODE", text))
    for part in re.split(r"\n\s*\n|\n(?=\s*(?:[-#|]|\d+\.) ?)|\|", text):
        yield from re.split(r"(?<=[.!?:])\s+(?=[A-Z*(\[])", " ".join(part.split()))


def long_sentences():
    for path in sorted(HOME.glob("docs/*.md")) + [HOME / "README.md"]:
        for sentence in sentences(path.read_text()):
            count = len(re.findall(r"[\w'-]+", sentence))
            if count > MAX_SENTENCE:
                yield f"{path.relative_to(HOME)}: {count} words: {sentence[:60]}"


def full_folders(texts):
    counts = collections.Counter(path.parent for path in texts)
    return [f"{folder}: {count}" for folder, count in sorted(counts.items()) if count > MAX_FOLDER]


def same_definitions(texts):
    """Names of definitions that two crates define in the same words."""
    notions = collections.defaultdict(lambda: collections.defaultdict(set))
    for path, rows in texts.items():
        if path.parts[2] == "specs" and path.suffix == ".antt":
            for name, text in definitions(path, rows):
                notions[name][" ".join(text.split())].add(path.parts[1])
    return [f"{name}: {', '.join(sorted(crates))}" for name, forms in sorted(notions.items())
            for crates in forms.values() if len(crates) > 1]


def figures(texts):
    """Prints a count for each figure of the whole tree, and returns how many lemmas and imports nothing uses."""
    antt = {path: rows for path, rows in texts.items() if path.suffix == ".antt" and "must-fail" not in path.parts}
    words = {path: tokens(rows) for path, rows in antt.items()}
    names = listed()
    print(f"dependency names: {sum(len(lows) for lows in names.values())}")
    for part in ("src", "specs", "proofs"):
        print(f"lines of {part}: {sum(len(rows) for path, rows in texts.items() if path.parts[2] == part)}")
    report("public law functions", list(laws(texts)))
    report(f"lemmas over {MAX_ARGUMENTS} arguments",
           [f"{path}:{own[0] + 1}: {name}" for path, rows in antt.items() if path.parts[2] == "proofs"
            for name, type_rows, own in lemmas(rows) if arguments(" ".join(rows[n].strip() for n in type_rows)) > MAX_ARGUMENTS])
    report("names with two definitions to the letter", same_definitions(texts))
    report(f"folders over {MAX_FOLDER} files", full_folders(texts))
    report(f"sentences of README and docs over {MAX_SENTENCE} words", list(long_sentences()))
    unused = list(unused_lemmas(antt, texts, words)), list(unused_imports(antt, words))
    report("lemmas in proofs that nothing uses", unused[0])
    report("imported names that nothing uses", unused[1])
    return len(unused[0]), len(unused[1])


def check(counts):
    """Fails if more lemmas or imports are unused than the numbers after `--check`."""
    most = [int(word) for word in sys.argv[sys.argv.index("--check") + 1:][:2]]
    for what, count, limit in zip(("lemmas", "imports"), counts, most):
        if count > limit:
            sys.exit(f"{count} {what} are used by nothing, and {limit} are allowed")


def main():
    texts = {path: (HOME / path).read_text().splitlines() for path in sources()}
    crates = listed()
    print(f"crates: {len(crates)}")
    report("longest chain", longest_chain(crates))
    report("longest chain by code", longest_chain(named_by_code(crates, texts)))
    report(f"functions of products over {MAX_FUNCTION} lines",
           [f"{path}: {name}, {count}" for path, rows in texts.items() if is_product(path)
            for name, count in functions(path, rows) if count > MAX_FUNCTION])
    report(f"files over {MAX_FILE} lines", [f"{path}: {len(rows)}" for path, rows in texts.items() if len(rows) > MAX_FILE])
    report(f"lines over {MAX_LINE} characters (imports left out)",
           [f"{path}:{number}" for path, rows in texts.items() for number, row in enumerate(rows, 1)
            if len(row) > MAX_LINE and "use " not in row[:10]])
    crates = collections.Counter()
    for path, rows in texts.items():
        crates[path.parts[1]] += len(rows) if is_product(path) else 0
    report(f"crates whose products have over {MAX_CRATE} lines", [f"{name}: {n}" for name, n in crates.items() if n > MAX_CRATE])
    notions = collections.defaultdict(dict)
    for path, rows in texts.items():
        if path.parts[2] == "specs":
            for name, text in definitions(path, rows):
                notions[name].setdefault(path.parts[1], text)
    report("names of definitions in two crates", [f"{name}: {', '.join(sorted(where))}" for name, where in sorted(notions.items())
                                                  if len(where) > 1 and not re.match(r"\w+$", name) is None])
    report(f"places of {SHARED} or more lines that stand twice",
           [f"{path}:{line} and {other}:{there}, {count} lines" for path, line, other, there, count in shared_runs(texts)])
    counts = figures(texts)
    if "--check" in sys.argv:
        check(counts)


main()
