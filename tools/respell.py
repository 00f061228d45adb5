#!/usr/bin/env python3
"""Brings the repository's own definitions and lemmas to the spelling of today's Rattle.

usage: python3 tools/respell.py        at the top of the repository, once, right after the kit's own script

A second run changes nothing. Words are in snake case, types in camel case: `familyFault` becomes `family_fault`, `sum-ext` becomes `sum_ext`. A dash stays where it joins an
operator, or a fact to what it is shown of. Names that Rattle makes from the code (in Answers and Invariants, and behind a dot) are left alone,
and so are names that a file takes from another library. It prints what it renamed, and stops without a change where names would fall together.
"""

import collections
import os
import re
import sys

# Names whose spelling the rule below does not give.
EXCEPTIONS = {
    "Up-to": "UpTo",
    "cover-answer": "cover_answer_lem",
    "merge-here": "merge_here_lem",
    "middle-of": "middle_of_lem",
    "leZ-antisym": "int_le_antisym",
    "leZ-order": "int_le_order",
    "getD-add": "get_or_add",
    "*ℤ-+ℤ": "*ℤ-+ℤ",
    "+ℤ-*ℤ": "+ℤ-*ℤ",
    "cell-+": "cell-+",
    "choices-+": "choices-+",
    "sum-+": "sum-+",
    "total-+": "total-+",
    "sum-*-left": "sum-*_left",
    "sum-*-right": "sum-*_right",
    "bch3-lawful": "bch3-Lawful",
    "eh3-lawful": "eh3-Lawful",
    "listed-lawful": "listed-Lawful",
    "shifted-lawful": "shifted-Lawful",
    "turned-lawful": "turned-Lawful",
    "offset-lawful": "offset-Lawful",
}

# Names that a proof binds by `let`.
LOCAL = ["columns-same", "groups-same", "no-below", "yes-above", "yes-below"]

DECLARED = re.compile(r"^(\s*)((?:abbrev |unfoldable |pub |data |record )*)([^\s:(){}.,]+)(?: \{[^}]*\}| \([^)]*\))* : (.*)")
TOKEN = re.compile(r"[^\s(){}.,;:@\"`]+")
IMPORT = re.compile(r"\buse ([^\s{;]+)\.\{([^}]*)\}")


def spelled(name):
    if name in EXCEPTIONS:
        return EXCEPTIONS[name]
    if name in EXCEPTIONS.values():
        return name
    if re.match(r"[A-Z]", name):
        return name
    words = re.sub(r"(?<=[a-z0-9])([A-Z])", lambda m: "_" + m.group(1).lower(), name)
    return words.replace("-", "_")


def texts(ending):
    for folder, dirs, files in os.walk("crates"):
        dirs[:] = sorted(d for d in dirs if d != "out")
        for f in sorted(files):
            if f.endswith(ending):
                yield os.path.join(folder, f)


def read(path):
    with open(path, encoding="utf-8") as f:
        return f.read()


def own_crates():
    return sorted(c for c in os.listdir("crates") if os.path.isdir(os.path.join("crates", c, "src")))


def declared():
    """Each name that the repository's specs and proofs declare, with the files that do."""
    found = collections.defaultdict(set)
    for path in texts(".antt"):
        for line in read(path).split("\n"):
            m = DECLARED.match(line)
            if m and not line.lstrip().startswith("--") and not re.match(r"(goal|need)\.", m.group(4)):
                found[m.group(3)].add(path)
    return found


def foreign(text, crates):
    """The names that a file takes from other libraries."""
    names = set()
    for m in IMPORT.finditer(text):
        if m.group(1).split(".")[1:2] and m.group(1).split(".")[1] in crates:
            continue
        names |= {n.strip() for n in m.group(2).split(",")}
    return names


def turned(text, table, fields, skip):
    def one(m):
        name = m.group(0)
        if name in skip or name not in table:
            return name
        before = text[m.start() - 1] if m.start() else " "
        if before == "." and name not in fields:
            return name
        return table[name]

    return TOKEN.sub(one, text)


def ghost_lines(text, turn):
    """Turns a source file's clauses: what stands in braces behind ghost, requires or ensures, and its imports."""
    return re.sub(r"(?m)^.*\bghost use [^;]*;|(?:ghost\b|requires\b|ensures\b)[^{;]*\{[^{}]*(?:\{[^{}]*\}[^{}]*)*\}", lambda m: turn(m.group(0)), text)


def main():
    if sys.argv[1:]:
        print(__doc__)
        return 2
    crates = own_crates()
    names = declared() | {n: set() for n in LOCAL}
    table = {n: spelled(n) for n in names if spelled(n) != n}
    fields = {n for n in table if re.search(r"[a-z0-9][A-Z]", n)}
    into = collections.defaultdict(set)
    for n in list(table) + list(names):
        into[spelled(n)].add(n)
    together = {n: olds for n, olds in into.items() if len(olds) > 1}
    if together:
        print("these would fall together:", together)
        return 1
    for path in [*texts(".antt"), *texts(".rt")]:
        text = read(path)
        others = foreign(text, crates)
        skip = others & set(table)
        if skip:
            print(f"{path}: of another library, left: {', '.join(sorted(skip))}")
        mine = {table[n] for n in TOKEN.findall(text) if n in table and n not in skip}
        if mine & others:
            print(f"{path}: would have the name of an import: {', '.join(sorted(mine & others))}")
        turn = lambda t: turned(t, table, fields, skip)
        new = turn(text) if path.endswith(".antt") else ghost_lines(text, turn)
        if new != text:
            with open(path, "w", encoding="utf-8") as f:
                f.write(new)
    for n in sorted(table):
        print(f"{n} -> {table[n]}")
    return 0


if __name__ == "__main__":
    sys.exit(main())
