"""Counts, in the sources of every crate, the places that docs/DESIGN-PASS.md speaks of.

    python3 tools/design_counts.py [FOLDER] [--list]

FOLDER is a checkout of the repository, by default this one; with --list each place is printed. The counts go by text, so that they can be taken
of any commit; docs/DESIGN-PASS.md says which places remain, and why.
"""

import itertools
import pathlib
import re
import sys

arguments = [a for a in sys.argv[1:] if not a.startswith("--")]
TOP = pathlib.Path(arguments[0] if arguments else pathlib.Path(__file__).parents[1])
FILES = sorted(p for p in TOP.glob("crates/*/src/**/*.rt"))


def code(path):
    """The lines of a file with their numbers, comments left out."""
    for number, line in enumerate(path.read_text().split("\n"), 1):
        yield number, re.sub(r"//.*", "", line)


def lines(pattern):
    """The places whose line matches."""
    return [
        (f"{path.relative_to(TOP)}:{number}", line.strip())
        for path in FILES
        for number, line in code(path)
        if re.search(pattern, line)
    ]


def functions():
    """Each function: its place, its signature with the clauses, and its body."""
    for path in FILES:
        text = "\n".join(line for _, line in code(path))
        for found in re.finditer(r"\bfn (\w+)", text):
            rest = text[found.start():]
            body = re.search(r"\n\s*\{\n|\{\n|;\n", rest)
            if not body or body.group().strip() == ";":
                continue
            depth, end = 0, body.start()
            for end in range(body.start(), len(rest)):
                depth += {"{": 1, "}": -1}.get(rest[end], 0)
                if depth == 0 and rest[end] == "}":
                    break
            place = f"{path.relative_to(TOP)}:{text[:found.start()].count(chr(10)) + 1}"
            yield place, found.group(1), rest[:body.start()], rest[body.start():end + 1]


def shapes():
    """Groups of functions that are alike but for names and numbers, of more than one line."""
    groups = {}
    for place, name, _, body in functions():
        if body.count("\n") < 3 or "assert" in body:
            continue
        tokens = re.findall(r"'[^']*'|\"[^\"]*\"|\w+|[^\w\s]", body)
        words = {"if", "match", "for", "in", "return", "let", "mut", "Ok", "Err", "Some", "None", "self", "else"}
        shape = " ".join(t if t in words or not re.match(r"[\w'\"]", t) else "x" for t in tokens)
        groups.setdefault(shape, []).append((place, name))
    return [(", ".join(f"{p} {n}" for p, n in g), "") for g in groups.values() if len(g) > 1]


def facts():
    """Facts of a `requires` or a ghost field that stand in three places or more, whatever value they speak of."""
    found = {}
    for path in FILES:
        for number, line in code(path):
            fact = re.search(r"(?:requires \w*|ghost \w+:) *\{(.*)\}", line)
            if fact:
                text = re.sub(r"\b\w+\.(?=\w)", "v.", fact.group(1))
                text = re.sub(r"(v\.)+(now|old)\b", "v", text)
                for part in re.split(r" × ", text):
                    found.setdefault(part.strip(" ()"), set()).add(f"{path.relative_to(TOP)}:{number}")
    return [(f"{len(p)} places: {t}", "; ".join(sorted(p))) for t, p in found.items() if len(p) > 2]


def together():
    """Pairs of parameters that stand together, by name and type, in three functions or more."""
    seen = {}
    for place, name, head, _ in functions():
        inside = re.search(r"\((.*?)\)\s*(->|\n|$|requires|ensures|where)", head, re.S)
        if not inside:
            continue
        parameters = re.findall(r"(\w+): ([^,]+?)(?:,|$)", inside.group(1).replace("\n", " "))
        parameters = sorted({f"{n}: {t.strip()}" for n, t in parameters})
        for pair in itertools.combinations(parameters, 2):
            seen.setdefault(pair, set()).add(f"{place} {name}")
    return [(f"{len(p)} functions: {', '.join(pair)}", "") for pair, p in seen.items() if len(p) > 2]


POINTS = [
    ("1 flags beside a value", lines(r"^\s*\w+: bool,")),
    ("1 numbers for kinds", lines(r"const [A-Z_]+: u(8|64) = \d;|\bnumber: u(8|64)[,)]")),
    ("1 refusals compared by number", lines(r"\bis_(table_)?refused\(")),
    ("1 errors passed on by hand", lines(r"Err\((\w+)\) => (return )?Err\(\1(\.fault)?\)|Ok\(\w+\) => Ok\(\w+([.(].*)?\),|unreachable\(")),
    ("2 functions of one shape", shapes()),
    ("3 loops over an index", lines(r"\bfor \(?\w+.* in (.*\.\.|.*enumerate\(\))|\bwhile\b|\bloop\b")),
    ("4 comparison, conversion and printing by hand", lines(r"^impl (PartialEq|Eq|PartialOrd|Ord|Clone|Debug)\b|\bfn (print_refusal|value_of|are_alike|opposite|signed|letter|digit)\b|Sign::(Plus|Minus) => .*(1|size)")),
    ("5 facts in three places or more", facts()),
    ("5 pairs of parameters that go together", together()),
    ("6 words and entries by a counted place", lines(r"words\.get\(|_at\(words|\bmut k: usize|\bk: usize")),
    ("7 choices of a step by a macro or a number", lines(r"macro_rules!|\bask!\(|\btimes: u64")),
]

for title, places in POINTS:
    print(f"{title}: {len(places)}")
    if "--list" in sys.argv:
        for place, text in places:
            print(f"    {place}  {text}")
