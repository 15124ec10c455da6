#!/usr/bin/env python3
"""Facts that stand in the contracts of three or more functions, and parameters that travel together.

usage: tools/clauses.py [FOLDER]     FOLDER holds crates/; it is this repository if none is given

A fact is a run of at least three words in a clause that is balanced in its brackets and begins at an operator or an
opening bracket: what a reader meets again and again. For parameters, each group of two or more with their types that
stands in the heads of three or more functions of one crate, tests apart.
"""
import collections
import pathlib
import re
import sys

ROOT = pathlib.Path(sys.argv[1] if len(sys.argv) > 1 else pathlib.Path(__file__).resolve().parent.parent)
HEAD = re.compile(r"\bfn (\w+)(?:<[^(]*>)?\(([^)]*)\)")
CLAUSE = re.compile(r"(?:ensures|requires)\*?\s+(?:\w+\s+)?\{(.*)\}\s*;?$")
GHOST = re.compile(r"ghost (?:waits|ending) = \{ λ s\. (.*) \};")


def runs(text):
    """The balanced parts in brackets of a clause, as written."""
    stack = []
    for at, sign in enumerate(text):
        if sign == "(":
            stack.append(at)
        elif sign == ")" and stack:
            yield text[stack.pop() + 1 : at]


def functions():
    for path in sorted(ROOT.glob("crates/*/src/**/*.rt")):
        if path.name == "tests.rt":
            continue
        crate = path.relative_to(ROOT).parts[1]
        name, clauses, heads = None, [], []
        for line in path.read_text().splitlines():
            text = line.strip()
            head = HEAD.search(text)
            if head and not text.startswith("//"):
                if name:
                    yield crate, path, name, heads, clauses
                name, heads, clauses = head.group(1), head.group(2), []
            clause = CLAUSE.match(text) or GHOST.match(text)
            if clause:
                clauses.append(clause.group(1).strip())
        if name:
            yield crate, path, name, heads, clauses


def plain(text):
    """Without which state of a value is meant: a fact about x.old is one about x.new too."""
    return re.sub(r"\b(\w+)\.(old|new|now)\b", r"\1", text)


facts = collections.defaultdict(set)
groups = collections.defaultdict(set)
for crate, path, name, head, clauses in functions():
    where = f"{path.relative_to(ROOT)}:{name}"
    for clause in clauses:
        for part in runs(plain(clause)):
            if len(part.split()) >= 2:
                facts[part.strip()].add(where)
    given = [p.strip() for p in head.split(",") if ":" in p]
    for one in given:
        for two in given:
            if one < two:
                groups[(crate, one, two)].add(where)

for title, table in (("facts", facts), ("parameters", groups)):
    print(f"{title} in three or more contracts:")
    found = sorted(((len(w), k) for k, w in table.items() if len(w) >= 3), key=lambda p: (-p[0], str(p[1])))
    for count, key in found:
        print(f"  {count}  {key if isinstance(key, str) else ', '.join(key)}")
