#!/usr/bin/env python3
"""Brings the repository's own definitions and lemmas to snake case, by the table beside this script.

usage: python3 tools/respell.py [FOLDER]     once, after port.py, at the top of a checkout (or of FOLDER)

The table has a line for each name, old and new. A name is a whole word: letters, digits, _, ' and -. It is respelled in specs/ and proofs/, in
the clauses and imports of src/, in must-fail edits, and in what stands in backquotes in pages. Constants (MAX-PENDING) keep their
spelling: with _ they would have the name of the constant of src/, which no definition may have.
"""
import pathlib
import re
import sys

here = pathlib.Path(__file__).resolve().parent
top = pathlib.Path(sys.argv[1]) if len(sys.argv) > 1 else here.parent
table = dict(line.split("\t") for line in (here / "respelled.tsv").read_text().splitlines())
word = re.compile(r"[A-Za-z_][A-Za-z0-9_'-]*")


def respell(text):
    return word.sub(lambda m: table.get(m.group(0), m.group(0)), text)


def plain(text):  # a comment of src/: names in camel case alone are no words of English
    return word.sub(lambda m: m.group(0) if "-" in m.group(0) else table.get(m.group(0), m.group(0)), text)


def source(text):
    lines = [plain(line) if line.lstrip().startswith("//") else respell(line) for line in text.split("\n")]
    return "\n".join(lines)


def page(text):
    return re.sub(r"`[^`\n]*`", lambda m: respell(m.group(0)), text)


def edit(text):
    lines = text.split("\n")
    return "\n".join(respell(line) if line.startswith(("old: ", "new: ")) else line for line in lines)


def rewrite(paths, turn):
    for path in paths:
        text = path.read_text()
        new = turn(text)
        if new != text:
            path.write_text(new)


crates = top / "crates"
rewrite(sorted(p for p in crates.rglob("*.antt") if "out" not in p.relative_to(crates).parts[1:2]), respell)
rewrite(sorted(p for p in crates.rglob("*.rt") if "out" not in p.relative_to(crates).parts[1:2]), source)
rewrite(sorted(crates.glob("*/must-fail*/*.edit")), edit)
rewrite([top / "README.md"] + sorted((top / "docs").glob("*.md")) + sorted(top.glob("crates/*/README.md")), page)
