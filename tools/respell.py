#!/usr/bin/env python3
"""Brings the names of definitions, fields, constructors and laws to one spelling: words in snake case, a prime as an apostrophe.

usage: tools/respell.py [--table]      at the top of the repository, once, after the toolchain's own port.py

A name that a file of specs/ or proofs/ declares as `nodeOf` or `chain-more` becomes `node_of` and `chain_more`, wherever it stands: in
specs/ and proofs/, and in the clauses, the `ghost use` lines and the quoted words of comments of src/. Types and modules, names that begin
with a capital, keep their spelling, and so do the functions of src/ and what Rattle makes of them. Where a law would have the name of
a definition, as `reading-numbers` beside `readingNumbers`, the law's ends with `_lem`. `--table` prints the table and changes nothing.
"""

import os
import re
import sys

WORD = re.compile(r"[^\s(){}.;,@\"«»\[\]`]+")
DECLARED = re.compile(r"^\s*(?:(?:unfoldable|abbrev|pub|mutual|instance|infix\w*)\s+)*([^\s(){}.;,@\"«»]+)(?:\s+[^\s(){}.;,@\"«»:=]+)*\s+:\s")
CLAUSE = re.compile(r"(?:requires|ensures)\b[^{\n]*\{|^ghost use\b|ghost\s+\w+\s*:\s*\{", re.M)

# laws that port.py respelled already, and that would now have the name of a definition
TWINS = {"block_in": "block_in_lem", "goes_on": "goes_on_lem", "header_of": "header_of_lem"}


def new_spelling(name):
    name = name.replace("′", "'")
    if re.match(r"[A-Z]", name) or "◌" in name:
        return name
    name = re.sub(r"(?<=[\w'])-(?=\w)", "_", name)
    return re.sub(r"(?<=[a-z0-9_'])([A-Z])(?=[a-z]|$|_)", lambda m: m.group(1) if name[m.start() - 1] == "_" else "_" + m.group(1).lower(), name)


def files(kinds):
    for folder, dirs, names in sorted(os.walk("crates")):
        dirs[:] = sorted(d for d in dirs if d != "out")
        for name in sorted(names):
            path = os.path.join(folder, name)
            if name.endswith(kinds):
                yield path


def without_comments(text):
    return re.sub(r"(?<![^\s(){}.;,@\"])--[^\n]*", "", text)


def declared_in(path):
    """The names that a file declares: at its head, in modules, records and under `where`; not the answers to what Rattle asks."""
    with open(path, encoding="utf-8") as f:
        text = without_comments(f.read())
    found = set()
    for line in text.split("\n"):
        m = DECLARED.match(line)
        if not m or re.match(r"\s*(?:use|data|record|module|let|in|open)\b", line):
            continue
        if re.search(r":\s+(?:tie|goal)\.(?:Need|InvT|MeasureT|invariant|decreases|goal)", line) or line.rstrip().endswith("statement M"):
            continue
        found.add(m.group(1))
    # what a file that answers Rattle declares twice over stays
    for line in text.split("\n"):
        m = DECLARED.match(line)
        if m and (re.search(r":\s+(?:tie|goal)\.(?:Need|InvT|MeasureT|invariant|decreases)", line) or line.rstrip().endswith("statement M")):
            found.discard(m.group(1))
    return found


def table():
    declared = {name for path in files(".antt") for name in declared_in(path)}
    rows = {name: TWINS.get(name) or new_spelling(name) for name in declared}
    for name in declared:
        if "-" in name and any(rows[other] == rows[name] for other in declared if other != name):
            rows[name] += "_lem"
    return {name: new for name, new in rows.items() if new != name}


def turned(text, rows):
    return WORD.sub(lambda m: rows.get(m.group(0), m.group(0)), text)


def turn_source(text, rows):
    """Turns the clauses and `ghost use` lines of a source, and the quoted words of its comments."""
    out, at = [], 0
    for m in CLAUSE.finditer(text):
        if m.start() < at:
            continue
        depth, end = 0, m.end() - 1
        if text[m.start():].startswith("ghost use"):
            end = text.index(";", m.start())
        else:
            while True:
                depth += {"{": 1, "}": -1}.get(text[end], 0)
                end += 1
                if depth == 0:
                    break
        out += [text[at:m.start()], turned(text[m.start():end], rows)]
        at = end
    text = "".join(out) + text[at:]
    return re.sub(r"//[^\n]*", lambda m: re.sub(r"`[^`\n]*`", lambda q: turned(q.group(0), rows), m.group(0)), text)


def main():
    rows = table()
    if "--table" in sys.argv:
        for old in sorted(rows):
            print(f"{old}\t{rows[old]}")
        return
    for path in files((".antt", ".rt")):
        with open(path, encoding="utf-8") as f:
            old = f.read()
        new = turned(old, rows) if path.endswith(".antt") else turn_source(old, rows)
        if new != old:
            with open(path, "w", encoding="utf-8") as f:
                f.write(new)


main()
