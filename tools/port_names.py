#!/usr/bin/env python3
"""Spells this repository's own definitions and lemmas as today's Rattle does: words in snake case, by port_names.tsv.

usage: tools/port_names.py            at the top of the repository, once, after the kit's port.py

A row is an old name, a tab and the new one. Whole words turn, in specs/, in proofs/ and in the clauses of src/; in comments
a name of mixed case, or one in backticks. Where a lemma had the name of the function that it speaks of, but for its
spelling, it ends in `_lem`. The files specs/Contracts.antt become specs/Promises.antt, since a module `specs.contracts` is
Rattle's own.
"""

import os
import re

HERE = os.path.dirname(os.path.realpath(__file__))
TOP = os.path.dirname(HERE)
WORD = re.compile(r'[^\s(){}.;,@"«»]+')
COMMENT = {".antt": re.compile(r"(?m)(?<!\S)--[^\n]*"), ".rt": re.compile(r"//[^\n]*")}
SPAN = re.compile(r"`[^`\n]+`")
MIXED = re.compile(r"(?<![\w-])[a-z][A-Za-z0-9]*[A-Z][A-Za-z0-9]*(?![\w-])")
STRING = re.compile(r'b?"(?:\\.|[^"\\\n])*"')


def table():
    with open(os.path.join(HERE, "port_names.tsv"), encoding="utf-8") as f:
        return dict(line.rstrip("\n").split("\t") for line in f)


def turn_code(text, names):
    return WORD.sub(lambda m: names.get(m[0], m[0]), text)


def turn_comment(text, names):
    text = SPAN.sub(lambda m: turn_code(m[0].replace("`", " ` "), names).replace(" ` ", "`"), text)
    return MIXED.sub(lambda m: names.get(m[0], m[0]), text)


def turn(text, kind, names):
    """Comments and code by turns; strings stay."""
    out, at = [], 0
    for m in COMMENT[kind].finditer(text):
        out.append(turn_kept(text[at : m.start()], names))
        out.append(turn_comment(m[0], names))
        at = m.end()
    out.append(turn_kept(text[at:], names))
    return "".join(out)


def turn_kept(text, names):
    out, at = [], 0
    for m in STRING.finditer(text):
        out.append(turn_code(text[at : m.start()], names))
        out.append(m[0])
        at = m.end()
    out.append(turn_code(text[at:], names))
    return "".join(out)


def move_contracts(text):
    return re.sub(r"(?<=specs\.)Contracts(?=[.\s;])", "Promises", text)


def main():
    names = table()
    for folder, dirs, files in os.walk(os.path.join(TOP, "crates")):
        dirs[:] = sorted(d for d in dirs if d != "out")
        for f in sorted(files):
            kind = os.path.splitext(f)[1]
            if kind not in COMMENT:
                continue
            path = os.path.join(folder, f)
            with open(path, encoding="utf-8") as t:
                old = t.read()
            new = move_contracts(turn(old, kind, names))
            if f == "Lib.antt" and folder.endswith("/specs"):
                new = re.sub(r"(?m)^(pub mod )Contracts$", r"\1Promises", new)
            if new != old:
                with open(path, "w", encoding="utf-8") as t:
                    t.write(new)
            if f == "Contracts.antt" and folder.endswith("/specs"):
                os.rename(path, os.path.join(folder, "Promises.antt"))


main()
