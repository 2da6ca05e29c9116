#!/usr/bin/env python3
"""Respells this repository's own names, by the table respelled.tsv beside it: words in snake case, types in camel case.

usage: python3 tools/respell.py      at the top of the repository, once, after the port script of the toolchain

Names are turned as whole words: in the code of .antt files; in .rt files those without a dash; in comments, pages and edits
those between backquotes; in edits of .antt files all. A word with a dash in prose stays.
"""
import glob
import os
import re

HERE = os.path.dirname(os.path.realpath(__file__))
WORD = re.compile(r"[^\s(){}.;,@\"«»\[\]`]+")
QUOTED = re.compile(r"`[^`\n]*`")

with open(os.path.join(HERE, "respelled.tsv"), encoding="utf-8") as f:
    TABLE = dict(line.rstrip("\n").split("\t") for line in f)
PLAIN = {old: new for old, new in TABLE.items() if "-" not in old and old != "forces"}


def words(text, table):
    def turned(m):
        new = table.get(m.group(), m.group())
        # A field is no lemma, though it may be spelled like one.
        return new[:-4] if new.endswith("_lem") and text[m.start() - 1 : m.start()] == "." else new

    return WORD.sub(turned, text)


def prose(text):
    return QUOTED.sub(lambda m: words(m.group(), TABLE), text)


def proof_text(text):
    lines = []
    for line in text.split("\n"):
        at = line.find("-- ") if not line.startswith("--") else 0
        code, comment = (line, "") if at < 0 else (line[:at], line[at:])
        lines.append(words(code, TABLE) + words(prose(comment), PLAIN))
    return "\n".join(lines)


def edit_text(text):
    of_proofs = re.search(r"^file: .*\.antt", text, re.M)
    return "\n".join(words(l, TABLE) if of_proofs and l.startswith(("old:", "new:")) else words(prose(l), PLAIN) for l in text.split("\n"))


def turn(paths, how):
    for path in paths:
        with open(path, encoding="utf-8") as f:
            old = f.read()
        new = how(old)
        if new != old:
            with open(path, "w", encoding="utf-8") as f:
                f.write(new)


turn(glob.glob("crates/**/*.antt", recursive=True), proof_text)
turn(glob.glob("crates/**/*.rt", recursive=True), lambda t: words(prose(t), PLAIN))
turn(glob.glob("crates/*/must-fail/*.edit") + glob.glob("tests/edits/**/*.edit", recursive=True), edit_text)
turn(["README.md"] + glob.glob("docs/*.md"), prose)
