#!/usr/bin/env python3
"""Respells this repository's own definitions, lemmas, fields and theorems as today's Rattle spells names.

usage: python3 tools/respell.py     at the top of the repository, once, after port.py of the kit

tools/respell.tsv has each old name and its new one: words in snake case, statements in camel case. A statement whose
new name would be that of a type, a variant or a module has Law at its end, and a lemma whose new name would be that of
a definition has _lem. It turns proof and definition files whole; of a .rt file the ghost use lines, clauses and
comments, since names of src/ stay as they are.
"""

import os
import re
import sys

HERE = os.path.dirname(os.path.realpath(__file__))
TOKEN = r"[\w'\u25cc*+-]"


def table():
    with open(os.path.join(HERE, "respell.tsv"), encoding="utf-8") as f:
        return dict(line.rstrip("\n").split("\t") for line in f)


def respelled(text, names):
    def one(m):
        word = m.group(0)
        new = names.get(word)
        if new is None:
            return word
        # a lemma's name is not a step of a path
        if new.endswith("_lem") and "-" not in word:
            before, after = text[: m.start()][-1:], text[m.end() :][:1]
            if before == "." or after == ".":
                return word
        return new

    return re.sub(TOKEN + "+", one, text)


def is_code(word):
    return not (re.match(r"[a-z]", word) and re.search(r"[A-Z]", word)) and "-" not in word


def main():
    names = table()
    in_code = {old: new for old, new in names.items() if not is_code(old)}
    for folder, dirs, files in os.walk("crates"):
        dirs[:] = sorted(d for d in dirs if d != "out")
        for name in sorted(files):
            path = os.path.join(folder, name)
            if not name.endswith((".rt", ".antt")):
                continue
            with open(path, encoding="utf-8") as f:
                text = f.read()
            new = respelled(text, names if name.endswith(".antt") else in_code)
            if new != text:
                with open(path, "w", encoding="utf-8") as f:
                    f.write(new)


sys.exit(main())
