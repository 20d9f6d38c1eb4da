#!/usr/bin/env python3
"""Respells names of the definitions and lemmas of this repository: words in snake case, as the toolchain spells its own.

usage: python3 tools/respell.py [FOLDER]     at the top of a repository, after the toolchain's own script has run there

Each line of respell.tsv is an old name and the new one. A name counts only as a whole word of antt: in .antt files, in the clauses
of .rt files, in edits, and, where it is in camel case, in the pages of docs/ and README.md. Functions of src/ keep their names.
"""

import os
import re
import sys

HERE = os.path.dirname(os.path.realpath(__file__))
WORD = re.compile(r"[^\s(){}\[\].,;:=|`\"*/\\<>!?&]+")
CAMEL = re.compile(r"^[a-z][a-z0-9]*([A-Z][a-z0-9]*)+$")


def names():
    with open(os.path.join(HERE, "respell.tsv"), encoding="utf-8") as f:
        return dict(line.rstrip("\n").split("\t") for line in f if line.strip())


def turned(text, table):
    return WORD.sub(lambda m: table.get(m[0], m[0]), text)


def main(root):
    table = names()
    camel = {old: new for old, new in table.items() if CAMEL.match(old)}
    for folder, dirs, files in os.walk(root):
        dirs[:] = sorted(d for d in dirs if d not in (".git", "out", "target", "tools"))
        for name in sorted(files):
            path = os.path.join(folder, name)
            if name.endswith(".antt"):
                known = table
            elif name.endswith((".rt", ".edit", ".md")):
                known = camel
            else:
                continue
            with open(path, encoding="utf-8") as f:
                old = f.read()
            new = turned(old, known)
            if new != old:
                with open(path, "w", encoding="utf-8") as f:
                    f.write(new)


if __name__ == "__main__":
    main(sys.argv[1] if len(sys.argv) > 1 else ".")
