#!/usr/bin/env python3
"""Spells the repository's own definitions and lemmas as the library does: words in snake case.

usage: python3 tools/respell.py [FOLDER]     in FOLDER (this repository's top if left out), after the toolchain's port.py

tools/respell.tsv has the names, old and new. It turns whole names in the code of .rt and .antt files below crates/, and in their comments only between
backticks. Names of functions in src/, exported names, strings, inputs and outputs are not in the list. It writes in place and is run once.
"""

import os
import re
import sys

HERE = os.path.dirname(os.path.abspath(__file__))
NAME = re.compile(r"[A-Za-zℕ][A-Za-z0-9_'₀-₉ℕ-]*")


def names():
    with open(os.path.join(HERE, "respell.tsv"), encoding="utf-8") as f:
        return dict(line.rstrip("\n").split("\t") for line in f)


def turned(text, table):
    return NAME.sub(lambda m: table.get(m[0], m[0]), text)


def line_turned(line, table, mark):
    at = line.find(mark)
    code, comment = (line, "") if at < 0 else (line[:at], line[at:])
    return turned(code, table) + re.sub(r"`[^`]*`", lambda m: turned(m[0], table), comment)


def main():
    top = sys.argv[1] if len(sys.argv) > 1 else os.path.dirname(HERE)
    table = names()
    for folder, dirs, files in os.walk(os.path.join(top, "crates")):
        dirs[:] = sorted(d for d in dirs if d != "out")
        for name in sorted(files):
            if not name.endswith((".rt", ".antt")):
                continue
            path = os.path.join(folder, name)
            with open(path, encoding="utf-8") as f:
                old = f.read()
            mark = "//" if name.endswith(".rt") else "--"
            new = "\n".join(line_turned(line, table, mark) for line in old.split("\n"))
            if new != old:
                with open(path, "w", encoding="utf-8") as f:
                    f.write(new)


main()
