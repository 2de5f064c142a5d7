#!/usr/bin/env python3
"""Brings the names of definitions and lemmas to today's spelling, by the table tools/spelling.txt (old name, new name, a line each).

usage: tools/spell.py            rewrites the .antt, .rt and .edit files below crates/ in place, and lays the crates out
       tools/spell.py FILE..     rewrites these files alone, pages too, and lays nothing out

Whole names alone are changed, and nothing within a quoted text. The table was made once, from what was declared in specs/ and
proofs/: words in snake case, a dash where it joins the names of two definitions, `_lem` at a lemma that would have a definition's name."""
import os
import re
import subprocess
import sys

TOP = os.path.dirname(os.path.dirname(os.path.realpath(__file__)))
NAME = re.compile(r"[A-Za-z_][A-Za-z0-9_'-]*[A-Za-z0-9_']|[A-Za-z_]")
TEXT = re.compile(r'(b?"(?:\\.|[^"\\\n])*")')


def table():
    with open(os.path.join(TOP, "tools", "spelling.txt"), encoding="utf-8") as f:
        return dict(line.split() for line in f)


def respelled(names, text):
    return "".join(part if i % 2 else NAME.sub(lambda m: names.get(m[0], m[0]), part) for i, part in enumerate(TEXT.split(text)))


def turned(names, path, text):
    if path.endswith(".edit"):
        return "".join(l if l.startswith("file:") else respelled(names, l) for l in text.splitlines(keepends=True))
    return respelled(names, text)


def files():
    for folder, dirs, names in os.walk(os.path.join(TOP, "crates")):
        dirs[:] = sorted(d for d in dirs if d != "out")
        for n in sorted(names):
            if n.endswith((".antt", ".rt", ".edit")):
                yield os.path.join(folder, n)


def main(argv):
    names = table()
    for path in argv or files():
        with open(path, encoding="utf-8", newline="") as f:
            old = f.read()
        new = turned(names, path, old)
        if new != old:
            with open(path, "w", encoding="utf-8", newline="") as f:
                f.write(new)
    if not argv:
        for c in sorted(os.listdir(os.path.join(TOP, "crates"))):
            subprocess.run(["rt", "fmt"], cwd=os.path.join(TOP, "crates", c), stdout=subprocess.DEVNULL, stderr=subprocess.DEVNULL)
    return 0


if __name__ == "__main__":
    raise SystemExit(main(sys.argv[1:]))
