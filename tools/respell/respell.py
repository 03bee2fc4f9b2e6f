#!/usr/bin/env python3
"""Gives the repository's own definitions and lemmas the spelling of today's Rattle, by the list names.txt beside this file.

usage: python3 respell.py [FOLDER]      FOLDER (or this folder) has crates/ and docs/, to which port.py was put already

Words are in snake case, types in camel case. Each line of names.txt is an old name and the new one. A name counts where it
stands whole: in crates/**/*.antt and *.rt everywhere but in strings, and in docs/*.md and README.md between backticks.
It is run once; a second run changes nothing, since no new name is an old one.
"""

import os
import re
import subprocess
import sys

HERE = os.path.dirname(os.path.realpath(__file__))
NAME = re.compile(r"(?<![\w'′⁺◌-])[^\W\d][\w'′⁺-]*")
STRING = re.compile(r'b?"(?:[^"\\]|\\.)*"', re.S)


def names():
    with open(os.path.join(HERE, "names.txt"), encoding="utf-8") as f:
        return dict(line.split() for line in f)


def turned(text, to):
    return NAME.sub(lambda m: to.get(m[0], m[0]), text)


def outside_strings(text, to):
    out, end = [], 0
    for m in STRING.finditer(text):
        out += [turned(text[end : m.start()], to), m[0]]
        end = m.end()
    return "".join(out + [turned(text[end:], to)])


def in_backticks(text, to):
    return re.sub(r"`[^`\n]+`", lambda m: turned(m[0], to), text)


def rewrite(path, how, to):
    with open(path, encoding="utf-8") as f:
        old = f.read()
    new = how(old, to)
    if new != old:
        with open(path, "w", encoding="utf-8") as f:
            f.write(new)
    return new != old


def main(root):
    to = names()
    changed = 0
    for folder, dirs, files in os.walk(os.path.join(root, "crates")):
        dirs[:] = [d for d in dirs if d not in ("out", ".git")]
        for f in files:
            how = turned if f.endswith(".antt") else outside_strings if f.endswith(".rt") else None
            if how:
                changed += rewrite(os.path.join(folder, f), how, to)
    pages = [os.path.join(root, "README.md")]
    docs = os.path.join(root, "docs")
    pages += [os.path.join(docs, f) for f in sorted(os.listdir(docs)) if f.endswith(".md") and not f.startswith("PORT")]
    for page in pages:
        changed += rewrite(page, in_backticks, to)
    for crate in sorted(os.listdir(os.path.join(root, "crates"))):
        where = os.path.join(root, "crates", crate)
        if os.path.isdir(os.path.join(where, "src")):
            subprocess.run(["rt", "fmt"], cwd=where, stdout=subprocess.DEVNULL, check=False)
    print(f"respell: {changed} files changed")


if __name__ == "__main__":
    main(sys.argv[1] if len(sys.argv) > 1 else ".")
