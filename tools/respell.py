#!/usr/bin/env python3
"""Gives the repository's own definitions and lemmas today's spelling: snake case in place of camel case and of dashes between words.

usage: tools/respell.py        at the top of the repository, once, after the kit's port.py

tools/respell.tsv has a line for each name: the old one, the new one and, where only one folder's name is meant, that folder.
Functions of src/, exported C names, strings, inputs and outputs are not in it. It reads crates/*/{src,specs,proofs,must-fail}.
"""

import glob
import os
import re

HERE = os.path.dirname(os.path.abspath(__file__))
WORD = r"[^\s(){}.;,@\"«»\[\]\\⟨⟩`]+"
TOKEN = re.compile(r"(?P<comment>(?:--|//)[^\n]*)|(?P<string>\"(?:[^\"\\\n]|\\.)*\")|(?P<word>%s)" % WORD)
HUMPED = re.compile(r"(?<![\w'-])[a-z][a-z0-9]*[A-Z][\w']*(?![\w'-])")
QUOTED = re.compile(r"`[^`\n]*`")


def table():
    everywhere, below = {}, {}
    with open(os.path.join(HERE, "respell.tsv"), encoding="utf-8") as lines:
        for line in lines:
            old, new, *folder = line.rstrip("\n").split("\t")
            if folder:
                below.setdefault(folder[0], {})[old] = new
            else:
                everywhere[old] = new
    return everywhere, below


def respelled(text, names):
    def word(of):
        return names.get(of, of)

    def comment(of):
        of = HUMPED.sub(lambda m: word(m[0]), of)
        return QUOTED.sub(lambda m: re.sub(WORD, lambda n: word(n[0]), m[0]), of)

    def one(m):
        if m["string"]:
            return m[0]
        return comment(m[0]) if m["comment"] else word(m[0])

    return TOKEN.sub(one, text)


def main():
    everywhere, below = table()
    paths = []
    for part in ("src/**/*.rt", "specs/**/*.antt", "proofs/**/*.antt", "must-fail/*.edit"):
        paths += glob.glob(os.path.join(glob.escape(os.path.dirname(HERE)), "crates/*", part), recursive=True)
    for path in sorted(paths):
        names = dict(everywhere)
        for folder, more in below.items():
            if os.path.relpath(path, os.path.dirname(HERE)).startswith(folder + "/"):
                names.update(more)
        with open(path, encoding="utf-8", newline="") as file:
            old = file.read()
        new = respelled(old, names)
        if new != old:
            with open(path, "w", encoding="utf-8", newline="") as file:
                file.write(new)


if __name__ == "__main__":
    main()
