#!/usr/bin/env python3
"""Brings the names of this repository's own definitions and lemmas to the spelling of today's Rattle: words in snake case.

usage: python3 tools/respell.py            at the top of a checkout in which port.py has run

tools/respell.tsv has a line for each name: the old one, a tab, the new one; with a third word, only in the files whose path begins with it.
It goes over the .rt, .antt and .edit files of crates/, word by word. In a Proof.antt a word with a dash that stands behind a dot is left: it is a name that
Rattle makes.
"""

import glob
import os
import re

WORD = re.compile(r"(?<![\w'◌-])(\.?)([A-Za-z_][\w']*(?:-[\w']+)*)(?![\w'◌])", re.U)


def main():
    here = os.path.dirname(os.path.realpath(__file__))
    everywhere, inside = {}, []
    with open(os.path.join(here, "respell.tsv"), encoding="utf-8") as f:
        for line in f:
            if not line.strip() or line.startswith("#"):
                continue
            words = line.rstrip("\n").split("\t")
            if len(words) == 2:
                everywhere[words[0]] = words[1]
            else:
                inside.append(words)
    for path in sorted(glob.glob("crates/**/*", recursive=True)):
        if not path.endswith((".rt", ".antt", ".edit")) or "/out/" in path:
            continue
        with open(path, encoding="utf-8") as f:
            text = f.read()
        names = dict(everywhere)
        for old, new, prefix in inside:
            if path.startswith(prefix):
                names[old] = new
        made = path.endswith("/Proof.antt")

        def turn(m):
            dot, word = m.group(1), m.group(2)
            if made and dot and "-" in word:
                return m.group(0)
            return dot + names.get(word, word)

        after = WORD.sub(turn, text)
        if after != text:
            with open(path, "w", encoding="utf-8") as f:
                f.write(after)


main()
