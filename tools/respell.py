#!/usr/bin/env python3
"""Respells the definitions and lemmas of this repository: words in snake case, a dash only between two names.

usage: python3 tools/respell.py        at the top, once, after the kit's own script

tools/respell.tsv has a line for each name: the old one, a tab, the new one. Names go as whole words, in .rt, .antt and
.edit files below crates/; text between double quotes stays. Where a lemma would fall together with the definition that
it speaks of, it gets `_lem`.
"""
import os
import re

# A name after `c.` in an answer is a step that Rattle named.
WORD = re.compile(r"\"(?:[^\"\\\n]|\\.)*\"|(?<![\w'-])(?<!\Wc\.)[A-Za-z_](?:[\w'-]*[\w'])?(?![\w'-])")
# Names of the library that were imported under another name: the import, what it becomes, and the words of such a file.
ALIASES = [
    ("ok_or as okOr", "okOr", {"ok_or": "ok_or_lem", "okOr": "ok_or"}),
    ("AllByRecursion as All", "AllByRecursion", {"All": "AllByRecursion"}),
]


def main():
    here = os.path.dirname(os.path.realpath(__file__))
    with open(os.path.join(here, "respell.tsv"), encoding="utf-8") as f:
        names = dict(line.rstrip("\n").split("\t") for line in f)
    for folder, dirs, files in os.walk("crates"):
        dirs[:] = sorted(d for d in dirs if d != "out")
        for name in sorted(files):
            if not name.endswith((".rt", ".antt", ".edit")):
                continue
            path = os.path.join(folder, name)
            with open(path, encoding="utf-8") as f:
                old = f.read()
            table = dict(names)
            new = old
            for alias, plain, words in ALIASES:
                if alias in new:
                    new = new.replace(alias, plain)
                    table.update(words)
            new = WORD.sub(lambda m: table.get(m[0], m[0]), new)
            if new != old:
                with open(path, "w", encoding="utf-8") as f:
                    f.write(new)


if __name__ == "__main__":
    main()
