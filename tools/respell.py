#!/usr/bin/env python3
"""Spells this repository's own definitions in snake case, by respell.tsv beside this file: run once, right after the port's script.

usage: tools/respell.py [FOLDER]

A row is an old name, a tab and a new one; a third word is the one file in which the row holds. Whole names turn, in the .antt and
.rt files and the must-fail edits below FOLDER/crates, and in the code spans of FOLDER's Markdown pages. Text in quotation marks stays.
"""

import os
import re
import sys

HERE = os.path.dirname(os.path.abspath(__file__))
NAME = re.compile(r"\"[^\"\n]*\"|[^\s(){}\[\].;,:@\"`«»]+")


def table():
    everywhere, within = {}, {}
    with open(os.path.join(HERE, "respell.tsv"), encoding="utf-8") as f:
        for row in f:
            old, new, *file = row.rstrip("\n").split("\t")
            (within.setdefault(file[0], {}) if file else everywhere)[old] = new
    return everywhere, within


def respelled(text, everywhere, within):
    def turned(m):
        # behind a dot a name of one file's row is a field, which Rattle names after the function that is called
        if m[0] in within and not text.startswith(".", m.start() - 1):
            return within[m[0]]
        return everywhere.get(m[0], m[0])

    return NAME.sub(turned, text)


def files(root):
    for above, folders, found in os.walk(root):
        folders[:] = sorted(f for f in folders if f not in ("out", "target", ".git", "tools"))
        yield from (os.path.join(above, f) for f in sorted(found))


def main():
    root = sys.argv[1] if len(sys.argv) > 1 else "."
    everywhere, within = table()
    for path in files(root):
        place = os.path.relpath(path, root)
        own = within.get(place, {})
        code = place.startswith("crates" + os.sep) and path.endswith((".antt", ".rt", ".edit"))
        if not code and not path.endswith(".md"):
            continue
        with open(path, encoding="utf-8", newline="") as f:
            text = f.read()
        if code:
            new = respelled(text, everywhere, own)
        else:
            new = re.sub(r"`[^`\n]+`", lambda m: respelled(m[0], everywhere, own), text)
        if new != text:
            with open(path, "w", encoding="utf-8", newline="") as f:
                f.write(new)


if __name__ == "__main__":
    main()
