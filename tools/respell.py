#!/usr/bin/env python3
"""Respells the repository's own definitions and lemmas: words in snake case, types in camel case.

usage: python3 tools/respell.py [FOLDER]

Goes over the .antt, .rt and .edit files below FOLDER/crates (by default this repository) once, and replaces each name of
respell.txt (a line `OLD NEW`) where it stands as a whole name. Names of functions, exported names and strings are not in
that table. It is run once, after the toolchain's own port script and before any edit by hand; a repository that has the new names is left alone.
"""

import os
import re
import sys

HERE = os.path.dirname(os.path.realpath(__file__))
NAME = re.compile(r"[A-Za-z0-9_'\u2080-\u2089]+(?:-[A-Za-z0-9_'\u2080-\u2089]+)*")

# A lemma whose name another definition takes now, in this file alone.
ONLY = {"manifest/specs/Lawful.antt": {"same_version": "same_version-eq"}}


def table():
    with open(os.path.join(HERE, "respell.txt"), encoding="utf-8") as f:
        return dict(line.split() for line in f if line.strip())


def respelled(root):
    """Whether the new names stand there, told by one definition that nothing else is named like."""
    with open(os.path.join(root, "manifest", "specs", "Reading.antt"), encoding="utf-8") as f:
        return "sameVersion" not in f.read()


def main():
    root = os.path.join(sys.argv[1] if len(sys.argv) > 1 else os.path.dirname(HERE), "crates")
    if respelled(root):
        print("respell: the new names stand here; nothing was changed")
        return
    names = table()
    for folder, dirs, files in os.walk(root):
        dirs[:] = sorted(d for d in dirs if d not in ("out", "target"))
        for name in sorted(files):
            if not name.endswith((".antt", ".rt", ".edit")):
                continue
            path = os.path.join(folder, name)
            with open(path, encoding="utf-8") as f:
                old = f.read()
            here = names | ONLY.get(os.path.relpath(path, root).replace(os.sep, "/"), {})
            new = NAME.sub(lambda m: here.get(m.group(0), m.group(0)), old)
            if new != old:
                with open(path, "w", encoding="utf-8") as f:
                    f.write(new)


main()
