#!/usr/bin/env python3
"""Respells the names of definitions and lemmas: words in snake case, facts and records in upper camel case.

usage: python3 tools/respell.py [FOLDER]

FOLDER has crates/ (the folder it is run in, if none is given). tools/respelled.txt, beside this script, has the old and the new name on each line.
A name is turned where it stands as a whole word: in the files of specs/ and proofs/, and in the ghost parts of src/, never in comments or strings there.
Running it again changes nothing.
"""

import os
import re
import sys

HERE = os.path.dirname(os.path.realpath(__file__))
LETTER = r"A-Za-z_\u0370-\u03ff\u2100-\u214f"
WORD = re.compile(rf"[{LETTER}][{LETTER}0-9'\u2032-]*")
SKIPPED = re.compile(r'//[^\n]*|"(?:\\.|[^"\\])*"')


def table():
    with open(os.path.join(HERE, "respelled.txt"), encoding="utf-8") as f:
        return dict(line.split() for line in f if line.strip())


def turned(text, names):
    return WORD.sub(lambda m: names.get(m.group(0), m.group(0)), text)


def turned_source(text, names):
    out, at = [], 0
    for m in SKIPPED.finditer(text):
        out += [turned(text[at : m.start()], names), m.group(0)]
        at = m.end()
    return "".join(out) + turned(text[at:], names)


def main():
    top = sys.argv[1] if len(sys.argv) > 1 else "."
    names, count = table(), 0
    for folder, dirs, files in os.walk(os.path.join(top, "crates")):
        dirs[:] = [d for d in dirs if d != "out"]
        for name in files:
            turn = turned if name.endswith(".antt") else turned_source if name.endswith(".rt") else None
            if turn is None:
                continue
            path = os.path.join(folder, name)
            with open(path, encoding="utf-8") as f:
                old = f.read()
            new = turn(old, names)
            if new != old:
                count += 1
                with open(path, "w", encoding="utf-8") as f:
                    f.write(new)
    print(f"respell: {count} files")


if __name__ == "__main__":
    main()
