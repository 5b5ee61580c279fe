#!/usr/bin/env python3
"""Respells the names of this repository's own definitions and lemmas by tools/respell.tsv: words in snake case, types in camel case.

usage: python3 tools/respell.py [TOP]      TOP is the top of a checkout, if not this one

It turns whole names: in .antt and .rt files and must-fail edits outside comments and strings, and in code spans of .md files.
Labels that Rattle makes of a loop (`c.loop-row`) stay. Run it once: it also turns labels that are spelled like a name of
the table, and `c.blank-cells` (cuts) and `w.next-is` (bench) were put back by hand afterwards.
"""

import os
import re
import sys

HERE = os.path.dirname(os.path.realpath(__file__))
NAME = re.compile(r"[^\s(){}.;,:&|@\"«»`λ]+")
QUIET = {
    ".antt": re.compile(r'"(?:[^"\\\n]|\\.)*"|(?<![^\s(){};,])--[^\n]*'),
    ".rt": re.compile(r'"(?:\\.|[^"\\])*"|//[^\n]*'),
    ".edit": re.compile(r'"(?:\\.|[^"\\\n])*"|^file:[^\n]*', re.M),
}
SPAN = re.compile(r"`[^`\n]*`")


def table():
    with open(os.path.join(HERE, "respell.tsv"), encoding="utf-8") as f:
        return dict(line.rstrip("\n").split("\t") for line in f)


def respelt(text, rows, keep_loops):
    def turn(m):
        word = m.group(0)
        if keep_loops and word.startswith("loop-") and text[: m.start()].endswith("."):
            return word
        return rows.get(word, word)

    return NAME.sub(turn, text)


def turned(path, text, rows):
    kind = os.path.splitext(path)[1]
    if kind == ".md":
        return SPAN.sub(lambda m: respelt(m.group(0), rows, False), text)
    parts, at = [], 0
    loops = os.path.basename(path) in ("Answers.antt", "Invariants.antt", "Proof.antt")
    for m in QUIET[kind].finditer(text):
        parts += [respelt(text[at : m.start()], rows, loops), m.group(0)]
        at = m.end()
    return "".join(parts) + respelt(text[at:], rows, loops)


def main(argv):
    top = argv[0] if argv else os.path.dirname(HERE)
    rows = table()
    for folder, dirs, files in os.walk(top):
        dirs[:] = [d for d in dirs if d not in ("out", "target", ".git")]
        for name in files:
            path = os.path.join(folder, name)
            if os.path.splitext(path)[1] not in (".antt", ".rt", ".edit", ".md"):
                continue
            with open(path, encoding="utf-8") as f:
                old = f.read()
            new = turned(path, old, rows)
            if new != old:
                with open(path, "w", encoding="utf-8") as f:
                    f.write(new)


if __name__ == "__main__":
    main(sys.argv[1:])
