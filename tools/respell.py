#!/usr/bin/env python3
"""Spells the project's own definitions and lemmas as Rattle does now: words in snake case, a dash only between two names.

usage: tools/respell.py [--text] PATH..

respell.tsv beside this file has a row for each name: old, a tab, new. A middle dot behind a type becomes a dash. Below each PATH it turns .antt files, .rt files outside strings, and the
old: and new: lines of .edit files; with --text, the code spans of .md files. A name with a dash turns in no comment, where it may be prose.
"""
import os
import re
import sys

HERE = os.path.dirname(os.path.realpath(__file__))
WORD = re.compile(r"[\w'→◌·-]+")
# A type and a name that a middle dot joined; Iff is mathlib's, and Rattle heads a path.
DOTTED = re.compile(r"(?<![\w·])(?!Iff·|Rattle·)([A-Z]\w*)·(?=[A-Za-z])")
SKIP = {"out", "target", ".git"}


def table():
    with open(os.path.join(HERE, "respell.tsv"), encoding="utf-8") as f:
        return dict(line.rstrip("\n").split("\t") for line in f)


def words(text, names, prose=False):
    def one(m):
        w = m[0]
        if prose and "-" in w:
            return w
        return DOTTED.sub(r"\1-", "·".join(names.get(part, part) for part in w.split("·")))

    return WORD.sub(one, text)


def code(text, names, mark):
    """Code with comments that begin with mark; strings stay."""
    cut = re.compile(r'"(?:\\.|[^"\\\n])*"|' + mark + r"[^\n]*")
    out, at = [], 0
    for m in cut.finditer(text):
        out += [words(text[at : m.start()], names), m[0] if m[0][0] == '"' else words(m[0], names, prose=True)]
        at = m.end()
    return "".join(out) + words(text[at:], names)


def turned(path, text, names):
    if path.endswith(".antt"):
        return code(text, names, "--(?=[ \n])")
    if path.endswith(".rt"):
        return code(text, names, "//")
    if path.endswith(".edit"):
        return re.sub(r"(?m)^(?:old|new): .*$", lambda m: words(m[0], names), text)
    return re.sub(r"`[^`\n]+`", lambda m: words(m[0], names), text)


def main(args):
    kinds = (".md",) if args[:1] == ["--text"] else (".antt", ".rt", ".edit")
    names, changed = table(), 0
    for top in [a for a in args if a != "--text"]:
        paths = [top] if os.path.isfile(top) else []
        for folder, dirs, files in os.walk(top):
            dirs[:] = sorted(d for d in dirs if d not in SKIP)
            paths += [os.path.join(folder, f) for f in sorted(files)]
        for path in paths:
            if not path.endswith(kinds):
                continue
            with open(path, encoding="utf-8") as f:
                old = f.read()
            new = turned(path, old, names)
            if new != old:
                changed += 1
                with open(path, "w", encoding="utf-8") as f:
                    f.write(new)
    print(f"respell: {changed} files changed")


if __name__ == "__main__":
    main(sys.argv[1:])
