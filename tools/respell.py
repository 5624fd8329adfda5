#!/usr/bin/env python3
"""Gives the repository's own definitions and lemmas the spelling of today's Rattle.

usage: python3 tools/respell.py [FOLDER]        the top of a checkout; this one where none is named

Run it once on files that port.py has turned. Beside it, names.txt has a line for each name, old and new, and under '# documents'
those that port.py gave and that pages of text still have in the old spelling. A word is replaced where it stands whole, or as a part of a
path: in specs/, proofs/ and clauses everywhere but in strings, in comments and pages only between backquotes, or where its spelling is
one that no plain text has (a capital inside a word). Functions of src/, exported names, strings, inputs and outputs keep their names.
"""

import os
import re
import sys

HERE = os.path.dirname(os.path.realpath(__file__))
WORD = re.compile(r"[^\s(){}\[\];,.\"`:]+")
STRING = re.compile(r'("(?:[^"\\]|\\.)*")')
TICKED = re.compile(r"(`[^`\n]*`)")


def table():
    crates, pages, now = {}, {}, None
    with open(os.path.join(HERE, "names.txt"), encoding="utf-8") as f:
        for line in f:
            if line.startswith("#"):
                now = pages if "documents" in line else crates
            elif line.strip():
                old, new = line.split()
                now[old] = new
    return crates, pages | crates


def words(text, names):
    return WORD.sub(lambda m: names.get(m.group(), m.group()), text)


def plain(text, names):
    """A comment: everything between backquotes, and outside them words with a capital inside."""
    odd = {n: to for n, to in names.items() if re.search("[a-z0-9][A-Z]", n)}
    return "".join(words(p, names if p.startswith("`") else odd) for p in TICKED.split(text))


def term(text, names):
    return "".join(p if p.startswith('"') else words(p, names) for p in STRING.split(text))


def split(line, mark):
    """A line's text and its comment; a mark inside a string begins none."""
    at = 0
    for p in STRING.split(line):
        if not p.startswith('"') and mark in p:
            cut = at + p.index(mark)
            return line[:cut], line[cut:]
        at += len(p)
    return line, ""


def antt(text, names):
    out = []
    for line in text.split("\n"):
        code, comment = split(line, "--")
        out.append(term(code, names) + plain(comment, names))
    return "\n".join(out)


def rt(text, names):
    """Clauses and ghost items; of the code itself nothing."""
    out, depth = [], 0
    for line in text.split("\n"):
        code, comment = split(line, "//")
        begins = re.match(r"\s*(ghost|requires|ensures)\b", code)
        if begins or depth > 0:
            depth = max(0, depth) + code.count("{") - code.count("}")
            code = term(code, names)
        out.append(code + plain(comment, names))
    return "\n".join(out)


def page(text, names):
    return "".join(words(p, names) if p.startswith("`") else p for p in TICKED.split(text))


def files(top):
    for folder, dirs, names in os.walk(top):
        dirs[:] = sorted(d for d in dirs if d not in (".git", "out", "target", "build"))
        for n in sorted(names):
            yield os.path.join(folder, n)


def main(argv):
    top = os.path.abspath(argv[0] if argv else os.path.dirname(HERE))
    crates, pages = table()
    changed = 0
    for path in files(top):
        inside = os.path.relpath(path, top).startswith("crates" + os.sep)
        if path.endswith(".antt") and inside:
            turn, names = antt, crates
        elif path.endswith(".rt") and inside:
            turn, names = rt, crates
        elif path.endswith(".md"):
            turn, names = page, pages
        else:
            continue
        with open(path, encoding="utf-8") as f:
            before = f.read()
        after = turn(before, names)
        if after != before:
            with open(path, "w", encoding="utf-8") as f:
                f.write(after)
            changed += 1
    print(f"respell: {changed} files changed")


if __name__ == "__main__":
    main(sys.argv[1:])
