#!/usr/bin/env python3
"""Brings the names of definitions and lemmas to today's spelling: words in snake case, types and modules in camel case.

usage: python3 tools/respell.py [FOLDER]      a checkout, by default the one that this file stands in

tools/respell.txt has a line for each name: the old one, a space, the new one. A dash stays where it joins the names of two
words, or where the library has the name without it; a lemma that would have the name of a function or a word ends in `_lem`.
A name is a whole word. Files of crates/ are read but for their comments and texts, where only names in backticks count; so
are README.md and the pages of docs/. Of an edit the lines `old: ` and `new: ` are read. It is run once, behind the kit's port.py.
"""
import os
import re
import sys

HERE = os.path.dirname(os.path.realpath(__file__))
NAMES = dict(line.split() for line in open(os.path.join(HERE, "respell.txt"), encoding="utf-8"))
WORD = re.compile(r"[^\s(){}\[\],.;:\"«»`|\\]+")
TICKED = re.compile(r"`[^`\n]*`")
# a comment to the end of its line, or a text between quotes: in both only names in backticks count
ASIDE = {".antt": re.compile(r"(?m)(?:(?<=\s)|^)--.*$"), ".rt": re.compile(r'(?m)//.*$|b?"(?:[^"\\]|\\.)*"')}


def named(text):
    return WORD.sub(lambda m: NAMES.get(m.group(0), m.group(0)), text)


def ticked(text):
    return TICKED.sub(lambda m: named(m.group(0)), text)


def code(text, aside):
    out, at = [], 0
    for m in aside.finditer(text):
        out += [named(text[at : m.start()]), ticked(m.group(0))]
        at = m.end()
    return "".join(out) + named(text[at:])


def edit(text):
    return "\n".join(named(line) if line.startswith(("old: ", "new: ")) else line for line in text.split("\n"))


def turned(path, text):
    kind = os.path.splitext(path)[1]
    if kind in ASIDE:
        return code(text, ASIDE[kind])
    return edit(text) if kind == ".edit" else ticked(text)


def files(root):
    for folder, inner, names in os.walk(os.path.join(root, "crates")):
        inner[:] = [d for d in inner if d != "out"]
        yield from (os.path.join(folder, f) for f in names if f.endswith((".antt", ".rt", ".edit")))
    docs = os.path.join(root, "docs")
    yield from (os.path.join(docs, f) for f in os.listdir(docs) if f.endswith(".md") and f != "PORT.md")
    yield os.path.join(root, "README.md")


def main():
    root = sys.argv[1] if len(sys.argv) > 1 else os.path.dirname(HERE)
    for path in sorted(files(root)):
        old = open(path, encoding="utf-8").read()
        new = turned(path, old)
        if new != old:
            open(path, "w", encoding="utf-8").write(new)


main()
