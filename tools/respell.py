#!/usr/bin/env python3
"""Respells the repository's own definitions and lemmas: words in snake case, types in upper camel case.

usage: python3 tools/respell.py [FOLDER]      in the top of a checkout, or for the checkout FOLDER; once, after the toolchain's own script

The table beside this file has a row for each name: old, a tab, new.
What turns: names in .antt files, in the clauses and ghost items of .rt files, and in code spans of comments and of the pages. Strings and prose stay.
Names that the toolchain makes of a function's code keep their spelling: those listed from a module Goals or Given, and the few in MADE.
"""

import os
import re
import sys

# in an answer these stand behind a dot for a variable or a call of the code
MADE = {"at-is", "state-number", "fault-at"}
WORD = re.compile(r"[^\s(){}.;,@\"«»\[\]|`]+")
ANTT = re.compile(r"(?P<span>`[^`\n]*`)|(?P<quiet>\"(?:[^\"\\\n]|\\.)*\"|(?<![^\s(){}.;,])--[^\n`]*)|(?P<made>^use [^\n]*\.(?:Goals|Given)\.\{[^}]*\})", re.M)
RUST = re.compile(r"(?P<span>`[^`\n]*`)|(?P<quiet>\"(?:[^\"\\\n]|\\.)*\"|//[^\n`]*|b?'(?:\\.|[^'\\\n])')", re.M)
PAGE = re.compile(r"`[^`\n]+`")


def table():
    names = {}
    with open(os.path.join(os.path.dirname(os.path.abspath(__file__)), "respell.tsv"), encoding="utf-8") as f:
        for line in f:
            old, new = line.rstrip("\n").split("\t")
            names[old] = new
    return names


NAMES = table()


def foreign(text):
    """What a file imports from the toolchain's library, which keeps its spelling."""
    found = set()
    for m in re.finditer(r"use (?:Rattle\.std|lib|borrow)\.[\w.]*\.?\{([^}]*)\}", text):
        found.update(w.strip() for w in m.group(1).split(","))
    return found


def words(text, answer, left, keep=()):
    """The text with each name of the table respelled."""

    def one(m):
        w = m.group()
        if w not in NAMES or w in keep:
            return w
        behind = m.start() > 0 and text[m.start() - 1] == "."
        if behind and answer and w in MADE:
            left.append(w)
            return w
        return NAMES[w]

    return WORD.sub(one, text)


def turn(text, parts, answer, left):
    out, at, keep = [], 0, foreign(text)
    for m in parts.finditer(text):
        out.append(words(text[at : m.start()], answer, left, keep))
        if m.lastgroup == "span":
            out.append(words(m.group(), answer, left, keep))
        else:
            out.append(m.group())
        at = m.end()
    out.append(words(text[at:], answer, left, keep))
    return "".join(out)


def main():
    root = sys.argv[1] if len(sys.argv) > 1 else "."
    changed = 0
    for top in ("crates", "docs", "README.md"):
        top = os.path.join(root, top)
        paths = [top] if os.path.isfile(top) else [os.path.join(d, f) for d, _, fs in os.walk(top) for f in fs if "/out" not in d]
        for p in sorted(paths):
            kind = os.path.splitext(p)[1]
            if kind not in (".antt", ".rt", ".md"):
                continue
            with open(p, encoding="utf-8") as f:
                old = f.read()
            left = []
            answer = os.path.basename(p) in ("Answers.antt", "Invariants.antt", "Proof.antt")
            if kind == ".antt":
                new = turn(old, ANTT, answer, left)
            elif kind == ".rt":
                new = turn(old, RUST, False, left)
            else:
                new = PAGE.sub(lambda m: words(m.group(), False, left), old)
            for w in sorted(set(left)):
                print(f"left: {p}: .{w}")
            if new != old:
                changed += 1
                with open(p, "w", encoding="utf-8") as f:
                    f.write(new)
    print(f"respell: {changed} files changed")


main()
