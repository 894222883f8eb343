#!/usr/bin/env python3
"""Respells the repository's own definitions and lemmas: words in snake case, types and facts in camel case.

usage: python3 tools/respell.py      at the top of the repository, once, after the older spelling of the language was turned

The table beside this file, respelled.tsv, has a row for each name: old, a tab, new. Whole words turn, in .antt files, in the
clauses of .rt files, in must-fail edits and in the code spans of docs/. A goal of the prover keeps its name, and so does a
step or field that the prover named after the code.
"""

import os
import re
import sys

HERE = os.path.dirname(os.path.realpath(__file__))
TOP = os.path.dirname(HERE)
WORD = re.compile(r'[^\s(){}.;,@"«»\[\]\x60]+')
GOAL = re.compile(r"^(?:abbrev )?(?:pub )?(\S+) : goal\.", re.M)
MADE = re.compile(r"^use \S+\.(?:Goals|Given)(?:\.\{[^}]*\}| as goal)", re.M)
HOLDERS = {"args", "initial", "fn", "new", "auto", "ranges", "row"}
PROOF_FILES = {"Answers.antt", "Invariants.antt", "Choices.antt"}


def rows():
    with open(os.path.join(HERE, "respelled.tsv"), encoding="utf-8") as f:
        return dict(line.rstrip("\n").split("\t") for line in f if line.strip())


def is_label(text, at):
    """Whether the word at a place stands in a path behind c, w, l or g where the prover names the steps."""
    path = re.search(r"(?:^|[\s(,{\[])([cwlg](?:\.[^\s.(){},;]+)*)\.$", text[max(0, at - 200):at])
    if not path:
        return False
    before = path[1].split(".")
    return len(before) == 1 or len(before) == 2 and before[1] in HOLDERS


def turned(text, table, kept=frozenset(), labels=False):
    def one(m):
        w = m[0]
        if w not in table or w in kept:
            return w
        if text[: m.start()].endswith("goal."):
            return w
        if labels and text[m.start() - 1: m.start()] == "." and is_label(text, m.start()):
            return w
        return table[w]

    return WORD.sub(one, text)


def apart(pattern, text, inside, outside):
    out, at = [], 0
    for m in pattern.finditer(text):
        out += [outside(text[at:m.start()]), inside(m[0])]
        at = m.end()
    return "".join(out + [outside(text[at:])])


def file_turned(path, text, table):
    name = os.path.basename(path)
    if name.endswith(".md"):
        return apart(re.compile(r"\x60[^\x60\n]+\x60"), text, lambda t: turned(t, table), lambda t: t)
    if name in PROOF_FILES:
        kept = frozenset(GOAL.findall(text))
        return apart(MADE, text, lambda t: t, lambda t: turned(t, table, kept, True))
    return turned(text, table)


def main():
    table, count = rows(), 0
    for top in ("crates", "docs"):
        for folder, folders, files in os.walk(os.path.join(TOP, top)):
            folders[:] = sorted(d for d in folders if d != "out")
            for f in sorted(files):
                if not f.endswith((".antt", ".rt", ".edit", ".md")):
                    continue
                path = os.path.join(folder, f)
                with open(path, encoding="utf-8") as it:
                    text = it.read()
                new = file_turned(path, text, table)
                if new != text:
                    count += 1
                    with open(path, "w", encoding="utf-8") as it:
                        it.write(new)
    print(f"respelled: {len(table)} names, {count} files")
    return 0


if __name__ == "__main__":
    sys.exit(main())
