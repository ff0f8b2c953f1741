#!/usr/bin/env python3
"""Brings the repository's own definitions and lemmas to snake case: in specs/, proofs/, in the clauses and imports of src/, and in must-fail edits.

usage: tools/respell.py [--list] [TOP]        once, after the kit's port.py; --list only says what would be renamed, and what falls together

A name in lower camel case, or a part of one that dashes join, is turned word by word: kindByte is kind_byte, getD-wide get_or-wide. Types, modules, exported
names, strings and the functions of src/ stay. A definition and the function that computes it may have one name.
"""

import collections
import glob
import os
import re
import sys

PART = r"(?<![\w'])[a-z][a-z0-9]*(?:[A-Z][A-Za-z0-9]*)+(?![A-Za-z0-9_])"
# What std calls it now.
TAKEN = {"getD": "get_or"}
# Lemmas that port.py joined by an underscore, since a function has that name, and that would fall together with a definition: a dash again.
DASHED = {"reading": "head_bytes", "decimal_text": "digits_from", "climb": "reach_of", "erosion_step": "low_near"}


def snake(name):
    if name in TAKEN:
        return TAKEN[name]
    return re.sub(r"([a-z0-9])([A-Z])", r"\1_\2", name).lower()


def files(top):
    for pattern in ("specs/**/*.antt", "proofs/**/*.antt", "src/*.rt", "must-fail/*.edit"):
        yield from sorted(glob.glob(os.path.join(top, "crates", "*", pattern), recursive=True))


def respelled(text, path):
    """The text with its names turned; in code, strings stay."""
    turn = lambda m: snake(m.group(0))
    crate = path.split(os.sep)[path.split(os.sep).index("crates") + 1]
    if path.endswith(".antt") and crate in DASHED:
        text = re.sub(r"(?<![\w'.«-])" + DASHED[crate] + r"(?![\w'-])", DASHED[crate].replace("_", "-"), text)
    if path.endswith(".antt"):
        return re.sub(PART, turn, text)
    return "\n".join(
        "".join(piece if piece.startswith('"') else re.sub(PART, turn, piece) for piece in re.split(r'("(?:[^"\\]|\\.)*")', line))
        for line in text.split("\n")
    )


def main(argv):
    only_list = "--list" in argv
    argv = [a for a in argv if a != "--list"]
    top = argv[0] if argv else os.path.dirname(os.path.dirname(os.path.abspath(__file__)))
    found, words = set(), collections.Counter()
    texts = {}
    for path in files(top):
        with open(path, encoding="utf-8") as f:
            texts[path] = f.read()
        found |= set(re.findall(PART, texts[path]))
        words.update(re.findall(r"[A-Za-z][\w']*", texts[path]))
    taken = sorted(n for n in found if n not in TAKEN and words[snake(n)])
    twice = [s for s, k in collections.Counter(snake(n) for n in found).items() if k > 1]
    if only_list:
        print(f"{len(found)} names; taken: {taken}; two that become one: {twice}")
        return 0
    changed = 0
    for path, text in texts.items():
        new = respelled(text, path)
        if new != text:
            changed += 1
            with open(path, "w", encoding="utf-8") as f:
                f.write(new)
    print(f"{len(found)} names respelled in {changed} files")
    return 0


if __name__ == "__main__":
    sys.exit(main(sys.argv[1:]))
