#!/usr/bin/env python3
"""Spells the repository's own definitions and lemmas in snake case, as Rattle's library does.

usage: own_names.py FOLDER

FOLDER is a checkout that port.py has turned. Each name that begins with a small letter and has a capital inside becomes
snake case: bufferFits -> buffer_fits. It rewrites .antt files, and the clauses of .rt files, in place; names of Rust
functions, text in quotes and names of the library are left as they are (none of them is spelled so). Edits are turned by
edits.py. A lemma that would then have its function's name ends in _lem. A second run changes nothing.
"""

import glob
import os
import re
import sys

W = r"[^\s(){}.;,@\"«»\[\]\\:&*!<>|]+"
CAMEL = re.compile(r"(?<=[a-z0-9])[A-Z]")

# Lemmas that would meet a definition: the crate, the name, and the files that speak of the lemma by that name.
MEET = [
    ("reporting", "goes_on"),
    ("reach", "beside_at"),
    ("hosts", "store_bytes"),
    ("page_table", "says_at"),
]


def snake(word):
    if not re.match(r"[a-z]", word) or not CAMEL.search(word):
        return word
    return CAMEL.sub(lambda m: "_" + m[0].lower(), word)


def turn(text):
    parts = re.split(r'("(?:[^"\\\n]|\\.)*")', text)
    return "".join(p if i % 2 else re.sub(W, lambda m: snake(m[0]), p) for i, p in enumerate(parts))


def lemma(text, name):
    return re.sub(rf"(?<![\w.'-]){name}(?![\w'.-])", name + "_lem", text)


def main(root):
    changed = 0
    for pattern in ("crates/*/specs/**/*.antt", "crates/*/proofs/**/*.antt", "crates/*/src/**/*.rt"):
        for path in sorted(glob.glob(os.path.join(root, pattern), recursive=True)):
            with open(path, encoding="utf-8") as f:
                old = f.read()
            new = old
            crate = os.path.relpath(path, root).split(os.sep)[1]
            for where, name in MEET:
                camel = re.sub(r"_(\w)", lambda m: m[1].upper(), name)
                if where == crate and path.endswith(".antt") and "proofs" in path and (camel in old or "Laws" in path or "/proofs/" in path):
                    new = lemma(new, name)
            new = turn(new)
            if new != old:
                with open(path, "w", encoding="utf-8") as f:
                    f.write(new)
                changed += 1
    print(f"{changed} files changed")


if __name__ == "__main__":
    main(sys.argv[1])
