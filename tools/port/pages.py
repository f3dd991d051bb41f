#!/usr/bin/env python3
"""Spells names in the pages as the crates now spell them.

usage: pages.py OLD [FOLDER]

OLD is the commit before the crates were turned, FOLDER the checkout (else the one that this stands in). A name that
specs/ or proofs/ of a crate declared at OLD, and that no crate declares now, is brought to the spelling that a crate
declares now: camel case to snake case, and hyphens to underscores where port.py turned them so. Rewritten in place are
the words in backquotes of README.md, docs/ and tests/PROTOCOL.md (docs/PORT.md stays), and comments of include/ and
examples/. Edits keep their names: a word before ".edit", and what stands in a table's column of edits, stays. It prints
each name that it changed. A second run changes nothing.
"""

import glob
import io
import os
import re
import subprocess
import sys
import tarfile

WORD = r"[A-Za-z][A-Za-z0-9_'-]*(?!\.edit)\b"
HEAD = re.compile(r"^\s*(?:(?:pub|unfoldable|abbrev|opaque|data|record|field|constructor)\s+)*([^\s(){}:;.,@\"]+)\s*(?:[({][^\n]*)?:(?=\s|$)", re.M)


def declared(text):
    """The names that an antt text declares: functions, theorems, fields, constructors, types and modules."""
    text = re.sub(r"(?m)--.*$", "", text).replace("«", "").replace("»", "")
    found = set(HEAD.findall(text))
    return found | set(re.findall(r"(?m)^\s*(?:pub\s+|unfoldable\s+)*(?:record|data|mod|module)\s+([^\s(){}:;.,@]+)", text))


def old_names(old, root):
    ran = subprocess.run(["git", "-C", root, "archive", old, "crates"], stdout=subprocess.PIPE, check=True)
    names = set()
    with tarfile.open(fileobj=io.BytesIO(ran.stdout)) as tar:
        for it in tar.getmembers():
            if re.match(r"crates/[^/]+/(specs|proofs)/.*\.antt$", it.name):
                names |= declared(tar.extractfile(it).read().decode())
    return names


def new_names(root):
    names = set()
    for part in ("specs", "proofs"):
        for path in glob.glob(f"{root}/crates/*/{part}/**/*.antt", recursive=True):
            with open(path, encoding="utf-8") as it:
                names |= declared(it.read())
    return names


def spellings(name):
    snake = re.sub(r"(?<=[a-z0-9])[A-Z]", lambda m: "_" + m[0].lower(), name) if re.match(r"[a-z]", name) else name
    return [it for it in (snake, snake.replace("-", "_"), snake + "_lem") if it != name]


def mapped(old, new):
    names = {}
    for name in old - new:
        now = next((it for it in spellings(name) if it in new), None)
        if now and re.search(r"[A-Z_-]", name):
            names[name] = now
    return names


def in_words(text, names, changed):
    def turn(found):
        word = found[0]
        if word in names:
            changed[word] = names[word]
            return names[word]
        return word

    return re.sub(WORD, turn, text)


def in_page(text, names, changed):
    """Turns the words in backquotes, but not those of a table's column of edits."""
    made, columns = [], []
    for line in text.split("\n"):
        is_row = line.lstrip().startswith("|")
        cells = re.split(r"(?<!\\)\|", line) if is_row else [line]
        if is_row and not columns:
            columns = [it.strip() for it in cells]
        elif not is_row:
            columns = []
        for at, cell in enumerate(cells):
            if is_row and at < len(columns) and re.match(r"edits( |$)", columns[at]):
                continue
            parts = cell.split("`")
            for i in range(1, len(parts), 2):
                parts[i] = in_words(parts[i], names, changed)
            cells[at] = "`".join(parts)
        made.append("|".join(cells))
    return "\n".join(made)


def in_comments(text, names, changed):
    """Turns names with a capital inside, which neither C nor Python nor a trace's text has there."""
    return in_words(text, {it: to for it, to in names.items() if re.search(r"[a-z][A-Z]", it)}, changed)


def main(old, root):
    names = mapped(old_names(old, root), new_names(root))
    changed = {}
    pages = [f"{root}/README.md", f"{root}/tests/PROTOCOL.md", *glob.glob(f"{root}/docs/**/*.md", recursive=True)]
    pages = [it for it in pages if os.path.basename(it) != "PORT.md"]
    others = [it for it in glob.glob(f"{root}/include/*") + glob.glob(f"{root}/examples/*") if it.endswith((".h", ".c", ".py", ".text"))]
    for path in [*pages, *others]:
        with open(path, encoding="utf-8") as it:
            text = it.read()
        turned = (in_page if path in pages else in_comments)(text, names, changed)
        if turned != text:
            with open(path, "w", encoding="utf-8") as it:
                it.write(turned)
    for name, now in sorted(changed.items()):
        print(f"{name} -> {now}")
    print(f"{len(changed)} names changed in the pages, of {len(names)} that the crates spell otherwise")


if __name__ == "__main__":
    if len(sys.argv) not in (2, 3):
        sys.exit(__doc__)
    main(sys.argv[1], sys.argv[2] if len(sys.argv) == 3 else os.path.dirname(os.path.dirname(os.path.dirname(os.path.abspath(__file__)))))
