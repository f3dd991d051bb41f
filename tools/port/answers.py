#!/usr/bin/env python3
"""Turns old proofs, proofs/F/Proof.antt in the form tie.close (tie.spec ..), to Invariants.antt and Answers.antt.

usage: answers.py FOLDER NAMES CRATE..

FOLDER is a checkout that port.py has turned, and NAMES the folder that 'rt names NAMES' wrote there. For each function of
a crate the loops' invariants and measures become Invariants.antt, and the answers that Rattle does not find by itself
become Answers.antt, under the names that goals and steps have today. Proof.antt is removed. It proves nothing: what it
could not place is printed, and rt check decides.
"""

import glob
import json
import os
import re
import sys

WORD = r"[^\s(){}.;,@\"«»\[\]\\]+"
TRIVIAL = {"search rules", "omega arith", "refl", "search (rules)"}
KEPT = {"args", "requires", "ranges", "auto", "type_inv", "well_formed", "type-inv", "well-formed", "ensures", "utf8", "new"}


def norm(name):
    return re.sub(r"-lem$", "", name.replace("_", "-"))


def plain(name):
    """A need's old name without what the newer kits left out: overflow-mul-x and mul-x are one."""
    n = norm(name)
    n = re.sub(r"^overflow-", "", n)
    return n


def declarations(text):
    """The header comment, the use lines and the declarations of a file."""
    lines = text.split("\n")
    comments, uses, decls, now = [], [], [], []
    i = 0
    while i < len(lines) and lines[i].startswith("--"):
        comments.append(lines[i])
        i += 1
    block = []
    rest = lines[i:]
    j = 0
    while j < len(rest):
        line = rest[j]
        if line.startswith("use "):
            use = line
            while "{" in use and "}" not in use:
                j += 1
                use += " " + rest[j].strip()
            uses.append(use)
        elif not line.strip():
            if block:
                decls.append(block)
                block = []
        else:
            block.append(line)
        j += 1
    if block:
        decls.append(block)
    # a declaration whose where-block holds blank lines goes on with indented lines
    merged = []
    for b in decls:
        if merged and b[0].startswith(" "):
            merged[-1] += [""] + b
        else:
            merged.append(b)
    return comments, uses, merged


class Function:
    def __init__(self, crate, path, names):
        self.crate, self.path, self.names = crate, path, names
        self.problems = []
        self.places = names["places"]
        self.at = {p[0]: i for i, p in enumerate(self.places)}
        self.parent = {p[0]: p[1] for p in self.places}

    def chain(self, place):
        out = []
        while place:
            out.append(place)
            place = self.parent.get(place)
        return out

    def step(self, name, rest, chain):
        """The new words for a step's old name and the fields behind it."""
        want = norm(name)
        rest = [r.replace("-", "_") if r in ("type-inv", "well-formed") else r for r in rest]
        if name == "args" and rest:
            rest = [rest[0].replace("-", "_")] + rest[1:]
        if name in KEPT:
            return [name.replace("-", "_") if name in ("type-inv", "well-formed") else name], rest
        # arms first: what a pattern binds
        for i, arm in enumerate(self.names["arms"]):
            if arm is None or self.places[i][0] not in chain:
                continue
            for field, old, fields in arm[2]:
                if norm(old) == want and fields and rest[: len(fields)] == fields:
                    return [arm[0], field], rest[len(fields):]
                if norm(old) == want and not fields and rest and rest[0].startswith("keys"):
                    return [arm[0], field], rest
        best = None
        for p in self.places:
            if norm(p[2][0]) == want and p[0] in chain:
                best = p
                break
        if best is None:
            for p in self.places:
                if norm(p[2][0]) == want:
                    best = p
                    break
        if best is None:
            self.problems.append(f"no step {name}")
            return [name], rest
        new = best[2][1]
        i = self.at[best[0]]
        clauses = self.names["clauses"][i]
        for old, now in best[4]:
            if rest[:1] == [old]:
                rest = [now] + rest[1:]
                break
        if clauses and rest[:1] == ["ensures"] and len(rest) > 1 and rest[1].isdigit():
            k = int(rest[1])
            fields = clauses["fields"]
            if k < len(fields):
                rest = ["ensures", fields[k]] + rest[2:]
        if re.search(r"-\d+$", new) and norm(new).startswith(("slice-known", "shared-slice-known")):
            self.problems.append(f"step {name} has no facts today")
        return [new], rest

    def body(self, text, need, place):
        chain = self.chain(place)
        aliases = {"c"}
        while True:
            m = re.search(rf"let ({WORD}) = c((?:\.before)*) in\s*", text)
            if not m:
                break
            aliases.add(m[1])
            text = text[: m.start()] + re.sub(rf"(?<![\w.'-]){re.escape(m[1])}(?![\w'-])", "c", text[m.end():])
        def one(m):
            fields = m[1].split(".")[1:]
            while fields and fields[0] == "before":
                fields = fields[1:]
            if not fields:
                return "c"
            head, rest = self.step(fields[0], fields[1:], chain)
            return ".".join(["c"] + head + rest)
        text = re.sub(rf"(?<![\w.'-])c((?:\.{WORD})+)", one, text)
        if self.path.split(".")[-1].startswith("+"):
            # the measure's equation stands apart today
            text = re.sub(r"c\.requires\.0(?![\w.])", "arith", text).replace("c.requires.1.", "c.requires.")
        # a name bound to a call's clauses
        for m in re.finditer(rf"let ({WORD}) = c\.({WORD})\.ensures in", text):
            for i, p in enumerate(self.places):
                if p[2][1] == m[2] and self.names["clauses"][i]:
                    fields = self.names["clauses"][i]["fields"]
                    for k, field in enumerate(fields):
                        text = re.sub(rf"(?<![\w.'-]){re.escape(m[1])}\.{k}(?![\w'-])", f"{m[1]}.{field}", text)
                    break
        return text


def used(uses, text):
    """The use lines that bring a name of the text."""
    out = []
    for u in uses:
        m = re.match(r"use (\S+?)\.\{(.*)\}\s*$", u)
        if not m:
            alias = u.split(" as ")[-1].strip() if " as " in u else None
            if alias is None or re.search(rf"(?<![\w'-]){re.escape(alias)}(?![\w'-])", text):
                out.append(u)
            continue
        names = [n.strip() for n in m[2].split(",") if n.strip()]
        keep = []
        for n in names:
            word = n.split(" as ")[-1].strip()
            if "◌" in word:
                parts = [p for p in word.split("◌") if p]
                if all(p in text for p in parts):
                    keep.append(n)
            elif re.search(rf"(?<![\w'-]){re.escape(word)}(?![\w'-])", text):
                keep.append(n)
        if keep:
            out.append(f"use {m[1]}.{{{', '.join(keep)}}}")
    return out


def tuple_parts(text):
    t = text.strip()
    if not (t.startswith("(") and t.endswith(")")):
        return None
    depth, parts, start = 0, [], 1
    for i, ch in enumerate(t):
        if ch in "({[":
            depth += 1
        elif ch in ")}]":
            depth -= 1
            if depth == 0 and i != len(t) - 1:
                return None
        elif ch == "," and depth == 1 and t[i + 1 : -1].strip():
            parts.append(t[start:i].strip())
            start = i + 1
    parts.append(t[start:-1].strip().rstrip(","))
    return parts if len(parts) > 1 else None


def last_tuple(text):
    """Where the tuple begins that ends a text of lets, or 0."""
    for m in reversed(list(re.finditer(r" in\s*(?=\()", text))):
        if tuple_parts(text[m.end():]):
            return m.end()
    return 0


def convert(root, crate, folder, names):
    rel = os.path.relpath(folder, os.path.join(root, "crates", crate, "proofs"))
    path = rel.replace(os.sep, ".")
    cycle = path.split(".")[-1].startswith("+")
    key = f"Rattle-{crate}-proofs.{path}.Lts" + ("-" + path.split(".")[-1][1:] if cycle else "")
    if key not in names:
        print(f"{crate}::{path}: no names")
        return
    with open(os.path.join(folder, "Proof.antt"), encoding="utf-8") as f:
        text = f.read()
    if cycle:
        text = re.sub(r"(?m)^(\S+) : \(t : ℕ\) → lts\.", r"\1 : tie.", text)
        text = text.replace("abbrev μ : Measures 2 kinds.ps ℕ", "measure : ℕ")
    if "tie.close" not in text and not cycle:
        print(f"{crate}::{path}: another form, left")
        return
    fn = Function(crate, path, names[key])
    comments, uses, decls = declarations(text)
    uses = [u for u in uses if not re.search(r"\.Statement\.\{statement\}|\.Tie as tie", u)]
    needs = fn.names["needs"]
    given = fn.names["asked_at"]
    invariants, answers, helpers = [], [], []
    taken = set()
    for d in decls:
        first = d[0]
        if re.search(r"statement M", " ".join(d[:2])) and ("tie.close" in " ".join(d) or cycle):
            continue
        if cycle and not re.match(rf"({WORD}) : tie\.", first):
            continue
        m = re.match(rf"(?:abbrev )?(?:pub )?({WORD}) : tie\.({WORD})(.*)$", first)
        if not m:
            helpers.append(d)
            if "tie." in " ".join(d):
                fn.problems.append(f"helper {first.split(' : ')[0]} speaks of tie")
            continue
        name, what = m[1], m[2]
        if not what.startswith("Need-"):
            kind, loop = what.split("-", 1)
            found = [i for i, l in enumerate(fn.names["loops"]) if norm(l[0][0]) == norm(loop)]
            if not found:
                fn.problems.append(f"no loop for {what}")
                continue
            i = found[0]
            (_, new), live = fn.names["loops"][i]
            changed = fn.names["changed"][i]
            body = "\n".join(d[1:])
            unfolds = ""
            mm = re.match(r"(unfolding [^\n]*\n)", body)
            if mm:
                unfolds = mm[1]
                body = body[mm.end():]
            head, _, term = body.partition("=")
            params = head.split()[1:]
            paths = [f"l.{v}" if not ch else f"l.initial.{v}" for v, ch in zip(live, changed)]
            paths += [f"l.{v}" for v, ch in zip(live, changed) if ch]
            if len(params) != len(paths):
                fn.problems.append(f"{what}: {len(params)} parameters, {len(paths)} variables: {' '.join(params)} / {' '.join(paths)}")
            table = dict(zip(params, paths))
            fields = re.compile(rf"(?<=[{{;]) *{WORD} =")
            marks = []
            def mark(q):
                marks.append(q[0])
                return f"\x00{len(marks) - 1}\x01"
            term = fields.sub(mark, term)
            term = re.sub(WORD, lambda q: table.get(q[0], q[0]), re.sub(rf"({WORD})\.(\d+|{WORD})", lambda q: f"{table.get(q[1], q[1])}.{q[2]}" if q[1] in table else q[0], term))
            term = re.sub("\x00(\\d+)\x01", lambda q: marks[int(q[1])], term)
            new = f"{kind}-{new}"
            invariants.append((new, unfolds, term.strip()))
            continue
        old = what[5:]
        index = None
        for i, (was, now) in enumerate(needs):
            if i not in taken and (plain(was) == plain(old) or norm(now) == norm(old)):
                index = i
                break
        body = "\n".join(d[1:])
        term = body.partition("=")[2].strip()
        if index is None:
            if term not in TRIVIAL or "unfolding" in d[1]:
                fn.problems.append(f"no goal for {old}: {term[:100]}")
            continue
        taken.add(index)
        if term in TRIVIAL and "unfolding" not in d[1]:
            continue
        now = needs[index][1]
        was = needs[index][0]
        unfolds = ""
        mm = re.match(r"(unfolding [^\n]*\n(?:    [^\n]*\n)*)", body)
        if mm:
            unfolds = mm[1]
        place = given[index][0] if index < len(given) else None
        term = fn.body(term, now, place)
        fields = fn.names["asked"].get(was) or fn.names["asked"].get(now)
        if fields:
            parts = tuple_parts(term)
            if parts and len(parts) == len(fields):
                term = "record { " + "; ".join(f"{a} = {b}" for a, b in zip(fields, parts)) + " }"
            elif last_tuple(term) and len(tuple_parts(term[last_tuple(term):])) == len(fields):
                at = last_tuple(term)
                parts = [x.rstrip(",") for x in tuple_parts(term[at:])]
                term = term[:at] + "record { " + "; ".join(f"{a} = {b}" for a, b in zip(fields, parts)) + " }"
            else:
                term = f"let all = {term} in record {{ " + "; ".join(f"{a} = all.{k}" for k, a in enumerate(fields)) + " }"
        answers.append((now, unfolds, term))
    module = f"Rattle.{crate}.proofs.{path}"
    note = [c for c in comments if "tie" not in c]
    head = "\n".join(note) + "\n" if note else ""
    if invariants:
        body = "\n\n".join(f"abbrev pub {n} : goal.{n}\n{u}{n} l = {t}" for n, u, t in invariants)
        out = head + "\n".join(used(uses, body)) + ("\n" if used(uses, body) else "") + f"use {module}.Given as goal\n\n" + body + "\n"
        with open(os.path.join(folder, "Invariants.antt"), "w", encoding="utf-8") as f:
            f.write(out)
    if answers:
        parts = ["\n".join(h) for h in helpers] + [f"pub {n} : goal.{n}\n{u}{n}{' t' if cycle else ''} c = {t}" for n, u, t in answers]
        body = "\n\n".join(parts)
        out = head + "\n".join(used(uses, body)) + ("\n" if used(uses, body) else "") + f"use {module}.Goals as goal\n\n" + body + "\n"
        with open(os.path.join(folder, "Answers.antt"), "w", encoding="utf-8") as f:
            f.write(out)
    os.remove(os.path.join(folder, "Proof.antt"))
    if not answers and not invariants:
        try:
            os.rmdir(folder)
        except OSError:
            pass
    for p in fn.problems:
        print(f"{crate}::{path}: {p}")


def main(root, where, crates):
    for crate in crates:
        with open(os.path.join(where, "crates", crate, "names.json"), encoding="utf-8") as f:
            names = json.load(f)
        for p in sorted(glob.glob(os.path.join(root, "crates", crate, "proofs", "**", "Proof.antt"), recursive=True)):
            convert(root, crate, os.path.dirname(p), names)


if __name__ == "__main__":
    main(sys.argv[1], sys.argv[2], sys.argv[3:])
