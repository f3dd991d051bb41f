#!/usr/bin/env python3
"""Turns the repository's edits, and sees that each can be applied.

usage: edits.py turn OLD LANDED ROOM [CRATE..]   turns the edits of the commit OLD by the texts of the commit LANDED
       edits.py check [CRATE..]                  says which edits cannot be applied to the files as they stand

turn: OLD has the old spelling, and LANDED the same crates as port.py and own_names.py turned them. Edits that are far
apart are made in one copy of OLD's crates, and port.py and own_names.py turn that copy, as few times as that allows. What
then differs from LANDED's files is what the edits make wrong, token by token, and each edit is written by that. An edit
that does the same in LANDED's files as it stands keeps its text. Each turned edit is applied to LANDED's files and must
give the turned wrong file, but for its layout. ROOM is a folder that keeps the turned copies; a second run goes by them.
check: an 'old:' text stands exactly once in its file after the earlier pairs, the edit changes something, and it names
only files of its crate's src/ and specs/. The exit status is 0 where all is well.
"""

import bisect
import collections
import difflib
import glob
import importlib.util
import json
import os
import re
import shutil
import subprocess
import sys

HERE = os.path.dirname(os.path.realpath(__file__))
ROOT = os.path.dirname(os.path.dirname(HERE))
PORT = "/opt/rattle/port/port.py"
GAP = 4
TOKEN = re.compile(r"\s+|[A-Za-z0-9_'′]+|\"(?:[^\"\\\n]|\\.)*\"|.", re.S)


def text_of(path):
    with open(path, encoding="utf-8") as f:
        return f.read()


def edits_below(root, crates=()):
    found = glob.glob(f"{root}/crates/*/must-fail/*.edit") + glob.glob(f"{root}/crates/*/wrong/*.edit")
    return [it for it in sorted(found) if not crates or crate_of(it) in crates]


def crate_of(edit):
    return edit.split("/")[-3]


def pairs_of(text):
    """Returns the edit's replacements, as rt reads them: the file, the old text and the new one."""
    path = old = None
    found = []
    for line in text.split("\n"):
        if line.startswith("file: "):
            path = line[len("file: ") :].strip()
        elif line.startswith("old: "):
            old = line[len("old: ") :]
        elif line.startswith("new:"):
            new = line[len("new:") :]
            found.append((path, old, new[1:] if new.startswith(" ") else new))
            old = None
    return found


def applied(pairs, read):
    """Returns the texts that the replacements make, or why they cannot be made."""
    texts, was = {}, {}
    for path, old, new in pairs:
        if not path or not path.startswith(("src/", "specs/")) or os.path.normpath(path) != path:
            return None, f"it names {path}, and only src/ and specs/ may be changed"
        if path not in texts:
            try:
                texts[path] = was[path] = read(path)
            except OSError:
                return None, f"the crate has no file {path}"
        if not old or texts[path].count(old) != 1:
            return None, f"this text is in {path} {texts[path].count(old) if old else 0} times, and not once: {old}"
        texts[path] = texts[path].replace(old, new)
    if not pairs:
        return None, "it has no 'old:' and 'new:' pair"
    return (texts, None) if texts != was else (None, "it changes nothing")


def tokens(text):
    return [(it[0], it.start(), it.end()) for it in TOKEN.finditer(text) if not it[0].isspace()]


def squashed(text):
    return [it[0] for it in tokens(text)]


def check(crates):
    bad = n = 0
    for edit in edits_below(ROOT, crates):
        n += 1
        why = applied(pairs_of(text_of(edit)), lambda it: text_of(f"{ROOT}/crates/{crate_of(edit)}/{it}"))[1]
        if why:
            bad += 1
            print(f"{os.path.relpath(edit, ROOT)}: {why}")
    print(f"{n} edits, {bad} of them cannot be applied")
    return 1 if bad else 0


# ---- turning


def checkout(commit, to):
    os.makedirs(to)
    one = subprocess.Popen(["git", "-C", ROOT, "archive", commit], stdout=subprocess.PIPE)
    subprocess.run(["tar", "-x", "-C", to], stdin=one.stdout, check=True)
    if one.wait():
        raise SystemExit(f"edits.py: no commit {commit}")


def in_rounds(old):
    """Returns the rounds: for each file the edits that are made in one copy, with the lines that each changes."""
    rounds = []
    for edit in edits_below(old):
        base = f"crates/{crate_of(edit)}"
        texts, why = applied(pairs_of(text_of(edit)), lambda it: text_of(f"{old}/{base}/{it}"))
        if why:
            raise SystemExit(f"edits.py: {edit}: {why}")
        spots = {}
        for path, text in texts.items():
            was, now = text_of(f"{old}/{base}/{path}").split("\n"), text.split("\n")
            spots[f"{base}/{path}"] = {at: now[at] for at in range(len(was)) if was[at] != now[at]}
        for made in rounds:
            if all(abs(one - other) > GAP for file, lines in spots.items() for one in lines for _, more in made.get(file, []) for other in more):
                break
        else:
            made = {}
            rounds.append(made)
        for file, lines in spots.items():
            made.setdefault(file, []).append((os.path.relpath(edit, old), lines))
    return rounds


def turned_copy(old, made, to):
    """Makes the copy with these edits, and has port.py and own_names.py turn it. Its proofs are left out, since no edit is of them."""
    shutil.rmtree(to, ignore_errors=True)
    shutil.copytree(f"{old}/crates", f"{to}/crates", ignore=shutil.ignore_patterns("proofs", "must-fail", "wrong"))
    shutil.copy(f"{old}/crates.txt", to)
    for file, edits in made.items():
        lines = text_of(f"{old}/{file}").split("\n")
        for _, changed in edits:
            for at, line in changed.items():
                lines[int(at)] = line
        with open(f"{to}/{file}", "w", encoding="utf-8") as f:
            f.write("\n".join(lines))
    subprocess.run("git init -q . && git add -A && git -c user.name=port -c user.email=port@localhost commit -qm copy", shell=True, cwd=to, check=True)
    spec = importlib.util.spec_from_file_location("port", PORT)
    port = importlib.util.module_from_spec(spec)
    spec.loader.exec_module(port)
    port.SAID = f"{to}.said"
    if port.turn(to):
        raise SystemExit("edits.py: port.py failed")
    subprocess.run([sys.executable, f"{HERE}/own_names.py", to], check=True)
    open(f"{to}.done", "w").close()


def line_map(old, new):
    """Returns for each line of old its place among the lines of new."""
    plain = lambda it: re.sub(r"[\s_()⌜⌝]", "", it).lower()
    places = [0] * (len(old) + 1)
    for kind, i1, i2, j1, j2 in difflib.SequenceMatcher(None, [*map(plain, old)], [*map(plain, new)], False).get_opcodes():
        for at in range(i1, i2):
            places[at] = j1 + (at - i1 if kind == "equal" else (at - i1) * (j2 - j1) // (i2 - i1))
    return places


def differences(one, other):
    """Returns the differences of two lists of tokens, as ranges of both."""
    return [it[1:] for it in difflib.SequenceMatcher(None, one, other, False).get_opcodes() if it[0] != "equal"]


def kept_around(pairs, path):
    """Returns how many tokens the edit's texts in the file share at their begin and end, at most."""
    before = after = 0
    for file, old, new in pairs:
        if file == path:
            one, other = squashed(old), squashed(new)
            n = next((at for at, (a, b) in enumerate(zip(one, other)) if a != b), min(len(one), len(other)))
            m = next((at for at, (a, b) in enumerate(zip(one[n:][::-1], other[n:][::-1])) if a != b), min(len(one), len(other)) - n)
            before, after = max(before, n), max(after, m)
    return before, after


def one_line(text):
    return re.sub(r"\s*\n\s*", " ", text)


def written(path, base, wrong, found, around):
    """Returns the pairs that turn the base text into one with these differences from it, or why there are none."""
    a, b = tokens(base), tokens(wrong)
    starts = [0] + [it.end() for it in re.finditer("\n", base)]
    line_of = lambda at: bisect.bisect_right(starts, a[at][1]) - 1
    pieces = []  # first and last token within one line, and the first and last token of the wrong text
    for i1, i2, j1, j2 in found:
        if i1 == i2:
            # between two tokens: with the one behind, or with the one before it
            is_before = i1 == len(a) or i1 > 0 and line_of(i1) != line_of(i1 - 1) and b[j1][1] > 0 and "\n" not in wrong[b[j1 - 1][2] : b[j1][1]]
            pieces.append([i1 - 1, i1, j1 - 1, j2] if is_before else [i1, i1 + 1, j1, j2 + 1])
            continue
        at = i1
        while at < i2:
            end = at + 1
            while end < i2 and line_of(end) == line_of(at):
                end += 1
            pieces.append([at, end, j1 if at == i1 else j2, j2])
            at = end
    merged = []
    for piece in pieces:
        if merged and line_of(merged[-1][0]) == line_of(piece[0]):
            merged[-1][1], merged[-1][3] = piece[1], piece[3]
        else:
            merged.append(piece)
    text, pairs = base, []
    for first, last, begin, end in merged:
        line = line_of(first)
        left, right = first, last
        may_left = lambda: left > 0 and line_of(left - 1) == line and begin - (first - left) > 0 and b[begin - (first - left) - 1][0] == a[left - 1][0]
        may_right = lambda: right < len(a) and line_of(right) == line and end + (right - last) < len(b) and b[end + (right - last)][0] == a[right][0]
        while may_left() and first - left < around[0]:
            left -= 1
        while may_right() and right - last < around[1]:
            right += 1
        while True:
            old = base[a[left][1] : a[right - 1][2]]
            if text.count(old) == 1:
                break
            if may_right() and (right - last <= first - left or not may_left()):
                right += 1
            elif may_left():
                left -= 1
            else:
                return None, f"the line is not alone in {path}: {old}"
        j1, j2 = begin - (first - left), end + (right - last)
        new = one_line(wrong[b[j1][1] : b[j2 - 1][2]]) if j2 > j1 else ""
        pairs.append((path, old, new))
        text = text.replace(old, new)
    return pairs, None


def alike(pairs, texts, wrongs):
    """Yields the edit's own pairs in the new spelling, where each of their texts stands in one line of the turned files, however it is spelled; else nothing."""
    found = []
    for path, old, new in pairs:
        sides = []
        for text, side in ((old, texts[path]), (new, wrongs[path])):
            wanted = plain(text)
            if not wanted:
                return
            places = []
            for line in dict.fromkeys(side.split("\n")):
                if wanted not in plain(line):
                    continue
                these = tokens(line)
                for first in range(len(these)):
                    for last in range(first + 1, len(these) + 1):
                        it = line[these[first][1] : these[last - 1][2]]
                        if plain(it) == wanted:
                            ends = (it[0] == text.strip()[0]) + (it[-1] == text.strip()[-1])
                            places.append((it.count("(") != it.count(")"), -ends, len(it), it))
            if not places:
                return
            sides.append([it[3] for it in sorted(places)])
        found.append((path, *sides))
    # (the best of each side; then those where one side has another extent)
    for depth in range(3):
        for n in range(depth + 1):
            made = [(path, olds[min(n, len(olds) - 1)], news[min(depth - n, len(news) - 1)]) for path, olds, news in found]
            yield made


def plain(text):
    return re.sub(r"[\s_◌().⌜⌝]", "", text).lower()


def by_name(tokens_):
    """Returns what a change says, whatever the spelling of its names and signs."""
    return collections.Counter(re.sub(r"[_'′]", "", it).lower() for it in tokens_ if re.search(r"\w", it))


def turn(old_commit, landed_commit, room, crates):
    old, landed = f"{room}/old", f"{room}/landed"
    for commit, to in ((old_commit, old), (landed_commit, landed)):
        if not os.path.isdir(to):
            checkout(commit, to)
    rounds = in_rounds(old)
    changes = collections.defaultdict(dict)  # by edit and file: the wrong text, and its differences from the base
    told = []
    for number, made in enumerate(rounds):
        to = f"{room}/r/{number}"
        if not os.path.exists(f"{to}.done"):
            turned_copy(old, made, to)
        for file in sorted(f"crates/{os.path.relpath(os.path.join(at, it), f'{to}/crates')}" for at, _, names in os.walk(f"{to}/crates") for it in names if it.endswith((".rt", ".antt"))):
            if file not in made and text_of(f"{to}/{file}") != text_of(f"{landed}/{file}"):
                told.append(f"look: round {number}: {file} differs, and no edit of it is in the round")
        for file, edits in made.items():
            base, wrong = text_of(f"{landed}/{file}"), text_of(f"{to}/{file}")
            a = tokens(base)
            places = line_map(text_of(f"{old}/{file}").split("\n"), base.split("\n"))
            spots = [(places[int(at)], edit) for edit, lines in edits for at in lines]
            starts = [0] + [it.end() for it in re.finditer("\n", base)]
            for edit, _ in edits:
                changes[edit][file] = wrong, []
            for i1, i2, j1, j2 in differences(squashed(base), squashed(wrong)):
                first = bisect.bisect_right(starts, a[min(i1, len(a) - 1)][1]) - 1
                last = bisect.bisect_right(starts, a[max(i1, i2 - 1)][1]) - 1 if i1 < len(a) else first
                off, edit = min((0 if first <= it <= last else min(abs(first - it), abs(last - it)), edit) for it, edit in spots)
                changes[edit][file][1].append((i1, i2, j1, j2))
                if off > 2 or base.split("\n")[first].startswith(("ghost use", "use ", "pub use")):
                    told.append(f"look: {edit}: {off} lines off, {file}:{first + 1}: {' '.join(it[0] for it in a[i1:i2])} -> {' '.join(squashed(wrong)[j1:j2])}")
    same = turned = 0
    for edit in edits_below(old):
        if crates and crate_of(edit) not in crates:
            continue
        name, base = os.path.relpath(edit, old), f"crates/{crate_of(edit)}"
        text = text_of(edit)
        pairs = pairs_of(text)
        read = lambda it: text_of(f"{landed}/{base}/{it}")
        wanted = {}
        for file, (wrong, found) in changes[name].items():
            now, bad = squashed(text_of(f"{landed}/{file}")), squashed(wrong)
            for i1, i2, j1, j2 in reversed(found):
                now[i1:i2] = bad[j1:j2]
            wanted[os.path.relpath(file, base)] = now
            if not found:
                told.append(f"left: {name}: nothing of {file} differs")
        gives = lambda it: it is not None and {path: squashed(made) for path, made in it.items()} == wanted
        if gives(applied(pairs, read)[0]):
            same += 1
            continue
        texts = {path: read(path) for path in wanted}
        wrongs = {path: changes[name][f"{base}/{path}"][0] for path in wanted}
        new_pairs, why = next((it for it in alike(pairs, texts, wrongs) if gives(applied(it, read)[0])), []), None
        for path in dict.fromkeys(it[0] for it in pairs) if not new_pairs else ():
            wrong, found = changes[name][f"{base}/{path}"]
            more, why = written(path, read(path), wrong, found, kept_around(pairs, path))
            if why:
                break
            new_pairs += more
        if why or not gives(applied(new_pairs, read)[0]):
            told.append(f"left: {name}: {why or 'what was written does not give the wrong text: ' + str(applied(new_pairs, read)[1])}")
            continue
        # a second look, by the names that each takes away and puts in
        said = []
        for these in (pairs, new_pairs):
            gone, put = collections.Counter(), collections.Counter()
            for _, one, other in these:
                gone += by_name(squashed(one))
                put += by_name(squashed(other))
            said.append((gone - put, put - gone))
        if said[0] != said[1]:
            told.append(f"look: {name}: took {' '.join(said[0][0].elements())} and put {' '.join(said[0][1].elements())}; now {' '.join(said[1][0].elements())} and {' '.join(said[1][1].elements())}")
        head = [line for line in text.split("\n") if line and not line.startswith(("file: ", "old: ", "new:"))]
        lines, last = [*head], None
        for path, one, other in new_pairs:
            lines += [f"file: {path}"] * (path != last) + [f"old: {one}", f"new: {other}".rstrip() if not other else f"new: {other}"]
            last = path
        with open(f"{ROOT}/{name}", "w", encoding="utf-8") as f:
            f.write("\n".join(lines) + "\n")
        turned += 1
    print("\n".join(told))
    print(f"{same} edits keep their text, {turned} are turned, {sum(it.startswith('left:') for it in told)} are left")
    return 1 if any(it.startswith("left:") for it in told) else 0


def main(argv):
    if argv[:1] == ["check"]:
        return check(argv[1:])
    if argv[:1] == ["turn"] and len(argv) > 3:
        return turn(*argv[1:4], argv[4:])
    print(__doc__)
    return 2


if __name__ == "__main__":
    sys.exit(main(sys.argv[1:]))
