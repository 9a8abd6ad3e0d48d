#!/usr/bin/env python3
"""Brings the wrong programs (crates/NAME/must-fail, crates/NAME/edits) and their harmless twins to the spelling of the sources.

usage: python3 tools/edits.py copies TREE      at the top of the repository: beside each source of TREE, the copies that the edits make of it
       python3 tools/edits.py take TREE OLD    once TREE is respelled: writes each edit again, as its source and its copy now differ

TREE and OLD are checkouts of the repository as it was before the scripts that turn the spelling, without proofs/ and out/. Between the two
steps these scripts are run in TREE, so that an edit is turned by the same rules as the text that it replaces; OLD stays as it is. `take`
leaves an edit as it was where it replaces several texts, or where the source has changed in more than spelling, and names it: such are
turned by hand. Run it once: what is turned already does not fit TREE.
"""

import difflib
import os
import re
import sys

FOLDERS = ("edits", "harmless", "must-fail")
TOKEN = re.compile(r"[\w']+|\s+|[^\w\s]")


def read(path):
    with open(path, encoding="utf-8") as f:
        return f.read()


def edits():
    """Each edit in the order of its path: the path, its crate, its lines, and a number that is its own."""
    number = 0
    for crate in sorted(os.listdir("crates")):
        for folder in FOLDERS:
            inside = os.path.join("crates", crate, folder)
            for name in sorted(os.listdir(inside)) if os.path.isdir(inside) else []:
                if name.endswith(".edit"):
                    number += 1
                    path = os.path.join(inside, name)
                    yield path, os.path.join("crates", crate), read(path).split("\n"), number


def pairs(lines):
    """(file, old, new, where the two lines stand)"""
    f = old = at = None
    for k, line in enumerate(lines):
        if line.startswith("file: "):
            f = line[6:]
        elif line.startswith("old: "):
            old, at = line[5:], k
        elif line.startswith("new:"):
            yield f, old, line[5:] if line[4:5] == " " else line[4:], (at, k)


def copy_of(f, number):
    stem, kind = os.path.splitext(f)
    return f"{stem}_e{number}{kind}" if kind == ".rt" else f"{stem}E{number}{kind}"


def copies(tree):
    for path, crate, lines, number in edits():
        made = {}
        for f, old, new, _ in pairs(lines):
            text = made.get(f) or read(os.path.join(tree, crate, f))
            if text.count(old) != 1:
                sys.exit(f"edits: {path} replaces a text that does not stand once: {old}")
            made[f] = text.replace(old, new)
        for f, text in made.items():
            with open(os.path.join(tree, crate, copy_of(f, number)), "w", encoding="utf-8") as out:
                out.write(text)


def tokens(line):
    """The tokens but blanks, with the place of each."""
    return [(m.group(0), m.start(), m.end()) for m in TOKEN.finditer(line) if not m.group(0).isspace()]


def place(before, after, start, end):
    """Where the text before[start:end] stands in the respelled line `after`."""
    a, b = tokens(before), tokens(after)
    match = difflib.SequenceMatcher(None, [t[0] for t in a], [t[0] for t in b], False)
    first, last = None, None
    for _, i1, i2, j1, j2 in match.get_opcodes():
        same = i2 - i1 == j2 - j1
        for i in range(i1, i2):
            if a[i][2] > start and a[i][1] < end:
                lo, hi = (j1 + i - i1, j1 + i - i1 + 1) if same else (j1, j2)
                first = lo if first is None else min(first, lo)
                last = hi if last is None else max(last, hi)
    if first is None or first == last:
        return 0, len(after)
    at, to = b[first][1], b[last - 1][2]
    if not before[:start].strip() and start < len(before) - len(before.lstrip()):
        at = 0
    if before[start:end] != before[start:end].rstrip() or end < len(before) and before[:end] != before[:end].rstrip():
        to = b[last][1] if last < len(b) else len(after)
    return at, to


def shared(a, b):
    """The lengths of what two lines begin and end with alike, at the bounds of tokens."""
    n = 0
    for (s, i, j), (t, k, m) in zip(tokens(a), tokens(b)):
        if (s, i, j) != (t, k, m) or a[:j] != b[:m]:
            break
        n = j
    e = 0
    for (s, i, j), (t, k, m) in zip(reversed(tokens(a)), reversed(tokens(b))):
        if s != t or a[i:] != b[k:] or i < n or k < n:
            break
        e = len(a) - i
    return n, e


def tight(text):
    """The text without what a formatter of code may add."""
    return re.sub(r",(?=[)}\]])", "", re.sub(r"\s+", "", text))


def one_change(base, made):
    """The first line that differs, and the lines of base and of made up to where the two are alike again."""
    a, b = base.split("\n"), made.split("\n")
    n = 0
    while n < min(len(a), len(b)) and a[n] == b[n]:
        n += 1
    m = 0
    while m < min(len(a), len(b)) - n and a[-1 - m] == b[-1 - m]:
        m += 1
    return n, a[n:len(a) - m], b[n:len(b) - m]


def take(tree, old_tree):
    todo, turned, before_text = {}, {}, {}
    for path, crate, lines, number in edits():
        own = list(pairs(lines))
        if len(own) != 1:
            todo[path] = "replaces several texts"
            continue
        f, old, new, at = own[0]
        before_text[path] = old
        before = [l for l in read(os.path.join(old_tree, crate, f)).split("\n") if old in l][0]
        start = before.index(old)
        base = read(os.path.join(tree, crate, f))
        _, was, now = one_change(base, read(os.path.join(tree, crate, copy_of(f, number))))
        here = read(os.path.join(crate, f))
        wanted = before[:start] + new + before[start + len(old):]
        if base.split("\n").count(before) == 1 and here.count(old) == 1 and was == [before] and tight("".join(now)) == tight(wanted):
            turned[path] = (lines, at, f, before, before, wanted, start, start + len(old), True)
            continue
        if len(was) != 1 or not now:
            todo[path] = f"{was} is now {now}"
            continue
        after = was[0]
        became = now[0] + "".join(" " + l.strip() for l in now[1:])
        s, e = place(before, after, start, start + len(old))
        n, m = shared(after, became)
        turned[path] = (lines, at, f, before, after, became, min(s, n), max(e, len(after) - m), False)
    for path in sorted(turned):
        lines, at, f, before, after, became, s, e, kept = turned[path]
        crate, folder, name = path.rsplit("/", 2)
        twins = [os.path.join(crate, d, name) for d in FOLDERS if d != folder and (d == "harmless" or folder == "harmless")]
        for twin in twins:
            if twin in turned and turned[twin][4] == after:
                s, e = min(s, turned[twin][6]), max(e, turned[twin][7])
        # a blank that the text did not begin or end with is left out
        while s < e and after[s] == " " and after[:s].strip() and became[s:s + 1] == " " and before_text[path][:1] != " ":
            s += 1
        while s < e and after[e - 1] == " " and became[len(became) - (len(after) - e) - 1] == " " and before_text[path][-1:] != " ":
            e -= 1
        old, new = after[s:e], became[s:len(became) - (len(after) - e)]
        here = read(os.path.join(crate, f))
        if here.count(old) != 1:
            s, e = 0, len(after)
            old, new = after, became
        if here.count(old) != 1:
            todo[path] = f"{here.count(old)} times: {old}"
            continue
        lines[at[0]], lines[at[1]] = "old: " + old, "new: " + new if new else "new:"
        with open(path, "w", encoding="utf-8") as out:
            out.write("\n".join(lines))
    for path, why in todo.items():
        print(path, why)
    print(len(turned), "turned;", len(todo), "left")


if __name__ == "__main__":
    if sys.argv[1:2] == ["copies"] and len(sys.argv) == 3:
        copies(sys.argv[2])
    elif sys.argv[1:2] == ["take"] and len(sys.argv) == 4:
        take(sys.argv[2], sys.argv[3])
    else:
        sys.exit(__doc__)
