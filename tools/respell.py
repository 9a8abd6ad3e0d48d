#!/usr/bin/env python3
"""Brings the names of definitions and lemmas to snake case: `lowFirst` becomes `low_first`, `length-lowFirst` `length-low_first`.

usage: python3 tools/respell.py [--list]       at the top of the repository

It rewrites the .antt files, and the clauses of the .rt files, of every crate. Only words that begin with a small letter and have a
capital behind a small letter or a digit are respelled, each part of a name with dashes by itself. Text in quotation marks stays, and so do
the words of the library (KEPT). Run it once, right after the script that turns the rest of the spelling. `--list` changes nothing and says
which new names stand in a file already, as something else.
"""

import os
import re
import sys

KEPT = set("""
getD
""".split())
# names that a respelled one would fall together with, by their file: they are renamed first
MOVED = {
    "crates/breakpoints/proofs/SeenLaws.antt": ("in_use", "stands"),
    "crates/process/proofs/SoundTestLaws.antt": ("used_sound", "sound_used"),
    "crates/rules/proofs/LoopLaws.antt": ("goes_on", "going_on"),
    "crates/rules/proofs/WhyLaws.antt": ("no_room", "room_lacks"),
}
PART = re.compile(r"(?<![A-Za-z0-9_])[a-z][a-z0-9_]*(?:[A-Z][a-z0-9_]*)+")
QUOTED = re.compile(r'b?"(?:[^"\\]|\\.)*"|b?\'(?:[^\'\\]|\\.)\'')


def snake(word):
    return re.sub(r"(?<=[a-z0-9])([A-Z])", r"_\1", word).lower()


def respelled(line, code, seen=None):
    kept = []

    def keep(m):
        kept.append(m.group(0))
        return "\0"

    if code:
        line = QUOTED.sub(keep, line)

    def turn(m):
        if m.group(0) in KEPT:
            return m.group(0)
        if seen is not None:
            seen.add(m.group(0))
        return snake(m.group(0))

    line = PART.sub(turn, line)
    for text in kept:
        line = line.replace("\0", text, 1)
    return line


def files():
    for folder, dirs, names in os.walk("crates"):
        dirs[:] = sorted(d for d in dirs if d != "out")
        for name in sorted(names):
            if name.endswith((".rt", ".antt")):
                yield os.path.join(folder, name)


def main(arguments):
    for path in files():
        with open(path, encoding="utf-8") as f:
            old = f.read()
        seen = set()
        if path in MOVED and not arguments:
            old = re.sub(rf"(?<![A-Za-z0-9_]){MOVED[path][0]}(?![A-Za-z0-9_])", MOVED[path][1], old)
        new = "".join(respelled(line, path.endswith(".rt"), seen) for line in old.splitlines(keepends=True))
        if arguments == ["--list"]:
            words = set(re.findall(r"(?<![A-Za-z0-9_])[a-z][a-z0-9_]*", old))
            for word in sorted(seen):
                if snake(word) in words:
                    print(f"{path}: {word} {snake(word)}")
        else:
            with open(path, "w", encoding="utf-8") as f:
                f.write(new)


main(sys.argv[1:])
