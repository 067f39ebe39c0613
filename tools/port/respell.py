#!/usr/bin/env python3
"""Brings the repository's own names to the spelling of today's Rattle, once, after the kit's port.py: words are in snake case.

usage: tools/port/respell.py        at the top of the repository: rewrites crates/**/*.antt and crates/**/*.rt in place
       tools/port/respell.py list   writes nothing: the names, and those that fall together with another one

A name that begins with a small letter and has capitals inside is a word: placeAt is written place_at. A dash still joins two names, and types and
modules keep their capitals. Strings stay as they are; functions of src/ have no such names.
"""

import glob
import re
import sys

NAME = re.compile(r"[A-Za-z_][A-Za-z0-9_']*(?:-[A-Za-z0-9_']+)*")
STRING = re.compile(r'"(?:[^"\\]|\\.)*"')
# Lemmas that would fall together with a definition of their file, by crate.
APART = {
    "litmus_model": {"all_apart": "all_apart_each", "at_name": "at_name_step", "one_more": "one_more_suc"},
    "table": {"no_cells": "no_cells_start"},
}
PART = re.compile(r"[a-z][A-Za-z0-9_']*[a-z0-9][A-Z]|[a-z][A-Z]")


def snake(part):
    if not PART.match(part):
        return part
    # A capital that stands behind a small letter or a digit begins a word; behind '_' it is a type's and stays.
    return re.sub(r"(?<=[a-z0-9])([A-Z])", lambda m: "_" + m.group(1).lower(), part)


def word(name):
    return "-".join(snake(part) for part in name.split("-"))


def turned(text, apart):
    kept = []

    def keep(m):
        kept.append(m.group(0))
        return "\0%d\0" % (len(kept) - 1)

    text = STRING.sub(keep, text)
    text = NAME.sub(lambda m: apart.get(m.group(0)) or word(m.group(0)), text)
    return re.sub("\0(\\d+)\0", lambda m: kept[int(m.group(1))], text)


def main(argv):
    files = sorted(f for end in ("antt", "rt") for f in glob.glob("crates/**/*." + end, recursive=True) if "/out/" not in f)
    names = {}
    for f in files:
        with open(f, encoding="utf-8") as it:
            for name in NAME.findall(STRING.sub("", it.read())):
                names.setdefault(name, set()).add(f)
    changed = sorted(n for n in names if word(n) != n)
    if argv == ["list"]:
        for n in changed:
            both = names.get(word(n), set()) & names[n]
            print(n, word(n), "FALLS TOGETHER, also in " + " ".join(sorted(both)[:4]) if both else "stands elsewhere" if word(n) in names else "")
        return 0
    for f in files:
        with open(f, encoding="utf-8") as it:
            text = it.read()
        new = turned(text, APART.get(f.split("/")[1], {}))
        if new != text:
            with open(f, "w", encoding="utf-8") as it:
                it.write(new)
    print(f"respell: {len(changed)} names in {len(files)} files")
    return 0


if __name__ == "__main__":
    raise SystemExit(main(sys.argv[1:]))
