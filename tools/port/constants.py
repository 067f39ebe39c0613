#!/usr/bin/env python3
"""Clauses that read a constant, `requires* { do ⌜ .. (← A.B) .. ⌝ }`, as plain facts: `requires { .. A.B .. }`. Once, after respell.py."""
import glob
import re

CLAUSE = re.compile(r"\b(requires|ensures)\*( \w+)? \{ do\s*⌜(.*?)⌝\s*\}", re.S)


def plain(m):
    fact = re.sub(r"\(← \((\w+(?:\.\w+)*)\)\.entry\)", r"\1", m.group(3))
    fact = re.sub(r"\(← (\w+(?:\.\w+)*)\)", r"\1", fact)
    return f"{m.group(1)}{m.group(2) or ''} {{ {' '.join(fact.split())} }}"


for f in sorted(glob.glob("crates/*/src/**/*.rt", recursive=True)):
    with open(f, encoding="utf-8") as it:
        old = it.read()
    text = re.sub(r"⟦((?:\w+::)*\w+)⟧", lambda m: m.group(1).replace("::", "."), old)
    new = CLAUSE.sub(plain, text)
    if new != old:
        with open(f, "w", encoding="utf-8") as it:
            it.write(new)
