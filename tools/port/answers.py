#!/usr/bin/env python3
"""Turns proofs that walk a Tie (Proof.antt) to Invariants.antt and Answers.antt, by the names that the check lists.

usage: tools/port/answers.py CRATE NAMES [FUNCTION..]
CRATE is a folder below crates/, NAMES the folder that `rt check --generated NAMES --old-names` wrote in it. Each proofs/**/Proof.antt that has a Tie is
turned, or those of the functions named, and moved to /tmp/old/CRATE. What it can't turn is marked BY-HAND.
"""
import glob
import json
import os
import re
import sys

ID = r"[\w'₀-₉-]+"
PATH = re.compile(r"(?<![\w'.₀-₉-])(c|" + ID + r")((?:\.[\w'₀-₉-]+)+)")


def clauses():
    """Of each function, by crate::module::name, the names of its clauses: {"requires": [..], "ensures": [..]}."""
    found = {}
    for f in glob.glob("crates/*/src/**/*.rt", recursive=True):
        parts = f[:-3].split("/")
        module = [parts[1]] + [p for p in parts[3:] if p not in ("lib", "main")]
        now = None
        for l in open(f, encoding="utf-8"):
            m = re.match(r"\s*(?:pub(?:\(crate\))? )?(?:extern \"C\" )?(?:unsafe )?fn (\w+)", l)
            if m:
                now = found.setdefault("::".join(module + [m.group(1)]), {"requires": [], "ensures": []})
            m = re.match(r"\s+(requires|ensures)\*?(?: (\w+))? \{", l)
            if m and now is not None:
                now[m.group(1)].append(m.group(2))
            if l.rstrip() == "{":
                now = None
    return found


CLAUSES = clauses()
KEPT = {"at", "open", "with", "record", "in", "as", "data", "where", "use", "module"}


def quoted(name):
    return f"«{name}»" if name in KEPT else name


def labelled(fields, labels):
    """.0, .1.0, .1.1 of several clauses, by their names."""
    n, k = len(labels), 0
    if n < 2 or None in labels:
        return fields
    while fields and fields[0] == "1" and k < n - 1:
        k += 1
        fields = fields[1:]
    if k == n - 1:
        return [labels[k]] + fields
    if fields and fields[0] == "0":
        return [labels[k]] + fields[1:]
    return ["1"] * k + fields


class Names:
    def __init__(self, it, own):
        self.own = CLAUSES.get(own, {"requires": [], "ensures": []})
        self.places = {p[0]: p for p in it["places"]}
        self.index = {p[0]: i for i, p in enumerate(it["places"])}
        self.arms = it["arms"]
        self.by_name = it["places_by_name"]
        self.needs = {}
        self.order = []
        for (old, new), (at, _) in zip(it["needs"], it["asked_at"]):
            self.needs[old] = (new, at)
            self.order.append(old)
        self.loops = it["loops"]
        self.changed = it["changed"]

    def chain(self, place):
        while place:
            p = self.places[place]
            yield p
            place = p[1]

    def up(self, place, n):
        for p in self.chain(place):
            if n == 0:
                return p[0]
            n -= 1
        return p[0]

    def path(self, place, fields, goal):
        """The new path of fields at an old place above a goal."""
        step = fields[0]
        above = list(self.chain(place)) + [q for q in self.chain(goal)]
        for q in above:
            a = self.arms[self.index[q[0]]]
            if not a:
                continue
            for field, at, sub in a[2]:
                if at == step and sub and fields[1 : 1 + len(sub)] == sub:
                    return [a[0], field] + fields[1 + len(sub) :]
        for q in above:
            if q[2][0] == step or q[2][0].replace("-", "_") == step.replace("-", "_"):
                rest = fields[1:]
                if q[3] in CLAUSES and rest[:1] == ["ensures"]:
                    rest = ["ensures"] + labelled(rest[1:], CLAUSES[q[3]]["ensures"])
                return [q[2][1]] + rest
        if step == "requires":
            return ["requires"] + labelled(fields[1:], self.own["requires"])
        return fields

    def labels(self, need):
        """The names of the clauses that the goal is of."""
        if need.startswith("returns"):
            return self.own["ensures"]
        m = re.match(r"(\w+?)(?:-.*)?-requires", need)
        if m:
            of = {tuple(c["requires"]) for f, c in CLAUSES.items() if f.split("::")[-1] == m.group(1)}
            if len(of) == 1:
                return list(of.pop())
        return []


def turn_body(text, names, place, marks):
    """Rewrites paths from c, at an old place, in a body; lets that only name a place or a path are put in."""
    alias = {"c": ("place", place)}

    def resolve(head, fields):
        kind, value = alias[head]
        fields = list(fields)
        if kind == "path":
            return ("path", value + fields)
        at = value
        while fields and fields[0] == "before":
            at = names.up(at, 1)
            if at is None:
                marks.append("BY-HAND: a path goes above the start")
                return ("path", ["c", "BY-HAND"])
            fields = fields[1:]
        if not fields:
            return ("place", at)
        return ("path", ["c"] + names.path(at, fields, place))

    let = re.compile(r"let (" + ID + r") = (" + ID + r")((?:\.[\w'₀-₉-]+)+) in\s*")
    out = ""
    pos = 0
    while True:
        m = let.search(text, pos)
        stop = m.start() if m else len(text)
        chunk = text[pos:stop]

        def sub(g):
            head, rest = g.group(1), g.group(2)
            if head not in alias:
                return g.group(0)
            kind, value = resolve(head, rest[1:].split("."))
            if kind == "place":
                marks.append("BY-HAND: a place is passed on")
                return "c"
            return ".".join(value)

        chunk = PATH.sub(sub, chunk)
        for head, (kind, value) in alias.items():
            if head != "c":
                chunk = re.sub(r"(?<![\w'.₀-₉-])" + re.escape(head) + r"(?![\w'₀-₉-])", "c" if kind == "place" else ".".join(value), chunk)
        out += chunk
        if not m:
            return arms(out)
        if m.group(2) in alias:
            alias[m.group(1)] = resolve(m.group(2), m.group(3)[1:].split("."))
            pos = m.end()
        else:
            out += m.group(0)
            pos = m.end()


def arms(text):
    """What an arm knows, by the arm's name."""
    text = re.sub(r"\bc\.(in-[A-Z]\w*)\.keys\d+", r"c.\1.is", text)
    return re.sub(r"\bc\.[\w]+-(in-[A-Z]\w*)-\d+\.given\.1\b", r"c.\1.is", text)


def record_of(body, labels):
    """The tuple with which a body ends, as a record of clauses."""
    n = len(labels)
    text = body.rstrip()
    if n < 2 or None in labels or not text.endswith(")"):
        return body
    depth = 0
    for i in range(len(text) - 1, -1, -1):
        depth += text[i] in ")]}"
        depth -= text[i] in "([{"
        if depth == 0:
            break
    before = text[:i].rstrip()
    if not (before.endswith("=") or before.endswith(" in") or before.endswith("$") or before.endswith("\n")):
        return body

    def split(inside):
        parts, cur, depth = [], "", 0
        for ch in inside:
            depth += ch in "([{"
            depth -= ch in ")]}"
            if ch == "," and depth == 0:
                parts.append(cur)
                cur = ""
            else:
                cur += ch
        if cur.strip():
            parts.append(cur)
        return [p.strip() for p in parts]

    parts = split(text[i + 1 : -1])
    while len(parts) < n and parts[-1].startswith("(") and parts[-1].endswith(")"):
        last = split(parts[-1][1:-1])
        if len(last) < 2:
            break
        parts = parts[:-1] + last
    if len(parts) != n:
        return body
    return text[:i] + "record { " + "; ".join(f"{quoted(l)} = {p}" for l, p in zip(labels, parts)) + " }\n"


def items(text):
    """Top-level items of an antt file: (comment lines, item text)."""
    lines = text.split("\n")
    found, comment, item = [], [], []

    def flush():
        nonlocal comment, item
        if item:
            found.append(("\n".join(comment), "\n".join(item)))
        comment, item = [], []

    for l in lines:
        if l.startswith("--"):
            flush() if item else None
            comment.append(l)
        elif not l.strip():
            if item:
                item.append(l)
        elif l[0] == " ":
            item.append(l)
        else:
            name = re.match(r"(?:(?:pub|abbrev|unfoldable|record|data)\s+)*(" + ID + r"|[^\s]+)", l).group(1)
            if item:
                head = re.match(r"(?:(?:pub|abbrev|unfoldable|record|data)\s+)*(\S+)", item[0]).group(1)
                if name == head or l.startswith("unfolding ") or (item[-1].startswith("unfolding ") and name == head):
                    item.append(l)
                    continue
                flush()
            item.append(l)
    flush()
    return found


def args_of(text):
    """The arguments of tie.spec, in order."""
    i = text.index("tie.spec") + len("tie.spec")
    depth, out, cur = 0, [], ""
    for ch in text[i:]:
        if ch in "([{":
            depth += 1
        if ch in ")]}":
            depth -= 1
            if depth < 0:
                break
        if ch.isspace() and depth == 0:
            if cur:
                out.append(cur)
            cur = ""
        else:
            cur += ch
    if cur:
        out.append(cur)
    return out


def turn(crate, f, names):
    text = open(f, encoding="utf-8").read()
    folder = os.path.dirname(f)
    rel = os.path.relpath(folder, f"crates/{crate}/proofs").split(os.sep)
    module = f"Rattle.{crate}.proofs." + ".".join(rel)
    uses, rest = [], []
    for l in text.split("\n"):
        (uses if l.startswith("use ") else rest).append(l)
    uses = [u for u in uses if not re.search(r"\.(Statement|Tie|Lts|Reads|Code)(\.\{statement\}| as | *$)", u)]
    inv, ans, marks = [], [], []
    spec = None
    loops = [l[0] for l in names.loops]
    loop_of = {old: i for i, (old, _) in enumerate(loops)}
    turned = {}
    entries = items("\n".join(rest))
    position = {}
    for _, it in entries:
        if "tie.spec" in it:
            given = args_of(it)[2 * len(loops) :]
            if len(given) == len(names.order):
                position = dict(zip(given, names.order))
            else:
                marks.append(f"BY-HAND: {len(given)} answers for {len(names.order)} goals")
    for comment, it in entries:
        head = re.match(r"(?:(?:pub|abbrev|unfoldable)\s+)*(\S+)\s*:", it)
        name = head.group(1) if head else None
        if name and re.search(r"-spec$|_spec$", name) and "tie.spec" in it:
            spec = it
            continue
        m = name and re.match(r"(?:abbrev\s+)?(?:pub\s+)?" + re.escape(name) + r" : tie\.(invariant|decreases)-(" + ID + r")\s*\n", it + "\n")
        if m:
            kind, loop = m.groups()
            i = loop_of.get(loop)
            if i is None:
                marks.append(f"BY-HAND: loop {loop}")
                inv.append((comment, it))
                continue
            new = loops[i][1]
            vs, ch = names.loops[i][1], names.changed[i]
            body = it.split("\n", 1)[1]
            # parameters
            bm = re.search(r"^" + re.escape(name) + r"((?:\s+[^\s=]+)*)\s*=", body, re.M)
            params = bm.group(1).split()
            expect = ["l.initial." + v if c else "l." + v for v, c in zip(vs, ch)]
            expect += ["l." + v for v, c in zip(vs, ch) if c]
            if len(params) != len(expect):
                marks.append(f"BY-HAND: {name} has {len(params)} parameters, not {len(expect)}: {vs} {ch}")
            pre, post = body[: bm.start()], body[bm.end() :]
            for p, e in zip(params, expect):
                if p != "_":
                    post = re.sub(r"(?<![\w'.₀-₉-])" + re.escape(p) + r"(?![\w'₀-₉-])", e, post)
            inv.append((comment, f"abbrev pub {kind}-{new} : goal.{kind}-{new}\n{pre}{kind}-{new} l ={post}"))
            turned[name] = None
            continue
        m = name and re.match(re.escape(name) + r" : tie\.Need-(" + ID + r")([^\n]*)\n", it)
        if m:
            need = position.get(name, m.group(1))
            if need not in names.needs:
                plain = {n.replace("-", "_"): n for n in names.needs}
                plain |= {"overflow_" + n: o for n, o in plain.items()}
                need = plain.get(need.replace("-", "_"), need)
            if need not in names.needs:
                marks.append(f"BY-HAND: no need {need}")
                ans.append((comment, it))
                continue
            new, at = names.needs[need]
            body = it.split("\n", 1)[1]
            body = re.sub(r"^" + re.escape(name) + r"(?= )", new, body, flags=re.M)
            body = re.sub(r"^(" + re.escape(new) + r" c) κs(?= )", r"\1", body, flags=re.M)
            body = record_of(turn_body(body, names, at, marks), names.labels(new))
            ans.append((comment, f"pub {new} : goal.{new}\n{body}"))
            turned[name] = new
            continue
        # a helper: its c may be typed by a place
        m = re.search(r"\((\w+) : (?:tie|lts)\.(" + ID + r")[^)]*\)", it)
        if m:
            at = m.group(2)
            if at in names.places or at.replace("-", "_") in {p.replace("-", "_") for p in names.places}:
                at = at if at in names.places else next(p for p in names.places if p.replace("-", "_") == at.replace("-", "_"))
                new = names.by_name[names.index[at]]
                it = it.replace(m.group(0), f"({m.group(1)} : goal.{new})")
                it = turn_body(it, names, at, marks)
            else:
                marks.append(f"BY-HAND: helper {name} at {at}")
        ans.append((comment, it))
    inline = []
    if spec:
        for n, a in zip(names.order, args_of(spec)[2 * len(loops) :]):
            if a.startswith("(λ"):
                am = re.match(r"\(λ c( κs)?\.\s*(.*)\)$", a, re.S)
                if not am:
                    marks.append("BY-HAND: " + a)
                    continue
                body = am.group(2).strip()
                if body == "search rules":
                    continue
                new, at = names.needs[n]
                inline.append(("", f"pub {new} : goal.{new}\n" + record_of(f"{new} c = " + turn_body(body, names, at, marks), names.labels(new))))
    write(folder, "Invariants.antt", uses, inv, f"use {module}.Given as goal", [])
    write(folder, "Answers.antt", uses, ans + inline, f"use {module}.Goals as goal", marks)
    old = f"/tmp/old/{crate}/" + "/".join(rel)
    os.makedirs(old, exist_ok=True)
    os.rename(f, old + "/Proof.antt")
    print(f"{crate} {'/'.join(rel)}: {len(inv)} invariants, {len(ans + inline)} answers" + "".join("\n    " + m for m in marks))


def write(folder, name, uses, its, goal, marks):
    if not its:
        return
    text = "\n".join((c + "\n" if c else "") + t.rstrip() + "\n" for c, t in its)
    kept = []
    for u in uses:
        m = re.match(r"(use \S+?)\.\{(.*)\}$", u)
        if not m:
            kept.append(u)
            continue
        names = []
        for n in m.group(2).split(", "):
            short = n.split(" as ")[-1]
            if "◌" in short:
                parts = [p for p in short.split("◌") if p]
                if all(p in text for p in parts) or not parts:
                    names.append(n)
            elif re.search(r"(?<![\w'₀-₉-])" + re.escape(short) + r"(?![\w'₀-₉-])", text):
                names.append(n)
        if names:
            kept.append(f"{m.group(1)}.{{{', '.join(names)}}}")
    with open(os.path.join(folder, name), "w", encoding="utf-8") as it:
        it.write("\n".join(kept + [goal]) + "\n\n" + "".join("-- " + m + "\n" for m in dict.fromkeys(marks)) + text)


def main(argv):
    crate, where = argv[:2]
    data = json.load(open(os.path.join(where, "names.json")))
    for f in sorted(glob.glob(f"crates/{crate}/proofs/**/Proof.antt", recursive=True)):
        rel = os.path.relpath(os.path.dirname(f), f"crates/{crate}/proofs").split(os.sep)
        if argv[2:] and rel[-1] not in argv[2:]:
            continue
        key = f"Rattle-{crate}-proofs." + ".".join(rel) + ".Lts"
        text = open(f, encoding="utf-8").read()
        if "Tie as tie" not in text or key not in data:
            print(f"{crate} {'/'.join(rel)}: left, " + ("a walk" if "Tie as tie" not in text else "no names"))
            continue
        turn(crate, f, Names(data[key], "::".join([crate] + rel)))


main(sys.argv[1:])
