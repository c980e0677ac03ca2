#!/usr/bin/env python3
"""Brings the names that crates/*/specs and crates/*/proofs declare to today's spelling: snake case for functions,
lemmas, fields and constructors, with a capital kept for facts and types.

usage: tools/respell.py [--list]     at the top of the repository, after port.py

--list prints the table and writes nothing. Names of src/, strings, inputs and outputs stay: a name turns in .antt files,
in the clauses and ghost items of .rt files, in must-fail edits, and on the pages inside backquotes.
"""

import os
import re
import sys

WORD = r"[^\s(){}.;,@\"«»`]+"
SIGN = re.compile(r"[^a-z0-9_'₀-₉-]")
# names that Rattle reads in proof files
MADE = re.compile(r"(invariant|decreases|ghost)-")
# functions that have the name already
FUNCTIONS = {"kind_at", "truth_of"}
BY_HAND = {"getD-in": "get_or_in", "getD-out": "get_or_out", "in-getD": "in_get_or"}


def files(*ends):
    for root, dirs, names in os.walk("crates"):
        dirs[:] = sorted(d for d in dirs if d != "out")
        for name in sorted(names):
            if name.endswith(ends):
                yield os.path.join(root, name)


def plain(text):
    return re.sub(r"(^|(?<=[\s(){}.;,]))--[^\n]*", "", re.sub(r"\{-.*?-\}", "", text, flags=re.S), flags=re.M)


def declared():
    names = set()
    for path in files(".antt"):
        if path.endswith(("/Answers.antt", "/Invariants.antt")):
            continue  # the names there are Rattle's
        with open(path, encoding="utf-8") as f:
            text = plain(f.read())
        for line in text.split("\n"):
            if re.match(r"\s*((pub )?mod|use|module|infix\w?|unfolding|open)(?=\s|$)", line):
                continue
            m = re.match(r"\s*(?:(?:abbrev|unfoldable|pub)\s+)*((?:" + WORD + r"\s+)+):(?=\s|$)", line)
            if m:
                names.update(m.group(1).split())
            m = re.match(r"\s*(?:(?:abbrev|unfoldable|pub)\s+)*(?:data|record|ruleset)\s+(" + WORD + ")", line)
            if m:
                names.add(m.group(1))
    return names - {"data", "record", "let", "in"}


def turned(name):
    if name in BY_HAND:
        return BY_HAND[name]
    if MADE.match(name) or "◌" in name:
        return name
    parts = []
    for part in name.split("-"):
        if part and not part[0].isupper():
            part = re.sub(r"(?<=[a-z0-9])([A-Z])", lambda m: "_" + m.group(1).lower(), part)
        parts.append(part)
    new = parts[0]
    for before, part in zip(parts, parts[1:]):
        joined = part[:1].isupper() or before[:1].isupper() or SIGN.search(part) and not re.match(r"[a-z]", part)
        new += ("-" if joined else "_") + part
    return new


def table():
    """Old name to new. Where a lemma falls together with a function, the function has the name, and the lemma ends in _lem."""
    names = declared()
    rows = {n: turned(n) for n in names}
    by = {}
    for a, b in rows.items():
        by.setdefault(b, []).append(a)
    for b, olds in by.items():
        if len(olds) > 1:
            function, lemma = sorted(olds, key=lambda a: a.replace("-", "_") == b and a not in FUNCTIONS)
            rows[lemma] = b + "_lem"
    return {a: b for a, b in rows.items() if a != b}


def turn(text, rows):
    return re.sub(WORD, lambda m: rows.get(m.group(), m.group()), text)


def turn_code(text, rows):
    """Code whole; of a comment only words in backquotes and in camel case."""
    camel = {a: b for a, b in rows.items() if re.search(r"[a-z0-9][A-Z]", a)}
    out, last = [], 0
    for m in re.finditer(r"(?:^|(?<=[\s(){}.;,]))--[^\n]*", text, flags=re.M):
        out.append(turn(text[last : m.start()], rows))
        out.append(turn(re.sub(r"`[^`\n]*`", lambda s: turn(s.group(), rows), m.group()), camel))
        last = m.end()
    out.append(turn(text[last:], rows))
    return "".join(out)


CLAUSE = re.compile(r"(?:requires|ensures)\s*\*?\s*(?:\w+\s*)?\{|ghost\s+use\b")


def turn_rust(text, rows):
    out, last = [], 0
    while True:
        m = CLAUSE.search(text, last)
        if not m:
            break
        out.append(text[last : m.start()])
        if m.group().startswith("ghost"):
            end = text.index(";", m.end())
        else:
            depth, end = 1, m.end()
            while depth:
                depth += {"{": 1, "}": -1}.get(text[end], 0)
                end += 1
        out.append(turn(text[m.start() : end], rows))
        last = end
    out.append(text[last:])
    return "".join(out)


def turn_page(text, rows):
    return re.sub(r"`[^`\n]+`", lambda m: turn(m.group(), rows), text)


def main():
    rows = table()
    if "--list" in sys.argv:
        for a, b in sorted(rows.items()):
            print(f"{a}\t{b}")
        return
    pages = ["README.md"] + [os.path.join("docs", f) for f in sorted(os.listdir("docs")) if f.endswith(".md")]
    for path in [*files(".antt", ".rt", ".edit"), *pages]:
        with open(path, encoding="utf-8") as f:
            old = f.read()
        by = {".antt": turn_code, ".rt": turn_rust, ".edit": turn, ".md": turn_page}[os.path.splitext(path)[1]]
        new = by(old, rows)
        if new != old:
            with open(path, "w", encoding="utf-8") as f:
                f.write(new)


main()
