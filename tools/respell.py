#!/usr/bin/env python3
"""Brings the repository's own definitions and lemmas to today's spelling, after port.py of the kit has run.

    python3 tools/respell.py [--report]

Run once, at the top. A name in camel case whose first letter is small becomes snake case. A definition that answers a type and
begins with a small letter gets a capital (TYPES below). In a lemma's name a dash stays only between two names of definitions;
between words it becomes an underscore. Names that would fall together with another are in OTHER below, each with its own new name,
or in KEPT, and keep their spelling. Functions of src/, exported names, strings, inputs and outputs keep their names.

Read and rewritten: crates/*/specs, crates/*/proofs, crates/*/must-fail, the clauses, ghost lines and comments of crates/*/src, README.md,
docs/*.md and the lists of names in tests/*.txt.
"""

import collections
import glob
import os
import re
import sys

WORD = re.compile(r"[A-Za-z_][A-Za-z0-9_'₀-₉ℕℤ]*(?:-[A-Za-z0-9_'₀-₉ℕℤ]+)*")
CAMEL = re.compile(r"[a-z0-9][A-Z]")
OTHER = {
    "below_of": "below_of_lem",
    "far_apart": "far_apart_lem",
    "half-down-mono": "half_down_nat-mono",
    "half-up-mono": "half_up_nat-mono",
    "half_up": "half_up_nat",
    "half_down": "half_down_nat",
    "in-range": "in_range_lem",
    "read-signed": "read_signed_lem",
    "settled-in": "settled_in_lem",
    "trace-checks": "trace_checks_lem",
}
# the letters behind a backslash in strings, and a product
KEPT = {"nReads", "nIt", "nA", "nWith", "rR"}
TYPES = {"isPositive": "IsPositive", "settledBy": "SettlesBy"}


def snake(part):
    if not part or part[0].isupper():
        return part
    part = re.sub(r"([a-z0-9])([A-Z])", lambda m: m.group(1) + "_" + m.group(2).lower(), part)
    return re.sub(r"([A-Z])", lambda m: m.group(1).lower(), part)


def read(path):
    with open(path, encoding="utf-8") as f:
        return f.read()


def declared(text):
    """The names that a file declares at its top level, below its sections too."""
    for m in re.finditer(r"^[ \t]*(?:(?:abbrev|unfoldable|pub|record|data) )*([^\s(){}\[\].,;:=→λ«»\"]+) :(?=\s|$)", text, re.M):
        yield m.group(1)
    for m in re.finditer(r"^[ \t]*(?:pub )?(?:record|data) ([^\s(){}\[\].,;:=→λ«»\"]+)", text, re.M):
        yield m.group(1)


def main():
    report = "--report" in sys.argv
    theory = sorted(glob.glob("crates/*/specs/*.antt") + glob.glob("crates/*/proofs/*.antt"))
    own = sorted(glob.glob("crates/*/proofs/*/*.antt"))
    code = sorted(glob.glob("crates/*/src/*.rt"))
    edits = sorted(glob.glob("crates/*/must-fail/*.edit"))
    pages = ["README.md"] + sorted(glob.glob("docs/*.md")) + sorted(glob.glob("tests/*.txt"))
    names = set()
    for p in theory:
        names.update(declared(read(p)))
    plain = {n for n in names if "-" not in n}
    std = set()
    for p in theory + code:
        for m in re.finditer(r"use Rattle\.std\.[A-Za-z.]*\.\{([^}]*)\}|use (?:lib|native|mathlib|borrow|Prim)\.[A-Za-z.]*\.\{([^}]*)\}", read(p)):
            std.update(x.split(" as ")[0].strip() for x in (m.group(1) or m.group(2)).split(","))
    known = plain | {n for n in std if "-" not in n}
    turned = {}
    for n in sorted(names):
        if n in KEPT:
            continue
        if n in OTHER:
            turned[n] = OTHER[n]
            continue
        if n in TYPES:
            turned[n] = TYPES[n]
            continue
        parts = n.split("-")
        new = snake(parts[0])
        for i in range(1, len(parts)):
            joins = (parts[i] in known or snake(parts[i]) in known) and ("-".join(parts[:i]) in known or parts[i - 1] in known)
            new += ("-" if joins else "_") + snake(parts[i])
        if new != n:
            turned[n] = new
    # names of fields, constructors, parameters and locals in camel case
    for p in theory + own + code:
        for w in WORD.findall(read(p)):
            if "-" not in w and w not in turned and w not in KEPT and CAMEL.search(w) and w[0].islower():
                turned[w] = OTHER.get(w, snake(w))

    # what would fall together
    back = collections.defaultdict(set)
    for n, m in turned.items():
        back[m].add(n)
    clash = []
    for m, olds in back.items():
        if len(olds) > 1 or m in names:
            clash.append((m, sorted(olds), m in names))
    for m, olds, there in sorted(clash):
        print("together:", m, olds, "and one that is there" if there else "")
    for p in theory + own + code:
        words = set(WORD.findall(re.sub(r"(?m)(--|//).*$", "", read(p))))
        for n, m in turned.items():
            if n in words and m in words and m not in turned:
                print("hidden:", p, n, m)
    if report:
        for n in sorted(turned):
            print("turned:", n, turned[n])
        return

    def turn(m):
        w = m.group(0)
        if w in turned:
            return turned[w]
        return w

    for p in theory + own + edits:
        old = read(p)
        new = WORD.sub(turn, old)
        if new != old:
            with open(p, "w", encoding="utf-8") as f:
                f.write(new)
    for p in code:
        old = read(p)
        new = WORD.sub(turn, old)
        if new != old:
            with open(p, "w", encoding="utf-8") as f:
                f.write(new)
    for p in pages:
        old = read(p)
        new = WORD.sub(turn, old) if p.endswith(".txt") else re.sub(r"`[^`\n]*`", lambda m: WORD.sub(turn, m.group(0)), old)
        if new != old:
            with open(p, "w", encoding="utf-8") as f:
                f.write(new)


main()
