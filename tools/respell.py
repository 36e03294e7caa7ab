#!/usr/bin/env python3
"""Brings the names of the repository's own definitions and lemmas to the spelling of today's Rattle: words in snake case.

usage: python3 tools/respell.py            at the top, once, after the toolchain's port/port.py and before any edit by hand

A name is turned where it is declared in specs/ or proofs/, or given by `as`, and has a capital inside a word that begins small: `mateAt` becomes
`mate_at`, `digit-bitOf` becomes `digit-bit_of`. Types, modules, functions of src/ and strings keep their names. One module is renamed, since Rattle makes
one of that name itself: lines' `Contracts` is `Clauses`. A lemma that would get the name of the definition that it speaks of gets `_lem` (LEMMAS).
It stops, and writes nothing, if two names that antt files declare would fall together in one file. A definition and a function of src/ may have
one name, and so may a definition and the field of a record (FIELDS).
"""

import os
import re
import sys

NAME = re.compile(r"[A-Za-z_][A-Za-z0-9_']*(?:-[A-Za-z0-9_'≤<≡+*∷]+)*")
DECLARED = re.compile(r"(?m)^\s*(?:(?:abbrev|unfoldable|pub) )*([a-z][A-Za-z0-9_'-]*)\s+:\s")
ALIAS = re.compile(r"\bas ([a-z][A-Za-z0-9_'-]*)")
CAMEL = re.compile(r"^[a-z][A-Za-z0-9_']*[A-Z]")
LEMMAS = {"at_level": "at_level_lem", "pair_line": "pair_line_lem", "pairs_of": "pairs_of_lem"}
FIELDS = {"no_loop"}
MODULE = re.compile(r"\b(Rattle\.lines\.specs\.)Contracts\b")


def snake(name):
    def segment(s):
        if not CAMEL.match(s):
            return s
        return re.sub(r"(?<=[a-z0-9'])([A-Z])", lambda m: "_" + m.group(1).lower(), s)

    return "-".join(segment(s) for s in name.split("-"))


def files(root, tails):
    for folder, dirs, names in os.walk(root):
        dirs[:] = sorted(d for d in dirs if d not in ("out", "target", ".git"))
        for n in sorted(names):
            if n.endswith(tails):
                yield os.path.join(folder, n)


def read(path):
    with open(path, encoding="utf-8") as f:
        return f.read()


def main():
    if not os.path.isdir("crates"):
        sys.exit("respell: run it at the top of the repository")
    code = {p: read(p) for p in files("crates", (".antt", ".rt"))}
    declared = set()
    for p, text in code.items():
        if p.endswith(".antt"):
            declared.update(m.group(1) for m in DECLARED.finditer(text))
        declared.update(m.group(1) for m in ALIAS.finditer(text))
    turned = {n: snake(n) for n in declared if snake(n) != n} | LEMMAS

    together = []
    for p, text in code.items():
        seen = {}
        for n in {m.group(0) for m in NAME.finditer(text)} & declared:
            seen.setdefault(turned.get(n, n), set()).add(n)
        together += [f"{p}: {', '.join(sorted(ns))}" for n, ns in seen.items() if len(ns) > 1 and n not in FIELDS]
    if together:
        print("\n".join(sorted(together)))
        sys.exit("respell: these names would fall together")

    others = list(files("docs", (".md",))) + ["README.md"] + list(files("crates", (".edit",)))
    changed = 0
    for p in list(code) + others:
        old = code.get(p) or read(p)
        names = turned if p.endswith(".antt") else {n: s for n, s in turned.items() if n not in LEMMAS}
        new = NAME.sub(lambda m: names.get(m.group(0), m.group(0)), old)
        new = MODULE.sub(r"\1Clauses", new)
        if p == "crates/lines/specs/Lib.antt":
            new = re.sub(r"(?m)^pub mod Contracts$", "pub mod Clauses", new)
        if new != old:
            changed += 1
            with open(p, "w", encoding="utf-8") as f:
                f.write(new)
    if os.path.exists("crates/lines/specs/Contracts.antt"):
        os.rename("crates/lines/specs/Contracts.antt", "crates/lines/specs/Clauses.antt")
    print(f"respell: {len(turned)} names in {changed} files")


main()
