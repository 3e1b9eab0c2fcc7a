#!/usr/bin/env python3
"""Brings this repository's own definitions and lemmas to today's spelling: words in snake case.

usage: python3 tools/respell.py [--list]    at the top of the repository, once, after the toolchain's port.py

A name in camel case that a file of specs/ or proofs/ defines, as isDecl, becomes is_decl, wherever it stands: in specs/, proofs/, clauses,
must-fail edits and documents. Of a lemma's name the parts between hyphens are respelled, and the hyphens stay. Definitions of specs/ whose
names have hyphens get underscores. Functions of src/, files, strings, inputs and outputs keep their names: none of them is in camel case.
"""

import os
import re
import sys

NAME = re.compile(r"[^\W\d][\w']*(?:-[\w'-]+)*")
DEFINED = re.compile(r"\s*(?:abbrev |pub |unfoldable |mutual )*([^\s:(){}.,]+)\s+:(?:\s|$)")
CAMEL = re.compile(r"[a-z][a-z0-9]*(?:[A-Z][a-z0-9]*)+'*")
# names of the library that an earlier spelling of ours still has
BY_HAND = {"getD-sizes": "get_or-sizes"}
# lemmas whose names, as port.py spells them, would fall together with definitions that they are about
FALLS_TOGETHER = {"crates/analyzer/proofs": {"by_layout": "layout-answer", "stands_at": "standing"}}
# definitions of specs/ whose names have hyphens; table-cases and every-byte-bytes are theorems and keep theirs
HYPHENS = """array-of-itself array-padding-padding by-group by-parent by-type bytes-are faults-are fixed-in-8 listed-is marks-are
one-name-thrice packet-and-test packet-bytes places-are range-5-5 soft-stroke soft-stroke-out soft-stroke-printed test-bytes three-ranges""".split()


def files(ends, top="crates"):
    for folder, dirs, names in os.walk(top):
        dirs[:] = sorted(d for d in dirs if d not in ("out", ".git"))
        for name in sorted(names):
            if name.endswith(ends):
                yield os.path.join(folder, name)


def text(path):
    with open(path, encoding="utf-8") as f:
        return f.read()


def snake(part):
    return re.sub(r"(?<=[a-z0-9])([A-Z])", lambda m: "_" + m.group(1).lower(), part) if CAMEL.fullmatch(part) else part


def respelled():
    """The old and new spelling of each name that is defined here."""
    defined = set()
    for path in files(".antt"):
        for line in text(path).splitlines():
            found = DEFINED.match(line)
            if found:
                defined.add(found.group(1))
    words = {part for name in defined for part in name.split("-") if CAMEL.fullmatch(part)}
    turned = dict(BY_HAND)
    for name in sorted(defined):
        new = "-".join(snake(p) if p in words else p for p in name.split("-"))
        if name in HYPHENS:
            new = new.replace("-", "_")
        if new != name and name not in turned:
            turned[name] = new
    return turned


def defined_now(everything):
    """The names that are defined once all is respelled."""
    return {m.group(1) for path in everything if path.endswith(".antt") for line in text(path).splitlines() for m in [DEFINED.match(line)] if m}


def rewrite(path, names):
    old = text(path)
    new = NAME.sub(lambda m: names.get(m.group(0), m.group(0)), old)
    if new != old:
        with open(path, "w", encoding="utf-8") as f:
            f.write(new)


def main():
    turned = respelled()
    everything = list(files((".antt", ".rt", ".edit")))
    if "--list" in sys.argv[1:]:
        for old, new in sorted(turned.items()):
            print(old, new)
        return
    for folder, names in FALLS_TOGETHER.items():
        for path in files(".antt", folder):
            rewrite(path, names)
    for old, new in sorted(turned.items()):
        if new in defined_now(everything):
            print(f"look: {old} becomes {new}, a name that is defined here already")
    for path in everything:
        rewrite(path, turned)
    # documents name definitions in the old spelling also where port.py has turned them
    now = defined_now(everything)
    for path in ["README.md"] + sorted(files(".md", "docs")):
        rewrite(path, {n: snake(n) for n in NAME.findall(text(path)) if CAMEL.fullmatch(n) and snake(n) in now})


main()
