#!/usr/bin/env python3
"""Respells this repository's own ghost names after the kit's port.py: words are in snake case.

usage: python3 tools/respell.py        once, at the top, on what port.py made

A definition `nodeKind` becomes `node_kind`. Where port.py had given a lemma `node-kind` that very spelling, the lemma gets its hyphen back, so that
no two names fall together. Functions of src/, exported names, strings and paths to a function's proof keep their names.
"""

import glob
import re

# Lemmas that port.py respelled as a definition now reads.
LEMMAS = """all_once asked_in at_first at_left cells_fit count_word cut_short first_off first_step goes_on in_left in_right is_leaf no_step node_in
node_place one_parent pass_on record_of size_word spot_in step_count step_fits step_in step_room""".split()

CAMEL = re.compile(r"(?<![\w'₀-₉])[a-z][\w']*[a-z0-9'][A-Z]\w*(?:[\w'₀-₉]*)")
KEPT = re.compile(r"_[A-Z]")  # names that the kit makes, as uint_Tells


def snake(name):
    return re.sub(r"(?<=[a-z0-9'])[A-Z]", lambda m: "_" + m.group(0).lower(), name)


def texts(*patterns):
    for pattern in patterns:
        for path in sorted(glob.glob(pattern, recursive=True)):
            if "/out/" in path:
                continue
            with open(path, encoding="utf-8") as f:
                yield path, f.read()


def write(path, old, new):
    if new != old:
        with open(path, "w", encoding="utf-8") as f:
            f.write(new)


def outside_strings(text, turn):
    return "".join(part if i % 2 else turn(part) for i, part in enumerate(re.split(r'(b?"(?:[^"\\\n]|\\.)*")', text)))


def main():
    lemma = re.compile(r"(?<![\w'.-])(" + "|".join(LEMMAS) + r")(?![\w'-])")
    for path, text in texts("crates/*/proofs/**/*.antt", "crates/*/specs/*.antt"):
        write(path, text, lemma.sub(lambda m: m.group(1).replace("_", "-"), text))
    turn = lambda part: CAMEL.sub(lambda m: m.group(0) if KEPT.search(m.group(0)) else snake(m.group(0)), part)
    names = set()
    for path, text in texts("crates/**/*.antt"):
        names |= {m.group(0) for m in CAMEL.finditer(text)}
        write(path, text, turn(text))
    for path, text in texts("crates/**/*.rt"):
        write(path, text, outside_strings(text, turn))
    for path, text in texts("crates/*/must-fail/*.edit"):
        write(path, text, "".join(l if l.startswith("file:") else outside_strings(l, turn) for l in text.splitlines(keepends=True)))
    known = lambda m: snake(m.group(0)) if m.group(0) in names and not KEPT.search(m.group(0)) else m.group(0)
    for path, text in texts("README.md", "docs/*.md"):
        write(path, text, CAMEL.sub(known, text))


if __name__ == "__main__":
    main()
