#!/usr/bin/env python3
"""Brings this repository's own names in contracts, definitions, laws, proofs and edits to today's spelling, after port.py, once.

usage: tools/respell.py        at the top of a checkout in which the kit's port.py ran

Every name in crates/ and edits/ that has lower and upper case letters and begins with a lower one is a name of antt's, since Rust code has
none: `tokensBefore` becomes `tokens_before`. Types, modules and constructors of Rust enums begin with a capital and stay. Dashes stay,
which join two names. Nothing else is changed: strings, inputs, outputs and Rust names keep their spelling.
Where a lemma's name falls together with a definition's, the lemma ends in `_lem`, by the table below.
"""

import os
import re
import sys

# Lemmas whose names, which port.py spelled with `_`, would be those of definitions in scope there: the files, and the names.
LEMMAS = [
    ("crates/lift/proofs/Lifted.antt", ["is_same"]),
    ("crates/molang/proofs/Lifts.antt", ["any_way"]),
    ("crates/molang/proofs/Witnesses.antt", ["any_way"]),
    ("crates/molang/proofs/Matching.antt", ["none_open"]),
    ("crates/molang/proofs/OperatorRules.antt", ["all_have"]),
    ("crates/molang/proofs/Reread.antt", ["read_back"]),
    ("crates/molang/proofs/Versions.antt", ["reads_as"]),
    ("crates/parse/proofs/", ["with_first"]),
    ("crates/parse/proofs/parse/Proof.antt", ["is_read"]),
    ("crates/passes/proofs/Array", ["in_order"]),
    ("crates/passes/proofs/Statement", ["in_order"]),
    ("crates/scan/proofs/", ["at_five"]),
    ("crates/sorbrudder/proofs/", ["told_back"]),
    ("crates/write/proofs/", ["none_over", "plain_by"]),
]

# A label that port.py took for a fact of std's: it is the call of `is_leaf`.
LABELS = {"is_IsLeaf": "is_leaf"}

NAME = re.compile(r"(?<![\w'])[a-z][\w']*(?![\w'])")
CAMEL = re.compile(r"([a-z0-9])([A-Z])")
TEXT = re.compile(r'"(?:[^"\\\n]|\\.)*"')


def snake(name):
    if name in LABELS:
        return LABELS[name]
    return CAMEL.sub(lambda m: m.group(1) + "_" + m.group(2).lower(), name)


def names(text):
    return NAME.sub(lambda m: snake(m.group(0)) if CAMEL.search(m.group(0)) else m.group(0), text)


def outside_strings(text):
    done, at = [], 0
    for m in TEXT.finditer(text):
        done += [names(text[at : m.start()]), m.group(0)]
        at = m.end()
    return "".join(done) + names(text[at:])


def lemma(text, name):
    """The name, where it is no part of a path, ends in _lem."""
    return re.sub(r"(?<![\w'.\-])" + name + r"(?![\w'.\-])", name + "_lem", text)


def files():
    for top in ("crates", "edits"):
        for folder, dirs, found in os.walk(top):
            dirs[:] = sorted(d for d in dirs if d != "out")
            for f in sorted(found):
                if f.endswith((".rt", ".antt", ".edit")):
                    yield os.path.join(folder, f)


def main():
    if not os.path.isdir("crates"):
        print("run it at the top of a checkout", file=sys.stderr)
        return 2
    changed = 0
    for path in files():
        with open(path, encoding="utf-8") as f:
            old = f.read()
        new = old
        for start, its in LEMMAS:
            if path.startswith(start):
                for name in its:
                    new = lemma(new, name)
        new = outside_strings(new) if path.endswith(".rt") else names(new)
        if new != old:
            changed += 1
            with open(path, "w", encoding="utf-8") as f:
                f.write(new)
    print(f"respell: {changed} files")
    return 0


if __name__ == "__main__":
    sys.exit(main())
