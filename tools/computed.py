#!/usr/bin/env python3
"""Keeps crates/molang/proofs/Computed.antt complete: `computed` opens every `unfoldable pub` definition of specs/.

    tools/computed.py            writes the file
    tools/computed.py --check    says whether it is as it would be written
"""

import re
import sys
from pathlib import Path

CRATE = Path(__file__).resolve().parent.parent / "crates" / "molang"
TARGET = CRATE / "proofs" / "Computed.antt"
INTRODUCTION = "-- `unfolding computed` opens every definition of `specs/`, for results that the checker computes.\n"


def definitions(module):
    text = (CRATE / "specs" / f"{module}.antt").read_text()
    return re.findall(r"^unfoldable pub (\S+)", text, re.MULTILINE)


def written():
    modules = re.findall(r"^pub mod (\S+)", (CRATE / "specs" / "Lib.antt").read_text(), re.MULTILINE)
    home, uses, names = {}, [], []
    for module in modules:
        own = definitions(module)
        for name in own:
            if name in home:
                sys.exit(f"computed: `{name}` stands in {home[name]} and in {module}")
            home[name] = module
        if own:
            uses.append(f"use Rattle.molang.specs.{module}.{{{', '.join(own)}}}\n")
            names += own
    return f"{INTRODUCTION}{''.join(uses)}\nunfoldable pub computed : Unit {{0}}\nunfolding {' '.join(names)}\ncomputed = tt\n"


def main():
    if sys.argv[1:] == ["--check"]:
        if TARGET.read_text() != written():
            sys.exit("computed: proofs/Computed.antt does not list the definitions of specs/; run tools/computed.py")
    elif sys.argv[1:]:
        sys.exit(__doc__)
    else:
        TARGET.write_text(written())


main()
