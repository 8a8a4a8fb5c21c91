#!/usr/bin/env python3
"""Prints the answers of proofs that need not be written, since the check finds them: an answer that is `search rules` and nothing else.

    tools/shrink.py --check    prints them; the exit status is 1 if there are any (the gate)
    tools/shrink.py --apply    takes them out; then run `rt fmt` and `rt check`

An answer is a definition of proofs/**/Answers.antt whose type is a goal. Each root file asks for `#![tactic(auto)]`, under which the check
tries `search rules` at every goal that has no answer. What a comment stands on stays.
"""

import re
import sys
from pathlib import Path

ROOT = Path(__file__).resolve().parent.parent
ANSWER = re.compile(r"(?:pub )?(\S+) : goal\.[^\n]+\n(?:unfolding [^\n]+\n)?\1(?: [\w'«»-]+)* =\s+search rules\n*")


def main():
    if sys.argv[1:] not in (["--check"], ["--apply"]):
        sys.exit(__doc__)
    found = 0
    for path in sorted((ROOT / "crates").glob("*/proofs/**/Answers.antt")):
        blocks = re.split(r"\n\n+", path.read_text().rstrip("\n"))
        kept = [block for block in blocks if not ANSWER.fullmatch(block)]
        if len(kept) < len(blocks):
            found += len(blocks) - len(kept)
            names = (ANSWER.fullmatch(block) for block in blocks)
            print(f"{path.relative_to(ROOT)}:", ", ".join(name[1] for name in names if name))
            if sys.argv[1] == "--apply":
                path.write_text("\n\n".join(kept) + "\n")
    sys.exit(bool(found) and sys.argv[1] == "--check")


main()
