#!/usr/bin/env python3
"""Says which lines of the table the definition answers otherwise; the checker refuses the table as a whole and does not say.

    tools/lines.py                                   the definition as it stands
    tools/lines.py crates/molang/must-fail/*.edit    the definition with each of these edits

Each line of crates/molang/src/lines.rt is a theorem of its own, in scratch crates (tools/scratch.py).
"""

import re
import sys
from pathlib import Path

from scratch import MOLANG, SCRATCH, crate, refused

HEAD = """use mathlib.Core.Path.{refl}
use mathlib.Core.List.{[], ◌∷◌}
use Rattle.molang.proofs.Computed.{computed}
use Rattle.molang.specs.Lines.{Answered}
"""


def table():
    """The lines: each with its comment and its numbers."""
    text = (MOLANG / "src" / "lines.rt").read_text()
    names = {name: int(number.replace("_", "")) for name, number in re.findall(r"^(?:pub )?const (\w+): u32 = ([\d_]+);", text, re.M)}
    lines = []
    for row in re.search(r"^pub const LINES.*?= \[\n(.*?)^\];", text, re.M | re.S)[1].splitlines():
        row = row.strip()
        if row.startswith("//"):
            lines.append((row.removeprefix("//").strip(), []))
        else:
            terms = [term.strip() for term in row.rstrip(",").split("+")]
            lines[-1][1].append(sum(names[term] if term in names else int(term.replace("_", "")) for term in terms))
    return lines


def edit_of(path):
    fields = dict(line.split(": ", 1) for line in path.read_text().splitlines() if not line.startswith("#"))
    return fields["file"], fields["old"], fields["new"]


def failing(name, lines, edit):
    theorems = [
        f"{HEAD}\nline : Answered ({' ∷ '.join(map(str, numbers))} ∷ [])\nunfolding computed\nline = refl\n" for _, numbers in lines
    ]
    return [lines[number][0] for number in refused(crate(SCRATCH / "lines" / name, {}, theorems, edit))]


def main():
    lines = table()
    paths = [Path(path) for path in sys.argv[1:]]
    edits = [(path.stem, edit_of(path)) for path in paths] or [("as it stands", None)]
    for name, edit in edits:
        if edit and not edit[0].startswith("specs/"):
            print(f"{name}: no edit of the definition")
            continue
        found = failing(name.replace(" ", "-"), lines, edit)
        print(f"{name}: {len(found)} of {len(lines)} lines answered otherwise")
        for comment in found:
            print(f"  {comment}")


main()
