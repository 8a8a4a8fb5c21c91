#!/usr/bin/env python3
"""Prints the public functions that fewer than two must-fail edits speak of.

    tools/wrong_programs.py

An edit, of crates/*/must-fail or of edits/, speaks of a function where its `old:` text lies in the function, in a private function or a
constant of the crate that it uses, directly or by others, or in a definition of the crate's specs/ that its contract names. Whether the
edit is refused is for `rt must-fail` to say. The exit status is 0 only where every `pub fn` with an `ensures` has two.
"""

import re
import sys
from pathlib import Path

ROOT = Path(__file__).resolve().parent.parent
FUNCTION = re.compile(r"^( *)(pub |pub\(crate\) )?(?:extern \"C\" )?fn (\w+)")
CONSTANT = re.compile(r"^( *)(pub )?const (\w+)")
DEFINITION = re.compile(r"^(?:(?:abbrev|unfoldable|pub|record|data) )+([^\s:({]+)")


class Part:
    """A function, a constant or a definition: where its text lies in its file."""

    def __init__(self, path, name, public, start, lines):
        self.path, self.name, self.public, self.start = path, name, public, start
        self.text = "".join(lines)
        self.contract, _, self.body = self.text.partition("\n{\n") if "\n{\n" in self.text else self.text.partition("\n    {\n")
        self.edits = set()

    def promises(self):
        return self.public and re.search(r"^\s+ensures\b", self.contract, re.M)


def parts_of(path, head, is_end):
    lines = path.read_text().splitlines(keepends=True)
    starts = [sum(map(len, lines[:n])) for n in range(len(lines))]
    for n, line in enumerate(lines):
        if found := head.match(line):
            end = next((m for m in range(n, len(lines)) if is_end(found, lines, m)), len(lines) - 1)
            yield Part(path, found[found.lastindex], "pub " in line, starts[n], lines[n : end + 1])


def code_of(crate):
    for path in sorted((crate / "src").rglob("*.rt")):
        yield from parts_of(path, FUNCTION, lambda found, lines, m: lines[m] == found[1] + "}\n")
        yield from parts_of(path, CONSTANT, lambda found, lines, m: lines[m].rstrip().endswith(";"))


def definitions_of(crate):
    for path in sorted((crate / "specs").rglob("*.antt")):
        yield from parts_of(path, DEFINITION, lambda found, lines, m: m + 1 < len(lines) and lines[m + 1].startswith(("--", "\n")))


def mark(crate, parts):
    for edit in [*(crate / "must-fail").glob("*.edit"), *(ROOT / "edits" / crate.name).glob("*.edit")]:
        path = None
        for line in edit.read_text().splitlines():
            if line.startswith("file: "):
                path = crate / line[6:]
            elif line.startswith("old: "):
                at = path.read_text().find(line[5:])
                for part in parts:
                    if part.path == path and part.start < at + len(line) - 5 and at < part.start + len(part.text):
                        part.edits.add(edit)


def used_by(function, code):
    """The function, and what it uses of its crate that is not public: public functions have edits of their own."""
    reached, left = [], [function]
    while left:
        part = left.pop()
        reached.append(part)
        words = set(re.findall(r"\w+", re.sub(r"//.*", "", part.body or part.text)))
        for other in code:
            near = other.path == part.path or re.search(rf"^use crate::[^;]*\b{other.name}\b", part.path.read_text(), re.M)
            if other.name in words and near and other not in reached + left and not other.promises():
                left.append(other)
    return reached


def main():
    short = []
    for crate in sorted((ROOT / "crates").iterdir()):
        code, definitions = list(code_of(crate)), list(definitions_of(crate))
        mark(crate, code + definitions)
        for function in filter(Part.promises, code):
            named = set(re.split(r"[\s(){},.;]+", function.contract.partition("\n")[2]))
            parts = used_by(function, code) + [part for part in definitions if part.name in named]
            if len(edits := set().union(*(part.edits for part in parts))) < 2:
                short.append(f"{function.path.relative_to(ROOT)}: {function.name}: {len(edits)}")
    for line in short:
        print(line)
    sys.exit(bool(short))


main()
