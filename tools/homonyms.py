#!/usr/bin/env python3
"""Finds homonyms: public names that are declared in more than one file, of definitions in specs/ and of constants in src/.

    tools/homonyms.py            says which are new, and which are known and gone; the exit status is 1 if there are any (the gate)
    tools/homonyms.py --list     prints every homonym with the files that declare it
    tools/homonyms.py --write    takes those that are gone out of tools/homonyms.txt; it adds none

One name is to be one thing. tools/homonyms.txt has the homonyms that are known, each with the number of files that declare it. That list
may only shrink: a name that is not in it, or that a further file declares, is a fault, and so is a name in it that is no longer one.
Modules, constructors and fields of records are not looked at, nor are names that a file declares and does not make public.
"""

import re
import sys
from collections import defaultdict
from pathlib import Path

ROOT = Path(__file__).resolve().parent.parent
CRATES = ROOT / "crates"
KNOWN = ROOT / "tools" / "homonyms.txt"
HEAD = "# Public names that several files declare, with their number (tools/homonyms.py). This list may only shrink.\n"
DEFINITION = re.compile(r"((?:(?:pub|abbrev|unfoldable|data|record|type) )+)(\S+)")
CONSTANT = re.compile(r"pub const (\w+):")


def declared():
    """Each public name with the files that declare it."""
    names = defaultdict(set)
    for path in CRATES.glob("*/specs/**/*.antt"):
        for line in path.read_text().splitlines():
            found = DEFINITION.match(line)
            if found and "pub" in found[1].split() and found[2] != "mod":
                names[found[2]].add(path)
    for path in CRATES.glob("*/src/**/*.rt"):
        for line in path.read_text().splitlines():
            found = CONSTANT.match(line)
            if found:
                names[found[1]].add(path)
    if len(names) < 1000:
        sys.exit(f"homonyms: only {len(names)} public names were found: are they declared otherwise now?")
    return names


def main():
    homonyms = {name: paths for name, paths in declared().items() if len(paths) > 1}
    if sys.argv[1:] == ["--list"]:
        for name, paths in sorted(homonyms.items()):
            print(name, *sorted(str(path.relative_to(CRATES)) for path in paths))
        return
    known = {}
    for line in KNOWN.read_text().splitlines():
        if line and not line.startswith("#"):
            name, count = line.split()
            known[name] = int(count)
    if sys.argv[1:] == ["--write"]:
        left = {name: min(count, len(homonyms[name])) for name, count in known.items() if name in homonyms}
        KNOWN.write_text(HEAD + "".join(f"{name} {count}\n" for name, count in sorted(left.items())))
        return
    if sys.argv[1:]:
        sys.exit(__doc__)
    faults = 0
    for name, paths in sorted(homonyms.items()):
        if len(paths) > known.get(name, 1):
            faults += 1
            print(f"homonyms: `{name}` is declared in", ", ".join(sorted(str(path.relative_to(ROOT)) for path in paths)))
    for name, count in sorted(known.items()):
        if len(homonyms.get(name, ())) < count:
            faults += 1
            print(f"homonyms: `{name}` is no longer declared in {count} files: run tools/homonyms.py --write")
    sys.exit(bool(faults))


main()
