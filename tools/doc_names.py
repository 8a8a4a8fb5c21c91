#!/usr/bin/env python3
"""Prints the names in the documents that nothing else in the repository has: names that were renamed or moved since.

    tools/doc_names.py

A name is a word in backticks, of letters and digits with `_`, `-` or `·` between. It is known if it stands in a file of the project that
is no document, or is the name of a file or folder. The exit status is 0 only if every name is known. The notes also speak of names that are
gone, so they are not looked at. In docs/PROOF.md a name says besides where it stands, and is looked for there and nowhere else:

    `Module.name`           a definition or law of molang: specs/Module.antt or proofs/Module.antt declares the name
    `crate/Module.name`     the same of another crate; a module may stand in a folder, `Folder/Module.name`
    `crate::function`       a function of the crate, or `crate::module::function`
    `crate/wrong_program`   a must-fail edit, crates/crate/must-fail/wrong_program.edit or edits/crate/wrong_program.edit

Each row of its tables has to name a definition, a law or a function.
"""

import re
import subprocess
import sys
from pathlib import Path

ROOT = Path(__file__).resolve().parent.parent
DOCUMENTS = ["README.md", "CONTRIBUTING.md", "docs/ARCHITECTURE.md", "docs/DECISIONS.md", "docs/PROOF.md"]
DOCUMENTS += [f"docs/{name}.md" for name in ["AUTHOR", "KEEPER", "TEACHER", "GRAMMAR", "DIFFERENCES", "FORMAT", "SHARDS"]]
PLACED = "docs/PROOF.md"
# Names that stand for others, and a flag of the kit in CONTRIBUTING.md.
PATTERNS = {"CanX", "Xed", "HasX", "XTo", "xOf", "xAt", "NameLaws", "NAMELaws"}
PATTERNS |= {"Module.name", "crate/Module.name", "crate::function", "crate/name"}
PATTERNS |= {"if-x", "allow-holes"}
# Words of the Rust, of a format and of the system, which no file here has.
PATTERNS |= {"is_math_function", "FFFFFFFF", "EDB88320", "START-END", "sorbrudder-PID-N", "ssh"}
WORD = re.compile(r"[A-Za-z][\w·]*(?:-[\w·]+)*")
LAW = re.compile(r"(?:([a-z]\w*)/)?((?:[A-Z]\w*/)*[A-Z]\w*)\.([A-Za-z][\w·-]*)")
FUNCTION = re.compile(r"([a-z]\w*)(?:::\w+)*::(\w+)")
EDIT = re.compile(r"([a-z]\w*)/([a-z0-9]\w*)")
ROW = re.compile(r"\| (?!---)")


def known():
    listed = subprocess.run(["git", "ls-files", "-co", "--exclude-standard"], cwd=ROOT, text=True, stdout=subprocess.PIPE, check=True)
    words = set()
    for name in listed.stdout.splitlines():
        path = ROOT / name
        words.update(WORD.findall(name.replace("/", " ").replace(".", " ")))
        if not name.endswith((".md", ".bin")) and path.is_file():
            words.update(WORD.findall(path.read_text(errors="ignore")))
    return words


def declares(path, name):
    """Whether a file of antt declares a name, as a definition, a law, a constructor or a field."""
    modifiers, other, name = r"(?:(?:pub|abbrev|unfoldable|data|record|type) )*", r"[\w·-]+", re.escape(name)
    line = rf"^ *{modifiers}(?:(?:{other} )*{name}(?: {other})* :|(?<=record ){name} |(?<=data ){name} )"
    return path.is_file() and re.search(line, path.read_text(), re.MULTILINE) is not None


def stands(quoted):
    """Whether a name of PROOF.md stands where it says; None if it says no place."""
    if quoted in PATTERNS or "CRATE" in quoted or (ROOT / quoted).exists():
        return None
    law, function, edit = LAW.fullmatch(quoted), FUNCTION.fullmatch(quoted), EDIT.fullmatch(quoted)
    if law:
        crate = ROOT / "crates" / (law[1] or "molang")
        return any(declares(crate / part / f"{law[2]}.antt", law[3]) for part in ["specs", "proofs"])
    if function:
        files = (ROOT / "crates" / function[1] / "src").glob("**/*.rt")
        return any(re.search(rf"\bfn {function[2]}\b", file.read_text()) for file in files)
    if edit:
        return any((ROOT / folder / f"{edit[2]}.edit").exists() for folder in [f"crates/{edit[1]}/must-fail", f"edits/{edit[1]}"])
    return None


def main():
    words, unknown = known() | PATTERNS, []
    for document in DOCUMENTS:
        for number, line in enumerate((ROOT / document).read_text().splitlines(), 1):
            placed = 0
            for quoted in re.findall(r"`([^`]+)`", line):
                place = stands(quoted) if document == PLACED else None
                placed += place is not None and "." in quoted or "::" in quoted
                if place is False:
                    unknown.append(f"{document}:{number}: `{quoted}` does not stand there")
                elif place is None and quoted not in PATTERNS:
                    unknown += [f"{document}:{number}: `{word}`" for word in WORD.findall(quoted) if word not in words]
            if document == PLACED and ROW.match(line) and not line.startswith("| sentence") and not placed:
                unknown.append(f"{document}:{number}: a row without a definition, a law or a function")
    for name in unknown:
        print(name)
    sys.exit(bool(unknown))


main()
