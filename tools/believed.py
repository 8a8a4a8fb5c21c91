#!/usr/bin/env python3
"""Writes docs/BELIEVED.md: what a reader of the promises must believe, definition by definition, with its lines; and README's rows of it.

    tools/believed.py            writes the page, and the rows of README.md's table
    tools/believed.py --check    says whether both are as they would be written; the exit status is 1 if not (the gate)
    tools/believed.py --names    prints every definition that is reached, with its lines

It starts from the contract of each entry, and from the statement of each theorem that the page names, and follows the names that they cite
to their definitions in specs/ and to what those cite. Code, laws and proofs are not among them: the checker holds those to the contracts.
It stops with an error at a `use` line that it cannot read, at a name that nothing has, and at a promise that leans on a file of proofs/. A
line counts if it is not blank, no comment and no `use`.
"""

import re
import sys
from pathlib import Path

ROOT = Path(__file__).resolve().parent.parent
CRATES = ROOT / "crates"
PAGE = ROOT / "docs" / "BELIEVED.md"
README = ROOT / "README.md"
README_TABLE = "| to believe | definitions | lines in all |\n|---|---|---|\n"

# The questions, each with all that the ones before it ask, and the contracts and theorems that answer it.
FUNCTION, THEOREM = "fn", "theorem"
QUESTIONS = [
    ("reading", [(FUNCTION, "parse", "src/lib.rt", "parse")]),
    ("with writing", [(FUNCTION, "write", "src/lib.rt", "write")]),
    ("with demand 3", [(FUNCTION, "reread", "src/lib.rt", "reread")]),
    (
        "all entries and programs",
        [
            (FUNCTION, "rules", "src/lib.rt", "parse_ruled"),
            (FUNCTION, "lift", "src/lib.rt", "lift"),
            (FUNCTION, "lift", "src/entry.rt", "lift_entry"),
            (FUNCTION, "stackorder", "src/lib.rt", "export"),
            (FUNCTION, "stackorder", "src/lib.rt", "import"),
            (FUNCTION, "held", "src/lib.rt", "open_list"),
            (FUNCTION, "held", "src/lib.rt", "ask_edit"),
            (FUNCTION, "held", "src/lib.rt", "commit_edit"),
            (FUNCTION, "held", "src/lib.rt", "adopt_version"),
            (FUNCTION, "shortlists", "src/lib.rt", "count"),
            (FUNCTION, "shortlists", "src/lib.rt", "list_at"),
            (FUNCTION, "sorbrudder", "src/lib.rt", "sorbrudder_parse"),
            (FUNCTION, "sorbrudder", "src/ruled.rt", "sorbrudder_parse_rules"),
            (FUNCTION, "sorbrudder", "src/lib.rt", "sorbrudder_write"),
            (FUNCTION, "sorbrudder", "src/lib.rt", "sorbrudder_export"),
            (FUNCTION, "sorbrudder", "src/lib.rt", "sorbrudder_import"),
            (FUNCTION, "sorbrudder", "src/lifting.rt", "sorbrudder_lift"),
            (FUNCTION, "sorbrudder", "src/holding.rt", "sorbrudder_open"),
            (FUNCTION, "sorbrudder", "src/holding.rt", "sorbrudder_ask"),
            (FUNCTION, "sorbrudder", "src/holding.rt", "sorbrudder_commit"),
            (FUNCTION, "sorbrudder", "src/holding.rt", "sorbrudder_adopt"),
            (FUNCTION, "streams", "src/lib.rt", "fill"),
            (FUNCTION, "treelist", "src/main.rt", "count_rest"),
            (FUNCTION, "treelist", "src/main.rt", "listing"),
            (FUNCTION, "treelist", "src/main.rt", "hand"),
            (FUNCTION, "everylist", "src/read.rt", "read_rest"),
            (FUNCTION, "everylist", "src/step.rt", "step_at"),
            (FUNCTION, "everylist", "src/main.rt", "hand"),
            (FUNCTION, "everylist", "src/main.rt", "print"),
            (FUNCTION, "liftcount", "src/main.rt", "read_input"),
            (FUNCTION, "liftcount", "src/feed.rt", "feed"),
            (FUNCTION, "liftcount", "src/finish.rt", "finish"),
            (FUNCTION, "liftcount", "src/main.rt", "hand"),
            (FUNCTION, "liftlists", "src/feed.rt", "feed"),
            (FUNCTION, "liftlists", "src/hand.rt", "hand"),
            (FUNCTION, "liftlists", "src/hand.rt", "hand_last"),
        ],
    ),
    (
        "every theorem",
        [
            (THEOREM, "molang", f"proofs/{file}", name)
            for file, names in [
                ("RoundTrip", "round_trip demand-3"),
                ("Entries", "three-calls"),
                ("Reread", "demand-3"),
                ("Lifts", "written-lifts straight"),
                ("Lift", "lift-reads comes-same comes-out lifted-again stays_on any-engines going-straight behind-for reason-behind"),
                ("Grammar", "text-reads one-reading text-answered same-at-all"),
                ("NoMasks", "no-masks"),
                ("NoFrames", "no_frames"),
                ("Unfolded", "through-again"),
                ("Bounds", "read-tree read-messages"),
                ("Nesting", "never-18 first-deep"),
                ("Limits", "limit-only"),
                ("OpenInLimit", "open-in-limit"),
                ("Hosts", "hostless-same hosts-written"),
                ("Payloads", "one_name one-name-ruled one-node"),
                ("PayloadChain", "one-name-on"),
                ("FreeReach", "one-name-free one-node-free"),
                ("Matching", "nothing-lost"),
                ("Places", "tree-place-first stack-place-first"),
                ("StackOrder", "export-accepts import-accepts export-undone import-undone"),
            ]
            for name in names.split()
        ]
        + [
            (THEOREM, "held", f"proofs/{file}", name)
            for file, names in [
                ("History", "afresh as-asked"),
                ("Running", "ran-after words_are asked-afresh committed-as-asked"),
            ]
            for name in names.split()
        ]
        + [(THEOREM, "sorbrudder", "proofs/Exporting", "from-opening")],
    ),
]

MODIFIER = r"(?:(?:pub|abbrev|unfoldable|data|record|type) )*"
# `use Rattle.CRATE.specs.MODULE.{NAMES}`. In code with `ghost` and `;`.
USE = re.compile(r"(?:ghost )?use (\S.*?);?$")
LONG_USE = re.compile(r"^((?:ghost )?use [^\n{]*\{)\n([^}]*)\}", re.MULTILINE)
HEAD = """# What must be believed

`tools/believed.py` writes this page, and the gate compares it.

The checker holds the code and the proofs to the promises; they need not be read. What has to be read and believed is what the promises
say: the contract of each entry or the statement of each theorem, and the definitions that it leans on. They are followed name by name from
there. A line counts if it is not blank, no comment and no `use`. Each row has all that the rows above it have.
"""
MIDDLE = """
`reading` is the promise of `parse` (demands 1 and 2), `with writing` that of `write` too, `with demand 3` that of `reread`, which makes the
three calls of demand 3. The programs are `treelist`, `everylist`, `liftcount` and `liftlists`. `every theorem` adds the statements that no
promise has: demand 3 and card 12 of the definitions, the grammar, no masks, no frames, the limit, hosts, one name's reach, nothing lost in
the brackets, stack order and its places, open lists.

## By file
"""
TAIL = """
`lines`, `verdicts` and `table` have no row: they test the compiled code, and the text that the program prints is compared. So the locals
of `lines::run` (`start`, `from`, `count`, `others`) are held by no promise but to be in range.

Of `treelist`, `everylist`, `liftcount` and `liftlists` every local is held from the bytes that lie in a buffer after a read to the bytes
that are handed to `write`: what came, what is kept of it, what is printed for it. Not held, and to be believed: that `read` puts the bytes
of the input there, each once and in order, as many as it answers, and 0 or -1 only if the input has ended or the read failed; that a chunk
before the last is not passed by, since the promises speak of 'some bytes' there (`RestRead`, `Reached`, `PlaceReached`: one call,
`read_on`, in one loop of each program; of `liftcount` `TakenFrom` holds it), and so `treelist`'s count of the bytes behind its front; that
`liftlists` hands over each piece once, since a promise says of each piece alone that it comes next in the lifted file (`IsNextPiece`: one
call, in `spill`); that `write` passes on what it is handed; which line is written to standard error.

`rules-by-operator` is not among the theorems: it is a step of the proof of `parse_ruled`, whose promise says which rule a node has.

## What is believed besides

- The kit: the checker and its logic, the compiler, LLVM and the linker.
- The contracts of two functions of the C library, `read` and `write`, which the kit assumes. They say how many bytes a call may answer and
  that it may answer -1; no contract says which bytes are read or written.
- `include/sorbrudder.h` and the declarations of `sys/`, which say how the library is called.
- The host crate and the command, which are tested and not proved: that they hand the library what they were given, and what they do with
  its answers and with files.
- `prebuilt/`: the gate compares it byte for byte with what it proves and builds.
- The call stack, which the caller provides (`docs/notes/host.md`).
"""
TOKEN = re.compile(r"[^\s(){}\[\],;|λ↦]+")


def stop(why):
    sys.exit(f"believed: {why}")


def lines_in(path):
    """The lines of a file, each `use` on one."""
    if not path.exists():
        stop(f"there is no {path.relative_to(ROOT)}")
    return LONG_USE.sub(lambda use: use[1] + " ".join(use[2].split()) + "}", path.read_text()).splitlines()


def parts_of(tree):
    """The paths and names of a `use` tree, nested braces too: (path, name or None, alias or None)."""
    tree = tree.strip()
    alias = None
    found = re.fullmatch(r"(.*\S) as (\S+)", tree)
    if found and found[1].count("{") == found[1].count("}"):
        tree, alias = found[1], found[2]
    brace = tree.find(".{")
    if brace < 0:
        return [(tree, alias)]
    if not tree.endswith("}"):
        stop(f"cannot read the names of `use {tree}`")
    path, inner, depth, items, last = tree[:brace], tree[brace + 2 : -1], 0, [], ""
    for c in inner + ",":
        depth += (c == "{") - (c == "}")
        if c == "," and depth == 0:
            if last.strip():
                items.append(last.strip())
            last = ""
        else:
            last += c
    return [(f"{path}.{name}", a) for item in items for name, a in parts_of(item)]


class File:
    """A file of antt or of code: what it imports, and its definitions."""

    files = {}

    def __init__(self, crate, path):
        self.crate, self.path = crate, path
        self.imports, self.owner, self.text = {}, {}, {}
        name = None
        for line in lines_in(path):
            use = USE.match(line)
            if use:
                self.bring(use[1])
                continue
            if path.suffix != ".antt" or line.lstrip().startswith("--"):
                continue
            # In a file of proofs/ definitions may stand in modules, further in, and a blank line ends one; `unfolding` opens names for a
            # proof.
            if not line.strip():
                name = name if "specs" in path.parts else None
                continue
            if re.match(r" *(module _|unfolding) ", line):
                continue
            head = re.match(rf" *({MODIFIER})(\S+)", line)
            at_margin = not line.startswith(" ")
            defines = head[1] and head[2] != "{"
            if defines and (at_margin or not self.is_type(name)) or at_margin and re.match(r"\S+ :( |$)", line):
                name = head[2]
                self.owner[name] = name
            if name is None:
                if "proofs" in path.parts:
                    continue
                stop(f"{path.relative_to(ROOT)} begins with a line of no definition: {line}")
            self.text.setdefault(name, []).append(line)
            # The constructors of a type belong to it. A record's fields are named behind a dot, and its type stands beside.
            inner = re.match(r" +(?:pub )?(\S+(?: \S+)*?) :( |$)", line)
            if inner and self.is_type(name) and "data " in self.text[name][0]:
                for constructor in inner[1].split():
                    self.owner.setdefault(constructor, name)

    def is_type(self, name):
        """Whether the definition that was read last is a record or a type with constructors."""
        return name in self.text and re.match(r" *(?:pub |abbrev |unfoldable )*(?:data|record) ", self.text[name][0])

    def bring(self, tree):
        for path, alias in parts_of(tree):
            if not path.startswith("Rattle."):
                continue
            found = re.fullmatch(r"Rattle\.(\w+)\.specs\.(declared|contracts)\.(.+)", path)
            found = found or re.fullmatch(r"Rattle\.(\w+)\.(specs|proofs)\.(.+)", path)
            if not found:
                stop(f"{self.path.relative_to(ROOT)}: cannot read `use {path}`")
            crate, part, rest = found[1], found[2], found[3]
            if not (CRATES / crate).is_dir():
                continue
            self.imports[alias or rest.split(".")[-1]] = (crate, part, rest)

    @staticmethod
    def of(crate, part, module):
        key = (crate, part, module)
        if key not in File.files:
            File.files[key] = File(crate, CRATES / crate / part / f"{module.replace('.', '/')}.antt")
        return File.files[key]

    def named(self, words):
        """The definitions (file, name) that these words cite."""
        for word in words:
            if word.startswith("."):
                continue
            # Of `name.field` the name counts; a variable's fields are its type's.
            if word not in self.imports:
                word = word if word.split(".")[0] in self.imports else word.split(".")[0]
            if word in self.owner and self.path.suffix == ".antt":
                yield self, self.owner[word]
            elif word in self.imports:
                yield from self.found(word, *self.imports[word])
            elif "." in word and word.split(".")[0] in self.imports:
                first, rest = word.split(".", 1)
                crate, part, module = self.imports[first]
                yield from self.found(word, crate, part, f"{module}.{rest}")

    def found(self, word, crate, part, path):
        # What the checker makes of code.
        if part in ("declared", "contracts"):
            return
        pieces = path.split(".")
        if (CRATES / crate / part / f"{'/'.join(pieces)}.antt").exists():
            return
        for cut in range(len(pieces) - 1, 0, -1):
            if (CRATES / crate / part / f"{'/'.join(pieces[:cut])}.antt").exists():
                file = File.of(crate, part, ".".join(pieces[:cut]))
                if pieces[cut] not in file.owner:
                    stop(f"{self.path.relative_to(ROOT)}: `{word}` is no definition of {crate}/{part}/{'/'.join(pieces[:cut])}")
                yield file, file.owner[pieces[cut]]
                return
        stop(f"{self.path.relative_to(ROOT)}: `{word}` of {crate}/{part}/{path} is not to be found")


def contract(crate, file, function):
    """The clauses of a function, with the file that they stand in."""
    here = File(crate, CRATES / crate / file)
    lines = lines_in(CRATES / crate / file)
    start = next((i for i, line in enumerate(lines) if re.match(rf'(pub |pub\(crate\) )?(extern "C" )?fn {function}\b', line)), None)
    if start is None:
        stop(f"{crate} has no function {function}")
    end = next(i for i in range(start, len(lines)) if lines[i] == "{")
    first = next((i for i in range(start, end) if re.match(r"\s+(ensures|requires)\b", lines[i])), None)
    if first is None:
        stop(f"{crate}::{function} promises nothing")
    return here, lines[first:end]


def statement(crate, file, theorem):
    """The statement of a theorem: its signature, without its proof."""
    here = File.of(crate, *file.split("/", 1))
    if theorem not in here.text:
        stop(f"{crate}/{file} has no {theorem}")
    lines = []
    for line in here.text[theorem]:
        if lines and len(line) - len(line.lstrip()) <= len(lines[0]) - len(lines[0].lstrip()):
            break
        lines.append(line)
    return here, [lines[0].split(" : ", 1)[1]] + lines[1:]


def closure(file, lines, seen, theorem):
    todo = list(file.named(TOKEN.findall(" ".join(lines))))
    while todo:
        file, name = todo.pop()
        key = (file.crate, file.path, name)
        if key in seen:
            continue
        if "specs" not in file.path.parts and not theorem:
            stop(f"a promise reaches {name} of {file.path.relative_to(ROOT)}")
        seen[key] = len(file.text[name])
        todo += file.named(TOKEN.findall(" ".join(file.text[name])))
    return seen


def reached():
    """For each question its name, the definitions that it reaches with their lines, and the lines of contracts and statements."""
    seen, said, columns = {}, 0, []
    for question, wanted in QUESTIONS:
        for kind, crate, file, name in wanted:
            here, lines = (contract if kind == FUNCTION else statement)(crate, file, name)
            said += len(lines)
            closure(here, lines, seen, kind == THEOREM)
        columns.append((question, dict(seen), said))
    return columns


def page(columns):
    out = [HEAD]
    out.append("| to believe | definitions | their lines | contracts and statements | lines in all |\n|---|---|---|---|---|")
    for question, seen, said in columns:
        lines = sum(seen.values())
        out.append(f"| {question} | {len(seen)} | {lines:,} | {said:,} | {lines + said:,} |")
    out.append(MIDDLE)
    out.append("| file | " + " | ".join(question for question, _, _ in columns) + " |\n|---" + "|---" * len(columns) + "|")
    for path in sorted({path for _, path, _ in columns[-1][1]}):
        counts = [sum(n for (_, p, _), n in seen.items() if p == path) for _, seen, _ in columns]
        out.append(f"| `{path.relative_to(CRATES)}` | " + " | ".join(str(n) if n else "" for n in counts) + " |")
    out.append(TAIL)
    return "\n".join(out)


def readme(columns):
    """README.md with the rows of its table as they are now."""
    text = README.read_text()
    if text.count(README_TABLE) != 1:
        stop("README.md has no table of what must be believed")
    front, behind = text.split(README_TABLE)
    rows = [f"| {question} | {len(seen)} | {sum(seen.values()) + said:,} |\n" for question, seen, said in columns]
    return front + README_TABLE + "".join(rows) + behind[behind.index("\n\n") + 1 :]


def main():
    columns = reached()
    if sys.argv[1:] == ["--names"]:
        for (crate, path, name), lines in sorted(columns[-1][1].items()):
            print(f"{path.relative_to(CRATES)} {name} {lines}")
        return
    text = page(columns)
    if sys.argv[1:] == ["--check"]:
        if not PAGE.exists() or PAGE.read_text() != text:
            stop("docs/BELIEVED.md is not what would be written: run tools/believed.py")
        if README.read_text() != readme(columns):
            stop("README.md has other figures than docs/BELIEVED.md: run tools/believed.py")
        return
    if sys.argv[1:]:
        sys.exit(__doc__)
    PAGE.write_text(text)
    README.write_text(readme(columns))


main()
