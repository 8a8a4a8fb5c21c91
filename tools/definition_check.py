#!/usr/bin/env python3
"""Has the checker compute the definition on the oracle's answers and compares.

    tools/definition_check.py [--count N] [--seed S] [--most M] [--jobs J] [--oracle DIR]

Takes N cases (default 3000) of at most M tokens (default 16) from the oracle's program `cases`, writes each as an equation between the
definition's answer and the oracle's, both in words, into scratch crates (tools/scratch.py), and has the checker compute both
sides. The definition is the specs/ of crates/molang as it stands; nothing of this is kept in the tree. Six words of a node are the oracle's;
where it closes, the seventh, is found from the list by a stack of brackets (card 2). A case with two openers alike that close apart is left
out, since the oracle's answer does not say which of them a node is. Where a list goes above the nesting limits 1, 2 and 3 (card 8) is
counted here. One case in five has hosts' own names (card 7), whose list the Rust read with 76 in their stead; the definition reads the list
with their numbers. Behind a tree stand the rules of its nodes (card 5), as the Rust's passes mark them.

The last line is `N cases, D differences`; the exit status is 0 only where D is 0. A difference is printed with its list, the shortest first.
A case whose answer is changed by one must be found to differ, or the run fails: a check that cannot fail says nothing.
"""

import argparse
import os
import re
import subprocess
import sys
import time
from collections import Counter
from concurrent.futures import ThreadPoolExecutor
from dataclasses import dataclass
from pathlib import Path

from scratch import ROOT, SCRATCH as SCRATCHES, crate, refused

SCRATCH = SCRATCHES / "definition-check"
BATCH = 50
OPENERS, CLOSERS = (0, 2, 4), (1, 3, 5)
HOSTS = range(256, 1024)
LIMITS = (1, 2, 3)

HEAD = """use Prim.Native.Nat.{ℕ}
use mathlib.Core.Path.{◌≡◌, refl}
use mathlib.Core.List.{List, [], ◌∷◌}
use lib.IntN.{pos, negsuc}
use Rattle.molang.proofs.Computed.{computed}
use Rattle.molang.proofs.Asked.{asked}
"""

# Where a list goes above three limits, as one more than the token's index or 0; then the reading as the entry makes it of a call's words,
# and the words that it leaves; then the rules of a tree.
ASKED = """use Prim.Native.Nat.{ℕ, suc}
use mathlib.Core.List.{List, [], ◌∷◌, ◌++◌}
use mathlib.Core.Option.{Option, none, some}
use lib.IntN.{ℤ}
use Rattle.molang.specs.Forest.{nil, node}
use Rattle.molang.specs.Read.{Answer, tree, messages}
use Rattle.molang.specs.Words.{tree_words, tokens_of}
use Rattle.molang.specs.Nesting.{too_deep}
use Rattle.molang.specs.Parse.{reading, record_words, in_halves}
use Rattle.molang.specs.Rules.{rules_of}

unfoldable pub answer_words : Answer → List ℕ → List ℕ
answer_words (tree k cs) rules = tree_words (node k cs nil) ++ rules
answer_words (messages ms) rules = record_words ms

unfoldable pub above : ℕ → List ℕ → ℕ
above limit list = elim (too_deep limit (tokens_of list)) [ none ↦ 0 | some i ↦ suc i ]

unfoldable pub asked : ℤ → ℕ → ℕ → ℕ → List ℕ → List ℕ
unfolding above answer_words
asked version source low high list =
    (above 1 list ∷ above 2 list ∷ above 3 list ∷ []) ++ answer_words
    (reading
    (record {
      list = list;
      tree = [];
      messages = [];
      work = [];
      source_length = source;
      version = version;
      used_low = low;
      used_high = high;
      limit = 4096;
    }))
    (rules_of (tokens_of list) (in_halves low high) version)
"""


@dataclass
class Case:
    place: int
    version: int
    source: int
    used: tuple
    tokens: list
    tree: list
    messages: list

    def equation(self):
        """The two sides: behind the nesting a record's first word is at most 17 and a tree's has a kind, so the two never mix; nor do a
        tree's words and the rules behind them, which have none."""
        version = f"(pos {self.version})" if self.version >= 0 else f"(negsuc {-1 - self.version})"
        words = [word for token in self.tokens for word in token_words(token)]
        nodes = zip(self.tree, self.closes())
        wanted = [self.above(limit) for limit in LIMITS]
        wanted += [word for node, ends in nodes for word in token_words(node[:5]) + [6 << 29 | node[5], 7 << 29 | min(ends)]]
        wanted += [node[6] for node in self.tree]
        wanted += [number for message in self.messages for number in message]
        return f"asked {version} {self.source} {self.used[0]} {self.used[1]} {listed(words)}", listed(wanted)

    def closes(self):
        """Where each node may close: a node that opens a section at the closers' ends of the tokens like it, any other at its own end."""
        ends = [token[4] for token in self.tokens]
        opened = []
        # Where no opener is used no section is made.
        for place, token in enumerate(self.tokens if self.used[0] & 0b010101 else []):
            if token[0] in OPENERS:
                opened.append(place)
            elif token[0] in CLOSERS and opened:
                ends[opened.pop()] = token[4]
        alike = lambda node: {end for token, end in zip(self.tokens, ends) if token == node[:5]}
        return [alike(node) if node[0] in OPENERS else {node[4]} for node in self.tree]

    def above(self, limit):
        """One more than the index of the first token with which more brackets are open than the limit; 0 where there is none."""
        opened = 0
        for place, token in enumerate(self.tokens):
            opened = opened + 1 if token[0] in OPENERS else max(0, opened - (token[0] in CLOSERS))
            if opened > limit:
                return place + 1
        return 0

    def clear(self):
        return all(len(ends) == 1 for ends in self.closes())

    def exact(self):
        used = 0
        for token in self.tokens:
            used |= 0 if token[0] in HOSTS else 1 << token[0]
        return (used & (1 << 64) - 1, used >> 64) == self.used

    def shown(self):
        return "\n".join(
            [f"  version {self.version}, source {self.source}, used {self.used[0]} {self.used[1]}"]
            + [f"  token  {' '.join(map(str, token))}" for token in self.tokens]
            + [f"  node   {' '.join(map(str, node))}" for node in self.tree]
            + [f"  record {' '.join(map(str, message))}" for message in self.messages]
        )


def token_words(token):
    op, variant, value, start, end = token
    first = 1 << 29 | op >> 8 << 12 | variant << 8 | op & 0xFF
    return [first, 2 << 29 | start, 3 << 29 | end, 4 << 29 | value >> 16, 5 << 29 | value & 0xFFFF]


def listed(items):
    return "(" + " ∷ ".join([str(item) for item in items] + ["[]"]) + ")"


def parsed(text):
    lines = iter(text.splitlines())

    def field(name):
        words = next(lines).split()
        if words[0] != name:
            sys.exit(f"definition-check: `cases` printed `{' '.join(words)}` for `{name}`")
        return [int(word) for word in words[1:]]

    def rows(count):
        return [[int(word) for word in next(lines).split()] for _ in range(count)]

    cases = []
    for line in lines:
        place = int(line.removeprefix("case "))
        (version,), (source,), used = field("version"), field("source"), tuple(field("used"))
        tokens = rows(*field("tokens"))
        kind, count = next(lines).split()
        answer = rows(int(count))
        trees = kind == "tree"
        cases.append(Case(place, version, source, used, tokens, answer if trees else [], [] if trees else answer))
        field("end")
    return cases


def source_at_hand(options):
    """Whether the oracle finds the Rust source, as its build.rs looks for it; else it takes its cases from the kept answers."""
    folder = os.environ.get("MOLANGX_SRC") or options.oracle / ".." / ".." / "shared" / "docs" / "src"
    return (Path(folder) / "src" / "compile" / "parse" / "mod.rs").is_file()


def ask_oracle(options):
    command = ["cargo", "run", "--quiet", "--release", "--offline", "--bin", "cases", "--"]
    command += ["--count", str(options.count), "--seed", str(options.seed), "--most", str(options.most)]
    done = subprocess.run(command, cwd=options.oracle, text=True, stdout=subprocess.PIPE)
    if done.returncode:
        sys.exit("definition-check: the oracle's program `cases` failed")
    return parsed(done.stdout)


def covered(cases):
    """What the cases show, as lines; it fails where something is not shown that has to be."""
    numbers = Counter(message[0] for case in cases for message in case.messages)
    rules = Counter(node[6] for case in cases for node in case.tree)
    versions = Counter(case.version for case in cases)
    others = {
        "used sets not exact": sum(not case.exact() for case in cases),
        "spans with start above end": sum(any(t[3] > t[4] for t in case.tokens) for case in cases),
        "payload variants": len({t[1] for case in cases for t in case.tokens}),
        "payload variant 12": sum(any(t[1] == 12 for t in case.tokens) for case in cases),
        "operators": len({t[0] for case in cases for t in case.tokens} - set(HOSTS)),
        "hosts": len({t[0] for case in cases for t in case.tokens} & set(HOSTS)),
        "trees with hosts": sum(any(node[0] in HOSTS for node in case.tree) for case in cases),
        "messages to lists with hosts": sum(any(t[0] in HOSTS for t in case.tokens) for case in cases if case.messages),
        "pairs of messages": sum(len(case.messages) == 2 for case in cases),
        **{f"lists above the limit {limit}": sum(bool(case.above(limit)) for case in cases) for limit in LIMITS},
        "sections": sum(any(min(ends) != node[4] for node, ends in zip(case.tree, case.closes())) for case in cases),
    }
    lacking = [f"message {n}" for n in range(1, 18) if not numbers[n]]
    lacking += [f"rule {n}" for n in range(21) if not rules[n]]
    lacking += [f"version {v}" for v in (-32768, -1, 4, 5, 6, 13, 14, 32767) if not versions[v]]
    lacking += [what for what, count in others.items() if not count]
    if lacking:
        sys.exit(f"definition-check: no case shows: {', '.join(lacking)}")
    return [
        f"trees {sum(bool(case.tree) for case in cases)}",
        "messages " + ", ".join(f"{n}: {numbers[n]}" for n in range(1, 18)),
        "rules " + ", ".join(f"{n}: {rules[n]}" for n in range(21)),
        "versions " + ", ".join(f"{v}: {versions[v]}" for v in sorted(versions) if versions[v] * 50 > len(cases)),
    ] + [f"{what} {count}" for what, count in others.items()]


def refused_batches(name, batches):
    """The numbers of the batches of equations that the checker refuses."""
    theorems = []
    for equations in batches:
        left, right = zip(*equations)
        theorems.append(f"{HEAD}\ncases : {listed(left)} ≡ {listed(right)}\nunfolding computed asked\ncases = refl\n")
    return refused(crate(SCRATCH / name, {"Asked": ASKED}, theorems))


def differing(name, cases):
    """The cases among these whose two sides differ."""
    batches = [cases[i : i + BATCH] for i in range(0, len(cases), BATCH)]
    bad = refused_batches(name, [[case.equation() for case in batch] for batch in batches])
    suspects = [case for number in bad for case in batches[number]]
    if not suspects:
        return []
    return [suspects[i] for i in refused_batches(f"{name}-alone", [[case.equation()] for case in suspects])]


def planted(case):
    """The check refuses a case whose first or last wanted number is off by one; the last one is the rule of a tree's last node."""
    left, right = case.equation()
    first = re.sub(r"\d+", lambda found: str(int(found[0]) + 1), right, count=1)
    last = re.sub(r"(\d+) ∷ \[\]", lambda found: f"{int(found[1]) + 1} ∷ []", right)
    if refused_batches("planted", [[(left, right)], [(left, first)], [(left, last)]]) != [1, 2]:
        sys.exit("definition-check: a planted difference was not found")


def main():
    options = argparse.ArgumentParser(description=__doc__, formatter_class=argparse.RawDescriptionHelpFormatter)
    options.add_argument("--count", type=int, default=3000)
    options.add_argument("--seed", type=int, default=1)
    options.add_argument("--most", type=int, default=16)
    options.add_argument("--jobs", type=int, default=2)
    options.add_argument("--oracle", type=Path, default=ROOT / "oracle")
    options = options.parse_args()
    began = time.monotonic()
    asked = ask_oracle(options)
    cases = [case for case in asked if case.clear()]
    print(f"{len(asked) - len(cases)} cases left out: two openers alike close apart")
    print("answered by the Rust" if source_at_hand(options) else "the Rust source is not at hand: kept answers")
    for line in covered(cases):
        print(line)
    planted(next(case for case in cases if case.tree))
    shares = [cases[job :: options.jobs] for job in range(options.jobs)]
    with ThreadPoolExecutor(options.jobs) as pool:
        found = [case for some in pool.map(differing, map(str, range(options.jobs)), shares) for case in some]
    for case in sorted(found, key=lambda case: (len(case.tokens), case.place)):
        print(f"the definition answers otherwise, case {case.place}:\n{case.shown()}")
    print(f"seed {options.seed}, {time.monotonic() - began:.0f} s")
    print(f"{len(cases)} cases, {len(found)} differences")
    sys.exit(bool(found))


main()
