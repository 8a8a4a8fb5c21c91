#!/usr/bin/env python3
"""Counts, and with -v lists, the places in crates/*/src that today's Rattle may say better (docs/DESIGN-PASS.md).

forms.py [-v] [POINT..]     points 1 to 7; the numbers are candidates: the page says of each what became of it."""
import collections
import glob
import os
import re
import sys

ROOT = os.path.join(os.path.dirname(os.path.abspath(__file__)), "..")
FAILS = {
    "Refused", "Fail", "Failed", "GivesUp", "None", "Nothing", "Nowhere", "Bad", "Good", "Skip", "Unplain", "Behind",
    "Differs", "Unwritten", "MessagesAgain", "Mismatched", "Done",
}
NUMBERED = {
    "words/src/refusals.rt": "refusal", "words/src/records.rt": "message", "words/src/fields.rt": "kind",
    "ops/src/op.rt": "operator", "molang/src/lines.rt": "mark",
}


def sources():
    for path in sorted(glob.glob(os.path.join(ROOT, "crates", "*", "src", "**", "*.rt"), recursive=True)):
        yield os.path.relpath(path, os.path.join(ROOT, "crates")), open(path, encoding="utf-8").read()


def bare(text):
    return re.sub(r"//[^\n]*", "", text)


def line_of(text, at):
    return text.count("\n", 0, at) + 1


def block(text, at):
    """The text of the braces that open at `at`."""
    depth = 0
    for i in range(at, len(text)):
        if text[i] == "{":
            depth += 1
        elif text[i] == "}":
            depth -= 1
            if depth == 0:
                return text[at:i + 1]
    return text[at:]


FN = re.compile(r"^ *(?:pub(?:\([a-z]+\))? )?(?:const )?fn (\w+)(?:<[^>]*>)?\(", re.M)


def functions():
    """Each function: file, line, name, parameters, clauses, body."""
    for name, text in sources():
        plain = bare(text)
        for m in FN.finditer(plain):
            depth, i = 1, m.end()
            while depth:
                depth += {"(": 1, ")": -1}.get(plain[i], 0)
                i += 1
            params = plain[m.end():i - 1]
            rest = plain[i:]
            # clauses have braces of their own: the body is the first brace that stands alone at the start of a line or ends one
            body = re.search(r"(?:^|\n) *\{\n", rest)
            inline = re.search(r"[^\n]*\{\n", rest)
            if inline and not re.match(r"\s*(->[^\n{]*)?\n", rest[:inline.end()]) and "ensures" not in rest[:inline.end()] and "requires" not in rest[:inline.end()]:
                start = inline.end() - 2
            elif body:
                start = body.end() - 2
            else:
                continue
            yield name, line_of(plain, m.start() + 1), m.group(1), params, rest[:start], block(rest, start)


def point1():
    for name, text in sources():
        plain = bare(text)
        for m in re.finditer(r"\benum (\w+)[^{]*(\{.*?^\})", plain, re.S | re.M):
            variants = re.findall(r"^    (\w+)", m.group(2), re.M)
            if FAILS & set(variants):
                yield "own Option or Result", name, line_of(plain, m.start()), m.group(1) + ": " + ", ".join(variants)
        for m in re.finditer(r"\bstruct (\w+)[^{;]*(\{.*?^\})", plain, re.S | re.M):
            if re.search(r": bool\b", m.group(2)):
                yield "flag beside a value", name, line_of(plain, m.start()), m.group(1)
        kind = NUMBERED.get(name)
        if kind:
            for m in re.finditer(r"^pub const (\w+): u32 = [\d_]+;", plain, re.M):
                yield "number for a " + kind, name, line_of(plain, m.start()), m.group(1)
        for m in re.finditer(r"^ *//.*\b(?:or|else) 0\b.*$", text, re.M):
            yield "0 for none", name, line_of(text, m.start()), m.group(0).strip()[:90]


def point2():
    groups = collections.defaultdict(list)
    for name, line, fn, params, clauses, body in functions():
        if body.count("\n") < 4:
            continue
        shape = re.sub(r"\b\d[\d_xa-f]*\b", "0", body)
        shape = re.sub(r"\b[A-Z][A-Z0-9_]+\b", "K", shape)
        names = {}
        shape = re.sub(r"\b[A-Za-z_]\w*\b", lambda m: m.group(0) if m.group(0) in {
            "let", "mut", "while", "for", "in", "if", "else", "match", "return", "loop", "true", "false", "as"
        } else names.setdefault(m.group(0), f"v{len(names)}"), shape)
        groups[re.sub(r"\s+", " ", shape)].append((name, line, fn))
    for places in groups.values():
        if len(places) > 1:
            yield "bodies of one shape", places[0][0], places[0][1], " ~ ".join(f"{p[0].split('/')[0]}::{p[2]}" for p in places)


def point3():
    for name, text in sources():
        plain = bare(text)
        for m in re.finditer(r"^ *while ([^{]*)\{", plain, re.M):
            body = block(plain, m.end() - 1)
            counted = set(re.findall(r"\b(\w+) [+-]= ", body)) & set(re.findall(r"\w+", m.group(1)))
            yield ("index counted by hand" if counted else "other while"), name, line_of(plain, m.start()), m.group(1).strip()
        for m in re.finditer(r"^ *(?:'\w+: )?loop \{", plain, re.M):
            yield "loop", name, line_of(plain, m.start()), "loop"


def point4():
    for name, line, fn, params, clauses, body in functions():
        inner = re.sub(r"\s+", " ", body).strip("{} ")
        arms = re.match(r"match \w+ \{(.*)$", inner)
        if arms:
            values = re.findall(r"=> \{? ?([^,}]*)", arms.group(1))
            if values and all(re.fullmatch(r"(?:[A-Za-z_]+::)*\w+(?:\(\w*\))? ?", v) for v in values):
                yield "match from values to values", name, line, fn
        if re.search(r"\b(lesser|greater|anew|same_|equal|copied?)\b", fn) or re.match(r"same_|copy_|lesser|greater|anew", fn):
            yield "equality, order or copy by name", name, line, fn


def point5():
    clauses_by = collections.defaultdict(list)
    params_by = collections.defaultdict(list)
    for name, line, fn, params, clauses, body in functions():
        for c in re.findall(r"requires[^{]*\{(.*?)\}\s*(?=ensures|requires|\{|$)", clauses, re.S):
            clauses_by[(name.split("/")[0], re.sub(r"\s+", " ", c).strip())].append(f"{name}:{line} {fn}")
        names = re.findall(r"(?:mut )?(\w+): ", params)
        for i in range(len(names) - 3):
            params_by[(name.split("/")[0], tuple(names[i:i + 4]))].append(f"{name}:{line} {fn}")
    for (crate, c), places in sorted(clauses_by.items()):
        if len(places) > 2:
            yield "one clause in three contracts or more", crate, len(places), c[:100]
    for (crate, p), places in sorted(params_by.items()):
        if len(places) > 2:
            yield "four parameters together in three functions or more", crate, len(places), ", ".join(p)


def point6():
    for name, line, fn, params, clauses, body in functions():
        if re.search(r"&(?:mut )?\[u\d+\][^,]*, (?:n|len|words|count|length): usize", params):
            yield "a slice with its length beside it", name, line, fn
    for name, text in sources():
        for m in re.finditer(r"\bstruct (\w+)[^{;]*(\{.*?^\})", bare(text), re.S | re.M):
            if len(re.findall(r": \[[^\]]*; ", m.group(2))) > 1:
                yield "arrays side by side", name, line_of(text, m.start()), m.group(1)


def point7():
    for name, line, fn, params, clauses, body in functions():
        for m in re.finditer(r"match (\w+) \{", body):
            arms = re.findall(r"=> \{?\s*([a-z_]+(?:::\w+)*)\(", block(body, m.end() - 1))
            if len(arms) > 2:
                yield "match that runs a function in each arm", name, line, f"{fn}: {', '.join(arms)}"


def main(args):
    listed = "-v" in args
    points = [a for a in args if a.isdigit()] or list("1234567")
    for p in points:
        places = list(globals()["point" + p]())
        kinds = collections.Counter(k for k, *_ in places)
        print(f"point {p}: {sum(kinds.values())}")
        for kind, n in kinds.items():
            print(f"  {n:4} {kind}")
            if listed:
                for k, where, line, what in places:
                    if k == kind:
                        print(f"         {where}:{line} {what}")


if __name__ == "__main__":
    main(sys.argv[1:])
