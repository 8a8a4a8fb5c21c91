#!/usr/bin/env python3
"""Turns the proofs of one crate from Proof.antt, which closed a tie, to Invariants.antt and Answers.antt. Used once, in the port.

usage: tools/turn_proofs.py NAMES CRATE [FUNCTION ..]

NAMES is the names.json that `rt check --generated DIR --old-names` writes in the crate's folder, and CRATE that folder. A file that is no
`tie.close (tie.spec ..)` stays as it is, and is named. Answers that a search finds are left out.
"""

import json
import os
import re
import sys

IDENT = r"[A-Za-z_][\w'₀]*(?:-[\w'₀]+)*"


PLAIN = re.compile(r"^(?:u8|u16|u32|u64|usize|i8|i16|i32|i64|isize|bool|char)$")


def signatures(root):
    """Of each function of the crates the parameters that are no plain numbers, in order."""
    found = {}
    for crate in os.listdir(root):
        src = os.path.join(root, crate, "src")
        if not os.path.isdir(src):
            continue
        for f in os.listdir(src):
            if not f.endswith(".rt"):
                continue
            text = re.sub(r"//[^\n]*", "", open(os.path.join(src, f), encoding="utf-8").read())
            module = [] if f in ("lib.rt", "main.rt") else [f[:-3]]
            owner = None
            for m in re.finditer(r"(?m)^impl(?:<[^>]*>)?\s+(\w+)[^{]*\{|^\}|\bfn\s+(\w+)(?:<[^>]*>)?\s*\(([^)]*)\)", text):
                if m.group(1):
                    owner = m.group(1)
                elif m.group(2):
                    names = []
                    for part in m.group(3).split(","):
                        part = part.strip()
                        if not part:
                            continue
                        if re.match(r"(?:&\s*(?:mut\s+)?)?(?:mut\s+)?self$", part):
                            names.append("self")
                            continue
                        name, _, kind = part.partition(":")
                        if not PLAIN.match(kind.strip()):
                            names.append(re.sub(r"^mut\s+", "", name.strip()))
                    inside = text[: m.start()].rfind("\n}") < text[: m.start()].rfind("\nimpl") if owner else False
                    key = "::".join([crate, *module] + ([owner] if inside else []) + [m.group(2)])
                    found[key] = names
                else:
                    owner = None
    return found


def clauses(root):
    """Of each function the names of its requires and of its ensures."""
    found = {}
    for crate in os.listdir(root):
        src = os.path.join(root, crate, "src")
        if not os.path.isdir(src):
            continue
        for f in os.listdir(src):
            if not f.endswith(".rt"):
                continue
            text = re.sub(r"//[^\n]*", "", open(os.path.join(src, f), encoding="utf-8").read())
            module = [] if f in ("lib.rt", "main.rt") else [f[:-3]]
            owner = None
            for m in re.finditer(r"(?m)^impl(?:<[^>]*>)?\s+(\w+)[^{]*\{|^\}|\bfn\s+(\w+)(?:<[^>]*>)?\s*\(", text):
                if m.group(1):
                    owner = m.group(1)
                elif m.group(2):
                    rest = text[m.end() :]
                    stop = re.search(r"(?m)^\s*\{\s*$|^\}", rest)
                    head = rest[: stop.start()] if stop else rest[:2000]
                    key = "::".join([crate, *module] + ([owner] if owner else []) + [m.group(2)])
                    found[key] = (re.findall(r"(?m)^\s*requires\*? (\w+) \{", head), re.findall(r"(?m)^\s*ensures\*? (\w+) \{", head))
                else:
                    owner = None
    return found


def part_names(names):
    """Of clauses that were one nested pair the path of each."""
    return [(["1"] * k + (["0"] if k < len(names) - 1 else []), n) for k, n in enumerate(names)]


def alias_parts(block, f, table, own):
    """Parts of a contract of several clauses, under a name that a let binds to it."""
    steps = {}
    for p, _ in zip(f.places, f.new_places):
        said = f.clauses.get(p[3], ([], []))[1]
        if len(said) > 1:
            steps[p[2][1]] = said
    asked = (table["pre"] or {}).get("fields") or own[0]
    callees = {p[2][1]: p[3] for p in f.places if p[3]}
    for m in re.finditer(r"let (%s) =\s+[\w.-]*?\.(%s)\s+in\b" % (IDENT, IDENT), block):
        name, step = m.groups()
        if step not in callees:
            continue
        said = f.clauses.get(callees[step], ([], []))[1]
        for part in ("new", "auto"):
            for k, n in enumerate(f.callees.get(callees[step], [])):
                block = re.sub(r"(?<![\w'.-])%s\.%s%s\.0(?![\w-])" % (re.escape(name), part, r"\.1" * k), f"{name}.{part}.{n}", block)
        if len(said) > 1:
            for path, n in part_names(said):
                block = re.sub(r"(?<![\w'.-])%s\.ensures%s(?![\w-])" % (re.escape(name), "".join(r"\." + x for x in path)), f"{name}.ensures.{n}", block)
    for m in re.finditer(r"let (%s) =\s+[\w.-]*?\.(?:(%s)\.ensures|requires)\s+in\b" % (IDENT, IDENT), block):
        names = steps.get(m.group(2)) if m.group(2) else asked
        if not names or len(names) < 2:
            continue
        for path, n in part_names(names):
            block = re.sub(r"(?<![\w'.-])%s%s(?![\w-])" % (re.escape(m.group(1)), "".join(r"\." + x for x in path)), f"{m.group(1)}.{n}", block)
    return block


def split_tuple(term, count):
    """The parts of a bracketed tuple, the last one nested, or None."""
    term = term.strip()
    if not (term.startswith("(") and term.endswith(")")):
        return None
    depth, parts, start = 0, [], 1
    for k, ch in enumerate(term):
        depth += ch in "({["
        depth -= ch in ")}]"
        if depth == 0 and k < len(term) - 1:
            return None
        if ch == "," and depth == 1:
            parts.append(term[start:k].strip())
            start = k + 1
    last = term[start:-1].strip()
    if last:
        parts.append(last)
    if len(parts) < 2:
        return None
    if len(parts) < count:
        more = split_tuple(parts[-1], count - len(parts) + 1)
        if more is None:
            return None
        parts = parts[:-1] + more
    if len(parts) > count:
        parts = parts[: count - 1] + ["(" + ", ".join(parts[count - 1 :]) + ")"]
    return parts


def named_parts(block, f, new, own):
    """What answers several named clauses is a record of them."""
    old = next((o for o, n in f.table["needs"] if n == new), None)
    names = f.table["asked"].get(old) or f.table["asked"].get(new)
    if not names or len(names) < 2:
        return block
    # The clauses of the answer: after `=`, and behind the last `in` at no depth.
    m = re.search(r"(?m)^%s(?: [^\n=]*)? =(?=\s)" % re.escape(new), block)
    if not m:
        return block
    body = block[m.end() :]
    depth, cut = 0, 0
    for k in re.finditer(r"[({\[]|[)}\]]|\bin\b(?=\s)", body):
        if k.group(0) in "({[":
            depth += 1
        elif k.group(0) in ")}]":
            depth -= 1
        elif depth == 0:
            cut = k.end()
    tail = body[cut:].strip()
    parts = split_tuple(tail, len(names))
    if parts:
        put = "record { " + "; ".join(f"{n} = {x}" for n, x in zip(names, parts)) + " }"
    elif tail.startswith("record"):
        return block
    else:
        paths = part_names(names)
        put = "let parts = " + tail + " in\n    record { " + "; ".join(f"{n} = parts{''.join('.' + x for x in path)}" for path, n in paths) + " }"
    return block[: m.end()] + body[:cut] + "\n    " + put


def split_terms(text):
    """The terms of an application: identifiers, paths and bracketed terms."""
    out, i, n = [], 0, len(text)
    while i < n:
        if text[i].isspace():
            i += 1
            continue
        start = i
        if text[i] in "({[":
            depth = 0
            while i < n:
                if text[i] in "({[":
                    depth += 1
                elif text[i] in ")}]":
                    depth -= 1
                    if depth == 0:
                        i += 1
                        break
                i += 1
            while i < n and not text[i].isspace() and text[i] not in "({[":
                i += 1
        else:
            while i < n and not text[i].isspace() and text[i] not in "({[)}]":
                i += 1
            if i == start:
                raise ValueError("a bracket too many: " + text[:80])
        out.append(text[start:i])
    return out


def unbracket(term):
    term = term.strip()
    while term.startswith("(") and split_terms(term) == [term] and term.endswith(")"):
        depth, inner = 0, True
        for k, ch in enumerate(term):
            depth += ch in "({["
            depth -= ch in ")}]"
            if depth == 0 and k < len(term) - 1:
                inner = False
                break
        if not inner:
            break
        body = term[1:-1].strip()
        depth = 0
        pair = False
        for ch in body:
            depth += ch in "({["
            depth -= ch in ")}]"
            if ch == "," and depth == 0:
                pair = True
        if pair:
            break
        term = body
    return term


# Functions whose goals name a place itself, and no view of it.
FLAT = set(os.environ.get("FLAT", "").split(","))

# Names of parameters that the older proofs wrote with dashes.
HYPHENS = "source-length-again|source-length|limit-again|version-again|used-low|used-high|limit-to|limit-from|comparisons-first"

TRIVIAL = re.compile(r"^(?:search (?:needs|rules)|omega arith|tt)$")


class Function:
    def __init__(self, table, callees=None, contracts=None):
        self.table = table
        self.clauses = contracts or {}
        self.callees = callees or {}
        self.loops = [l[0][1] for l in table["loops"]]
        self.handed = bool(any(table["clauses"]) or table["asked"] or table["pre"])
        self.view = bool(self.loops or self.handed)
        self.places = table["places"]
        self.new_places = table["places_by_name"]
        self.by_old = {}
        for p, new in zip(self.places, self.new_places):
            self.by_old.setdefault(p[0], (p, new))
        self.arms = dict(zip((p[0] for p in self.places), table["arms"]))

    def place(self, old):
        return self.by_old.get(old) or self.by_old.get(old.replace("-", "_")) or next((v for k, v in self.by_old.items() if k.replace("-", "_") == old.replace("-", "_")), None)

    def chain(self, old):
        """The places from this one outward."""
        out, seen = [], set()
        at = self.place(old)
        while at and at[0][0] not in seen:
            seen.add(at[0][0])
            out.append(at)
            at = self.by_old.get(at[0][1]) if at[0][1] else None
        return out

    def fields(self, places):
        """Old step, in underscores, to a list of (path below it, new path); the nearest place first."""
        table = {}
        for p, _ in places:
            arm = self.arms.get(p[0])
            if arm:
                here = {}
                for sub, step, path in arm[2]:
                    here.setdefault(step.replace("-", "_"), []).append((list(path), arm[0] + "." + sub))
                for step, it in here.items():
                    table.setdefault(step, sorted(it, key=lambda x: -len(x[0])))
            old, new = p[2]
            if not old:
                continue
            key = old.replace("-", "_")
            if new == old + "-1" and p[3] is None and not re.search(r"known|told|arg|match|test", old):
                continue
            if new.endswith("-1") and re.search(r"told|match|^in", new):
                new = new[:-2] + "." + new[:-2] + "-own" if key.startswith("match") else new
            if key not in table:
                table[key] = [([x], new + "." + y) for x, y in (p[4] or [])] + [([], new)]
                if p[3] in self.callees:
                    names = self.callees[p[3]]
                    table[key][:0] = [([part] + ["1"] * k + ["0"], f"{new}.{part}.{n}") for part in ("new", "auto") for k, n in enumerate(names)]
                said = self.clauses.get(p[3], ([], []))[1]
                if len(said) > 1:
                    table[key][:0] = [(["ensures", *path], f"{new}.ensures.{n}") for path, n in part_names(said)]
        return table

    def jump(self, old, count):
        """How many steps out lead from the place to the one that was `count` steps out."""
        chain = [p[0] for p, _ in self.chain(old)]
        if count >= len(chain):
            return None
        at, n = 0, 0
        while at < count:
            arm = self.arms.get(chain[at])
            at += arm[1] if arm else 1
            n += 1
        return n if at == count else None


def between(f, place, target, view):
    """How many steps out lead from a variable at a place to the place that a helper wants."""
    chain = [p[0] for p, _ in f.chain(place)]
    wanted = f.place(target)
    if not wanted or wanted[0][0] not in chain:
        return None
    n = f.jump(place, chain.index(wanted[0][0]))
    return None if n is None else n + (1 if view else 0)


def turn_befores(text, f, var, place, helpers, view):
    """Names that a let binds to steps out are written as the variable, and what is handed to a helper has the steps that its type wants."""
    aliases = {var}
    changed = True
    while changed:
        changed = False
        for m in re.finditer(r"let (%s) =\s+(%s)((?:\.before)*)\s+in\s*" % (IDENT, IDENT), text):
            name, base, befores = m.groups()
            if base in aliases and befores and name not in aliases:
                text = text[: m.start()] + text[m.end() :]
                text = re.sub(r"(?<![\w'.-])%s(?![\w'-])(?!\s*=\s)%s" % (re.escape(name), r"(?=\.)" if name == "at" else ""), base + befores, text)
                changed = True
                break
    done, pos = [], 0
    view = view or place.endswith("-unread")
    for m in re.finditer(r"(?<![\w'.-])%s((?:\.before)*)(?![\w'-])(?!\.[a-zA-Z0-9])" % re.escape(var), text):
        # The application that it is an argument of.
        k, depth = m.start() - 1, 0
        while k >= 0:
            ch = text[k]
            if ch in ")]}":
                depth += 1
            elif ch in "([{":
                if depth == 0:
                    break
                depth -= 1
            elif depth == 0 and (ch in ",=∙" or text[max(0, k - 3) : k + 1] in (" in ", "\nin ")):
                break
            k -= 1
        before = text[k + 1 : m.start()]
        heads = [h for h in re.findall(IDENT, before) if h in helpers]
        done.append(text[pos : m.start()])
        n = between(f, place, helpers[heads[-1]], view) if heads else None
        done.append(m.group(0) if n is None else var + ".before" * n)
        pos = m.end()
    return "".join(done) + text[pos:]


def turn_paths(text, fields, settled):
    """Step names after a dot."""

    def one(m):
        parts = m.group(0).split(".")[1:]
        for i, name in enumerate(parts):
            key = name.replace("-", "_")
            key = key if key in fields else key.lower()
            if any(x in ("args", "self", "result", "new", "requires", "initial", "invariant", "ensures") for x in parts[:i]):
                continue
            if key in fields:
                rest = "".join("." + x for x in parts[i + 1 :])
                head = "".join("." + x for x in parts[:i])
                for path, new in fields[key]:
                    want = "".join("." + x for x in path)
                    if rest == want or rest.startswith(want + ".") or not path:
                        return head + "." + new + rest[len(want) :]
        return m.group(0)

    text = re.sub(r"\.(%s)(?![\w-])" % HYPHENS, lambda m: "." + m.group(1).replace("-", "_"), text)
    text = re.sub(r"\.(well-formed|type-inv)(?![\w-])", lambda m: "." + m.group(1).replace("-", "_"), text)
    text = re.sub(r"(?:\.before)+(?=\.(?!before(?![\w-]))[A-Za-z])", "", text)
    return re.sub(r"(?<!args)\.(%s)((?:\.(?:%s|[0-9]+))*)(?![\w'-])" % (IDENT, IDENT), one, text)


def blocks_of(text):
    """Header comment, use lines, blocks."""
    lines = text.split("\n")
    i = 0
    head = []
    while i < len(lines) and lines[i].startswith("--"):
        head.append(lines[i])
        i += 1
    uses = []
    while i < len(lines) and (lines[i].startswith("use ") or (uses and lines[i].startswith(" ") and lines[i].strip())):
        if lines[i].startswith("use "):
            uses.append(lines[i])
        else:
            uses[-1] += "\n" + lines[i]
        i += 1
    rest = "\n".join(lines[i:]).strip("\n")
    parts = re.split(r"\n\n+(?=\S)", rest)
    return head, uses, [p for p in parts if p.strip()]


def drop_use(uses, path, module):
    """Takes Statement and Tie of the function out of the use lines."""
    out = []
    for u in uses:
        if u.strip().endswith("Tie as tie") or re.match(r"use Rattle\.[\w.+]+\.Statement\.\{statement\}$", u.strip()):
            continue
        u = re.sub(r",?\s*%s\.Statement\.\{statement\}" % re.escape(module), "", u)
        u = re.sub(r"\.\{\s*,\s*", ".{", u)
        if re.match(r"use \S+\.\{\s*\}$", u) or u.rstrip().endswith(".Statement.{statement}"):
            continue
        u = u.replace("borrow.Author.{Needs.{needs}, ", "borrow.Author.{Rules.{rules}, ").replace("borrow.Author.Needs.{needs}", "borrow.Author.Rules.{rules}").replace("Needs.{needs}", "Rules.{rules}")
        out.append(u)
    seen = []
    for u in out:
        if u not in seen:
            seen.append(u)
    return seen


def turn(path, crate, module, table, callees, contracts):
    text = open(path, encoding="utf-8").read()
    f = Function(table, callees, contracts)
    own = contracts.get("::".join([crate, *module.split(".")]), ([], []))
    head, uses, blocks = blocks_of(text)
    last = blocks[-1]
    m = re.match(r"pub ([\w'+-]+_spec) :[^\n]*(?:\n +[^\n]*)*?\n\1 =\s*", last)
    if not m:
        return "no closing term"
    body = last[m.end() :].strip()
    m = re.match(r"tie\.close\s*\(tie\.spec\s*([\s\S]*)\)$", body)
    if not m:
        return "is no tie.close"
    args = split_terms(m.group(1))
    loops = table["loops"]
    needs = table["needs"]
    asked = table["asked_at"]
    # Invariants and measures come first; a recursion has a measure alone.
    first = 2 * len(loops)
    if len(args) != first + len(needs):
        return f"{len(args)} terms, and {first} + {len(needs)} wanted"
    loop_names = [l[0] for l in loops]
    invariants = {}
    for k, (old, new) in enumerate(loop_names):
        invariants[args[2 * k]] = ("invariant-" + new, k)
        invariants[args[2 * k + 1]] = ("decreases-" + new, k)
    named = {}
    for b in blocks[:-1]:
        for line in b.split("\n"):
            d = re.match(r"(?:abbrev |unfoldable |pub )*(%s) :" % IDENT, line)
            if d:
                named[d.group(1)] = b
                break
    answers, rename, place_of = [], {}, {}
    for (old, new), a, at in zip(needs, args[first:], asked):
        raw = a
        if re.fullmatch(IDENT, a) and a in named and a not in rename:
            rename[a] = new
            place_of[a] = at[0]
            continue
        t = unbracket(a)
        lam = re.match(r"λ\s+(\S+?)(\s+κs)?((?:\s+[^\s.]+)*)\.\s*([\s\S]*)$", t)
        if lam:
            var, ks, more, inner = lam.groups()
            var += more
            inner = inner.strip()
            if TRIVIAL.match(inner):
                continue
            answers.append((new, at[0], f"pub {new} : goal.{new}\n{new} {var} =\n    {inner}"))
        else:
            if TRIVIAL.match(t):
                continue
            answers.append((new, at[0], f"pub {new} : goal.{new}\n{new} c =\n    {t if re.fullmatch(IDENT, t) else '(' + t + ')'} c"))
    all_fields = f.fields([(p, n) for p, n in zip(f.places, f.new_places)])
    used_places = set()
    whole = []
    helpers = {}
    for b in blocks[:-1]:
        name = next((n for n, bb in named.items() if bb is b), None)
        p = re.search(r"\(%s : tie\.((?:After|Start|In|Else|At|Then)[\w'-]*)" % IDENT, b) or re.search(r": tie\.((?:After|Start|In|Else|At|Then)[\w'-]*)(?: %s)* →" % IDENT, b)
        if name and p and name not in rename:
            helpers[name] = p.group(1)

    def place_type(m):
        it = f.place(m.group(1))
        if not it:
            return m.group(0)
        whole.append(1)
        rest = "".join(f" goal.the-invariant-{x} goal.the-decreases-{x}" for x in f.loops)
        handed = " tie.handed_clauses" if f.handed else ""
        return f"(lts.{it[0][0]} tie.the-claims reads.Pre reads.Post{rest}{handed})"

    invs = sorted(invariants, key=len, reverse=True)
    inv_names = "|".join(re.escape(x) for x in invs)
    need_names = {old: new for old, new in needs}

    def renamed(b):
        names_ = (table["pre"] or {}).get("fields") or []
        if len(names_) > 1:
            for path, n in part_names(names_):
                b = re.sub(r"\.requires%s(?![\w-])" % "".join(r"\." + x for x in path), ".requires." + n, b)
        elif len(own[0]) > 1:
            for path, n in part_names(own[0]):
                b = re.sub(r"\.requires%s(?![\w-])" % "".join(r"\." + x for x in path), ".requires." + n, b)
        for old, new in rename.items():
            if old != new:
                b = re.sub(r"(?<![\w'.\0-])%s(?![\w'\0-])(?!\s*:\s*goal)" % re.escape(old), lambda m: "\0" + new + "\0", b)
        return b.replace("\0", "")

    def types(b):
        if inv_names:
            b = re.sub(r"(tie\.[\w'-]+)((?:\s+(?:%s)(?![\w'-]))+)" % inv_names, r"\1", b)
        for x in rename:
            b = re.sub(r"(?m)^((?:pub )?%s : )tie\.Need-[\w'-]+" % re.escape(x), lambda m: m.group(1) + "goal." + rename[x], b)
        b = re.sub(r"tie\.Need-([\w'-]+)", lambda m: "goal." + need_names.get(m.group(1), need_names.get(next((o for o in need_names if o.replace("-", "_") == m.group(1).replace("-", "_")), ""), m.group(1))), b)
        b = re.sub(r"tie\.((?:After|Start|In|Else|At|Then)[\w'-]*)", place_type, b)
        return b

    inv_blocks, out_blocks = [], []
    for b in blocks[:-1]:
        name = next((n for n, bb in named.items() if bb is b), None)
        if name in invariants:
            new, k = invariants[name]
            inv_blocks.append(turn_invariant(b, name, new, loops[k], table["changed"][k] if k < len(table["changed"]) else []))
            continue
        at = place_of.get(name)
        if at is None:
            p = re.search(r"tie\.((?:After|Start|In|Else|At|Then)[\w'-]*)", b)
            at = p.group(1) if p else None
        fields = dict(all_fields)
        if at and f.place(at):
            fields.update(f.fields(f.chain(at)))
        var = re.search(r"(?m)^%s\s+(%s)" % (re.escape(name or "?"), IDENT), b) if name in rename else re.search(r"\((%s) : tie\." % IDENT, b)
        if at and var:
            b = turn_befores(b, f, var.group(1), at, helpers, (f.view != (module in FLAT)) and name in rename)
        b = turn_paths(types(b), fields, None)
        if name in rename:
            b = re.sub(r"(?m)^(?:pub )?%s(?= :)" % re.escape(name), "pub " + rename[name], b, count=1)
            b = re.sub(r"(?m)^(%s \S+) κs(?= )" % re.escape(name), r"\1", b)
        b = alias_parts(renamed(b), f, table, own)
        out_blocks.append(named_parts(b, f, rename[name], own) if name in rename else b)
    for new, at, b in answers:
        fields = dict(all_fields)
        if f.place(at):
            fields.update(f.fields(f.chain(at)))
        head_, _, inner = b.partition(" =\n")
        inner = turn_befores(inner, f, head_.split("\n")[-1].split()[1], at, helpers, f.view != (module in FLAT))
        out_blocks.append(named_parts(head_ + " =\n" + alias_parts(renamed(turn_paths(types(inner), fields, None)), f, table, own), f, new, own))
    text_out = "\n\n".join(out_blocks)
    text_out = text_out.replace("search needs", "search rules")
    text_out, opens = re.subn(r"(?<![\w'.-])([a-z]\w*(?:\.[\w-]+)*\.in_default[\w-]*-own\.keys\d+)", r"(opened \1)", text_out)
    uses = drop_use(uses, path, module)
    folder = os.path.dirname(path)
    prefix = f"use Rattle.{crate}.proofs.{module}"
    if inv_blocks:
        inv_text = "\n".join(head[:1]) + "\n" + "\n".join(uses) + f"\n{prefix}.Given as goal\n\n" + "\n\n".join(inv_blocks) + "\n"
        with open(os.path.join(folder, "Invariants.antt"), "w", encoding="utf-8") as g:
            g.write(inv_text)
    if text_out.strip():
        lines = list(uses)
        lines.append(f"{prefix}.Goals as goal")
        if whole:
            lines += [f"{prefix}.Lts as lts", f"{prefix}.Tie as tie", f"{prefix}.Reads as reads"]
        if opens:
            lines.append("use borrow.Enum.Refused.{opened}")
        if used_places:
            lines.append(f"{prefix}.Goals.{{{', '.join(sorted(used_places))}}}")
        with open(os.path.join(folder, "Answers.antt"), "w", encoding="utf-8") as g:
            g.write("\n".join(head) + "\n" + "\n".join(lines) + "\n\n" + text_out + "\n")
    os.remove(path)
    return None


def turn_invariant(block, name, new, loop, changed):
    """An invariant by position becomes one of the record l."""
    variables = loop[1]
    lines = block.split("\n")
    comments = [l for l in lines if l.startswith("--")]
    rest = "\n".join(l for l in lines if not l.startswith("--"))
    m = re.match(r"(?:abbrev |unfoldable )?%s :[^\n]*\n(?:unfolding[^\n]*\n)?%s((?:\s+\S+)*?)\s*=\s*" % (re.escape(name), re.escape(name)), rest)
    unfolding = re.search(r"(?m)^unfolding[^\n]*\n", rest)
    if not m:
        return f"-- LEFT\n{block}"
    params = m.group(1).split()
    body = rest[m.end() :]
    slots = [("l.initial." + v if c else "l." + v) for v, c in zip(variables, changed)]
    slots += ["l." + v for v, c in zip(variables, changed) if c]
    note = "" if len(params) == len(slots) else f"-- LEFT: {len(params)} names for {len(slots)}\n"
    table = {p: s for p, s in zip(params, slots) if p != "_"}

    def put(m):
        return table.get(m.group(0), m.group(0))

    body = re.sub(r"(?<![\w'.₀-])[A-Za-z_][\w'₀]*(?:-[\w'₀]+)*(?![\w'₀-])", put, body)
    head = "\n".join(comments) + ("\n" if comments else "")
    return f"{head}{note}abbrev pub {new} : goal.{new}\n{unfolding.group(0) if unfolding else ''}{new} l =\n    {body.strip()}"


def main(argv):
    names, crate_folder, only = argv[0], argv[1].rstrip("/"), argv[2:]
    crate = os.path.basename(os.path.abspath(crate_folder))
    tables = json.load(open(names))
    callees = signatures(os.path.dirname(os.path.abspath(crate_folder)))
    contracts = clauses(os.path.dirname(os.path.abspath(crate_folder)))
    done = 0
    for key, table in tables.items():
        m = re.match(r"Rattle-%s-proofs\.(.*)\.Lts$" % re.escape(crate), key)
        if not m:
            continue
        module = m.group(1)
        if only and module not in only:
            continue
        path = os.path.join(crate_folder, "proofs", *module.split("."), "Proof.antt")
        if not os.path.isfile(path):
            continue
        try:
            said = turn(path, crate, module, table, callees, contracts)
        except Exception as e:
            said = f"{type(e).__name__}: {e}"
        if said:
            print(f"left: {module}: {said}")
        else:
            done += 1
    print(f"{crate}: {done} turned")


if __name__ == "__main__":
    main(sys.argv[1:])
