#!/usr/bin/env python3
"""Brings the must-fail edits to today's spelling of contracts and definitions, after port.py and tools/respell.py. Used once, in the port.

usage: tools/turn_edits.py [EDIT ..]        at the top of a checkout; without names, every edit of crates/*/must-fail and edits/

An edit is read as `rt must-fail` reads it. Both texts of a pair are spelled as clauses and definitions are now: `k .op` is `k.op`,
`⌜ P ⌝` is P, `λ r. P` speaks of `result`, `now (x .entry)` is `x.now`. An `old:` text that still does not stand exactly once is named, with
the line of its file that is nearest to it, to be mended by hand. Code lines that stand as they are stay as they are.
"""

import difflib
import glob
import re
import sys

WORD = r"[A-Za-z_][\w']*"
CLAUSE = re.compile(r"^\s*(requires|ensures|invariant|decreases|ghost)\b|⌜")
WORDS = {"get_d": "get_or"}


def fields(text):
    """`k .op` is `k.op`, without the brackets that held only it; `(f x .op)` is `(f x).op`."""
    text = re.sub(r"\((%s(?: (?:%s|\d+))+) \.(%s)\)" % (WORD, WORD, WORD), r"(\1).\2", text)
    text = re.sub(r"(%s) \.(?=[a-z0-9])" % WORD, r"\1.", text)
    while re.search(r"(\.%s) \.(?=[a-z0-9])" % WORD, text):
        text = re.sub(r"(\.%s) \.(?=[a-z0-9])" % WORD, r"\1.", text)
    return re.sub(r"(?<![\w'])\((%s(?:\.(?:%s|\d+))+)\)" % (WORD, WORD), r"\1", text)


def clause(text):
    """A clause's frame is gone: `λ r. ⌜ P ⌝` is P with `result`."""
    if "⌜" not in text:
        return text
    text = re.sub(r"λ r\. ", "", text)
    text = text.replace("⌜ ", "").replace(" ⌝", "")
    return re.sub(r"(?<![\w.'])r(?![\w'])", "result", text)


def turned(text, path, now):
    if path.endswith(".rt") and not CLAUSE.search(text):
        return text
    text = re.sub(r"\bnow \((%s) \.entry\)" % WORD, r"\1.now", clause(text))
    text = fields(re.sub(r"\(now (%s)\)" % WORD, r"\1.now", text))
    text = re.sub(r"(?<![\w'])(%s)(?![\w'])" % "|".join(WORDS), lambda m: WORDS[m.group(1)], text)
    for dashed in set(re.findall(r"(?<![\w'-])[a-z]\w*(?:-[a-z]\w*)+", text)):
        plain = dashed.replace("-", "_")
        if dashed not in now and plain in now:
            text = text.replace(dashed, plain)
    return text


def nearest(text, now):
    lines = now.split("\n")
    best = max(range(len(lines)), key=lambda i: difflib.SequenceMatcher(None, text, lines[i], autojunk=False).ratio())
    return best + 1, lines[best]


def main():
    paths = sys.argv[1:] or sorted(glob.glob("crates/*/must-fail/*.edit") + glob.glob("edits/*/*.edit"))
    changed = left = 0
    for path in paths:
        crate = path.split("/")[1]
        with open(path, encoding="utf-8") as f:
            lines = f.read().split("\n")
        file, now, out, old = "", "", [], None
        for line in lines:
            if line.startswith("file: "):
                file = line[6:]
                with open(f"crates/{crate}/{file}", encoding="utf-8") as f:
                    now = f.read()
            elif line.startswith("old: "):
                was = line[5:]
                old = was if now.count(was) == 1 else turned(was, file, now)
                if now.count(old) != 1:
                    left += 1
                    print(f"{path}: stands {now.count(old)} times: {old}\n  line %d: %s" % nearest(old, now))
                line = "old: " + old
            elif line.startswith("new:") and old is not None:
                new = turned(line[5:], file, now)
                now = now.replace(old, new, 1)
                line = "new: " + new if new else line
            out.append(line)
        if out != lines:
            changed += 1
            with open(path, "w", encoding="utf-8") as f:
                f.write("\n".join(out))
    print(f"turn_edits: {changed} edits changed, {left} texts to mend by hand")
    return 0


if __name__ == "__main__":
    sys.exit(main())
