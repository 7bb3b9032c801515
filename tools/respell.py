#!/usr/bin/env python3
"""Respells the repository's own definitions, lemmas and variables in snake case, once.

usage: python3 tools/respell.py     at the top of the repository, right after the kit's script for older repositories

Names of types and modules keep their capitals, names that the library or the checker makes keep theirs, and nothing
in the code itself (functions, strings, exported names) is touched. Names that would fall together are told apart by
APART, and the script stops where that leaves any.
"""

import collections
import os
import re
import sys

TOKEN = re.compile(r"(?<![\w'\-«])[^\W\d][\w']*(?:-[\w']+)*(?![\w'»])")
QUOTED = re.compile(r"\"(?:[^\"\\]|\\.)*\"|b?'(?:[^'\\]|\\.)'|«[^»]*»")
GOAL_HEAD = re.compile(r"^\s*(?:(?:pub|abbrev|mod) )*([\w'\-]+) : (?:goal|given|rules)\.")
IMPORT = re.compile(r"^\s*(?:ghost )?(?:pub )?use ([^{;]*?)\.?\{(.*)\};?\s*$")
FIELD = re.compile(r"^\s+pub ([\w'\-]+(?: [\w'\-]+)*) :")

# two names that would be one after the change, or one that the library has: what the first of them is called instead
APART = {
    "atLast": "last_step",
    "codes-name": "reading_codes_name",
    "first-of": "first_in_both",
    "firstPicks": "first_picked",
    "isAdded": "shows_added",
    "namedThree": "three_named",
    "ranks-apart": "reading_ranks_apart",
    "signsOf": "part_signs",
    "stepAt": "step_for",
    "texts-apart": "reading_texts_apart",
    "texts-run": "reading_texts_run",
    "underSign": "step_under_sign",
}


def wanted(token):
    """Whether a name is in an older spelling: with a hyphen, or small at first with a capital inside."""
    if token[0].isupper():
        return False
    return "-" in token or re.search(r"[a-z0-9][A-Z]", token) is not None


def respelt(token):
    if token in APART:
        return APART[token]
    token = token.replace("-", "_")
    return re.sub(r"(?<=[a-z0-9])([A-Z])", lambda m: "_" + m.group(1).lower(), token)


def files(top):
    for folder, dirs, names in os.walk(os.path.join(top, "crates")):
        dirs[:] = sorted(d for d in dirs if d not in ("out", "target"))
        for name in sorted(names):
            if name.endswith((".antt", ".rt")):
                yield os.path.join(folder, name)


def split(line, path):
    """The line's code and its comment."""
    mark = "//" if path.endswith(".rt") else "--"
    at = 0
    for m in re.finditer(re.escape(mark) + (r"" if mark == "//" else r"(?= |$)"), line):
        inside = any(q.start() < m.start() < q.end() for q in QUOTED.finditer(line))
        if not inside:
            return line[: m.start()], line[m.start() :]
    return line, ""


def foreign(text, own):
    """Names that this file has from the library or from what the checker makes."""
    found = set()
    for line in text.splitlines():
        head = GOAL_HEAD.match(line)
        if head:
            found.add(head.group(1))
        m = IMPORT.match(line)
        if not m or m.group(1).startswith("crate"):
            continue
        crate = re.match(r"Rattle\.(\w+)\.", m.group(1))
        made = re.search(r"\.(Goals|Given|Lts|TheVariants)$", m.group(1))
        if made or not crate or crate.group(1) not in own:
            for part in m.group(2).split(","):
                found.update(part.split(" as ")[0].strip().split("+"))
    return found


def main():
    top = os.getcwd()
    texts = {p: open(p, encoding="utf-8").read() for p in files(top)}
    own = set(os.listdir(os.path.join(top, "crates")))
    alien = {p: foreign(t, own) for p, t in texts.items()}
    fields, present = set(), collections.defaultdict(set)
    for p, t in texts.items():
        for line in t.splitlines():
            code, _ = split(line, p)
            if p.endswith(".antt"):
                m = FIELD.match(code)
                if m:
                    fields.update(m.group(1).split())
            for tok in TOKEN.findall(QUOTED.sub(" ", code)):
                present[tok].add(p)
    changed = collections.defaultdict(set)

    def turn(code, p):
        def one(m):
            token = m.group(0)
            if any(q.start() <= m.start() < q.end() for q in QUOTED.finditer(code)):
                return token
            if not wanted(token) or token in alien[p]:
                return token
            if m.start() and code[m.start() - 1] == "." and token not in fields:
                return token
            changed[token].add(p)
            return respelt(token)

        return TOKEN.sub(one, code)

    out = {}
    for p, t in texts.items():
        lines = []
        for line in t.split("\n"):
            code, comment = split(line, p)
            lines.append(turn(code, p) + comment)
        out[p] = "\n".join(lines)
    by_new = collections.defaultdict(set)
    for token in changed:
        by_new[respelt(token)].add(token)
    bad = False
    for new, olds in sorted(by_new.items()):
        for old in olds:
            shared = changed[old] & present.get(new, set())
            if shared:
                bad = True
                print(f"{old} -> {new}, which stands already in: " + ", ".join(os.path.relpath(s, top) for s in sorted(shared)))
        olds = sorted(olds)
        for i, a in enumerate(olds):
            for b in olds[i + 1 :]:
                if changed[a] & changed[b]:
                    bad = True
                    print(f"{a} and {b} -> {new}, both in: " + ", ".join(os.path.relpath(s, top) for s in sorted(changed[a] & changed[b])))
    if bad:
        print("nothing was written")
        return 1
    for p, t in out.items():
        if t != texts[p]:
            with open(p, "w", encoding="utf-8") as f:
                f.write(t)
    print(f"respelt {len(changed)} names")
    if "--names" in sys.argv:
        for token in sorted(changed):
            print(token, respelt(token))
    return 0


raise SystemExit(main())
