#!/usr/bin/env python3
"""Lists pairs of places in crates/*/src/*.rt that have several lines of the same shape in a row: a place to look at, and no verdict.

usage: python3 tools/twins.py [COMMIT] [LINES]     COMMIT is the work tree if not given or given as '-'; LINES is 6

The shape of a line is the line with each word, number and text in quotes replaced by a sign, another one for words with a capital. Comments, `ghost use`,
`use` and clauses do not count, nor do lines that are only brackets.
"""

import re
import subprocess
import sys


def sources(commit):
    listed = ["git", "ls-files"] if commit == "-" else ["git", "ls-tree", "-r", "--name-only", commit]
    names = subprocess.run(listed, capture_output=True, text=True, check=True).stdout.split("\n")
    for name in sorted(n for n in names if re.fullmatch(r"crates/[^/]+/src/.*\.rt", n)):
        if commit == "-":
            yield name, open(name).read()
        else:
            yield name, subprocess.run(["git", "show", f"{commit}:{name}"], capture_output=True, text=True, check=True).stdout


def shape(line):
    line = re.sub(r'b?"(\\.|[^"\\])*"|b?\'(\\.|[^\'\\])\'', "$", line.strip())
    line = re.sub(r"\b[a-z_][A-Za-z0-9_]*\b|\b[0-9][0-9_]*\b", "$", line)
    return re.sub(r"\b[A-Z][A-Za-z0-9]*\b", "T", line)


def lines(text):
    for number, line in enumerate(text.split("\n"), 1):
        bare = line.strip()
        if bare and not re.match(r"//|ghost |use |requires|ensures|#|mod |pub use ", bare) and re.search(r"[A-Za-z0-9]", bare):
            yield number, shape(line)


def main():
    commit = sys.argv[1] if len(sys.argv) > 1 else "-"
    least = int(sys.argv[2]) if len(sys.argv) > 2 else 6
    files = [(name, list(lines(text))) for name, text in sources(commit)]
    seen, found = {}, []
    for f, (name, rows) in enumerate(files):
        for i in range(len(rows) - least + 1):
            key = tuple(s for _, s in rows[i : i + least])
            for g, j in seen.get(key, []):
                if g != f or j + least <= i:
                    found.append((g, j, f, i))
            seen.setdefault(key, []).append((f, i))
    starts = set(found)
    for g, j, f, i in found:
        if (g, j - 1, f, i - 1) in starts:
            continue
        n = least
        while (g, j + n - least + 1, f, i + n - least + 1) in starts:
            n += 1
        a, b = files[g], files[f]
        print(f"{a[0]}:{a[1][j][0]}-{a[1][j + n - 1][0]} ~ {b[0]}:{b[1][i][0]}-{b[1][i + n - 1][0]}")


main()
