#!/usr/bin/env python3
"""Brings this repository's own antt names to snake case: `set-by` becomes `set_by`. Run once, at the top of the repository, after the kit's port.py.

usage: tools/snake_names.py [--dry]

It goes by text. A name is the repository's own if it has a dash and none of the kit's modules is asked for it by a `use` line. Names that Rattle makes
(behind `tie.`, `goal.`, `lts.` and `reads.`, and `returns-2`, `invariant-..`, `decreases-..`) stay, and so do strings and comments, but for names in backquotes.
It turns specs/, proofs/, the clauses in src/, the edits and the names in backquotes in the pages, and lists names that fall together in a file.
"""

import os
import re
import subprocess
import sys

PART = r"[A-Za-z0-9_'₀₁₂₃₄₅₆₇₈₉ℕ′]+"
NAME = re.compile(r"(?<![\w'₀-₉◌-])[A-Za-z]" + r"[A-Za-z0-9_'₀₁₂₃₄₅₆₇₈₉ℕ′]*(?:-[A-Za-z0-9_'₀₁₂₃₄₅₆₇₈₉ℕ′]+)+(?![\w'₀-₉-])")
USE = re.compile(r"^\s*(?:ghost )?(?:pub )?use ([\w.·'+◌-]+?)(?:\.\{([^}]*)\})?(?: as ([\w'-]+))?;?\s*$")
MADE = re.compile(r"^(returns|invariant|decreases|loop)-")
MADE_BEFORE = re.compile(r"(?:\b(?:tie|goal|lts|Lts|Tie|Goals)|[\w-]*(?:reads|lts))\.$")


def files():
    out = subprocess.run(["git", "ls-files"], capture_output=True, text=True, check=True).stdout.split("\n")
    return [f for f in out if f]


def own_crates():
    return {l.split(":")[0].split()[0] for l in open("crates.txt", encoding="utf-8") if l.strip() and not l.startswith("#")}


def kit_names(paths, crates):
    """Names with a dash that some file asks one of the kit's modules for."""
    kit = set()
    for p in paths:
        for line in open(p, encoding="utf-8"):
            m = USE.match(line)
            if not m:
                continue
            root = m[1].split(".")
            if root[0] == "Rattle" and len(root) > 1 and root[1] in crates:
                continue
            for n in (m[2] or "").split(","):
                n = n.strip().split(" as ")[0].strip()
                if "-" in n:
                    kit.add(n)
    return kit


def snake(word, kit, before):
    if word in kit or MADE.match(word) or MADE_BEFORE.search(before):
        return word
    return word.replace("-", "_")


def turn_line(line, kit, comment):
    """The line with its names turned; behind a comment's mark, only those in backquotes."""
    i = line.find(comment) if comment else -1
    while i > 0 and comment == "//" and line[:i].count('"') % 2:
        i = line.find(comment, i + 2)
    if comment == "--":
        m = re.search(r"(?:^|\s)--(?:\s|$)", line)
        i = m.start() if m else -1
    code, rest = (line, "") if i < 0 else (line[:i], line[i:])
    parts = code.split('"')
    for k in range(0, len(parts), 2):
        t = parts[k]
        parts[k] = NAME.sub(lambda m: snake(m[0], kit, t[: m.start()]), t)
    return '"'.join(parts) + quoted(rest, kit)


def quoted(text, kit):
    return re.sub(r"`[^`\n]*`", lambda q: NAME.sub(lambda m: snake(m[0], kit, q[0][: m.start()]), q[0]), text)


def main():
    dry = "--dry" in sys.argv
    crates = own_crates()
    every = files()
    code = [f for f in every if f.startswith("crates/") and f.endswith((".antt", ".rt"))]
    kit = kit_names(code, crates)
    seen = {}
    for p in every:
        if p in code:
            comment = "--" if p.endswith(".antt") else "//"
        elif p.endswith(".edit"):
            comment = "#"
        else:
            continue
        t = open(p, encoding="utf-8").read()
        lines = t.split("\n")
        if p.endswith(".edit"):
            new = [l if l.startswith("#") else turn_line(l, kit, "") for l in lines]
        else:
            new = [turn_line(l, kit, comment) for l in lines]
        if p.endswith(".antt"):
            words = {}
            for l in lines:
                c = re.split(r"(?:^|\s)--(?:\s|$)", l)[0]
                for m in re.finditer(r"(?<![\w'◌.-])[A-Za-z][\w'₀-₉-]*", c):
                    s = snake(m[0], kit, "") if "-" in m[0] else m[0]
                    words.setdefault(s, set()).add(m[0])
            for s, ws in words.items():
                if len(ws) > 1:
                    seen.setdefault((s, tuple(sorted(ws))), []).append(p)
        if not dry and new != lines:
            open(p, "w", encoding="utf-8").write("\n".join(new))
    for (s, ws), ps in sorted(seen.items()):
        print(f"falls together: {', '.join(ws)} in {', '.join(ps[:4])}{' ..' if len(ps) > 4 else ''}")


main()
