#!/usr/bin/env python3
"""Respells the names that this repository declares in .antt files: words in snake case, types in camel case.

usage: python3 tools/snake_names.py [ROOT]

A name declared in specs/ or proofs/ with a dash or a prime mark loses it: `corner-list` becomes `corner_list`,
`Even-lines` (a capital first) becomes `EvenLines`, and a prime mark becomes an apostrophe. Names of goals, which the
check makes, keep their spelling, as do names that a file imports from a library, strings, comments and the code.
It prints each name that would fall together with another one, and leaves that name alone.
"""

import os
import re
import sys

# what may stand in a name; a dot ends one
TOKEN = re.compile(r"[^\s(){}\[\].,;:\"«»λ→×∷]+")
DECLARED = re.compile(r"^\s*(?:(?:pub|abbrev|unfoldable|data|record|infixl?|infixr)\s+)*([^\s(){}\[\].,;:\"«»]+(?:\s+[^\s(){}\[\].,;:\"«»]+)*)\s+:(?:\s|$)")
HEADED = re.compile(r"^\s*(?:pub\s+)?(?:record|data)\s+([^\s(){}\[\].,;:\"«»]+)")
# names that would fall together with one of a library or of the code
GIVEN = {"bit-xor": "bit-bit_xor"}
GOAL = re.compile(r":\s*(?:goal|given|Goals|Given)\.")
IMPORT = re.compile(r"^\s*(?:pub )?(?:ghost )?use (\S+?)\.?(?:\{(.*)\})?(?: as \S+)?;?\s*$")


def spelled(name):
    name = name.replace("′", "'")
    if "-" not in name:
        return name
    parts = [p for p in name.split("-") if p]
    if name[0].isupper():
        return "".join(p[:1].upper() + p[1:] for p in parts)
    return "_".join(parts)


def files(root):
    for folder, dirs, names in os.walk(os.path.join(root, "crates")):
        dirs[:] = sorted(d for d in dirs if d not in ("out", "target", ".git"))
        for n in sorted(names):
            if n.endswith((".antt", ".rt")):
                yield os.path.join(folder, n)


def mark(path):
    return "--" if path.endswith(".antt") else "//"


def split_comment(line, path):
    """The line up to its comment, and the comment. No string of a clause holds the mark."""
    at = re.search(r"(^|\s)" + re.escape(mark(path)) + r"(\s|$)", line)
    return (line[: at.start()], line[at.start() :]) if at else (line, "")


def declared(text):
    found = set()
    for line in text.splitlines():
        line = split_comment(line, "x.antt")[0]
        m = HEADED.match(line)
        if m and "-" in m.group(1):
            found.add(m.group(1))
        m = DECLARED.match(line)
        if not m or GOAL.search(line) or line.lstrip().startswith(("use ", "elim", "let ", "|", "λ")):
            continue
        for name in m.group(1).split():
            if ("-" in name.strip("-") or "′" in name) and re.match(r"^[A-Za-z][\w'′-]*$", name):
                found.add(name)
    return found


def foreign(text, own):
    """Names that the file imports from a library."""
    found = set()
    for line in text.splitlines():
        m = IMPORT.match(line)
        if m and m.group(2) and not any(m.group(1).startswith(f"Rattle.{c}.") for c in own):
            for part in m.group(2).split(","):
                found.add(part.strip().split(" as ")[-1].strip())
    return found


def turn(line, path, names):
    code, comment = split_comment(line, path)
    pieces = re.split(r'("(?:[^"\\]|\\.)*")', code)
    for i in range(0, len(pieces), 2):
        pieces[i] = TOKEN.sub(lambda m: names.get(m.group(0), m.group(0)), pieces[i])
    return "".join(pieces) + comment


def main(argv):
    root = argv[0] if argv else "."
    own = sorted(os.listdir(os.path.join(root, "crates")))
    texts = {}
    for p in files(root):
        with open(p, encoding="utf-8") as f:
            texts[p] = f.read()
    names = {}
    for p, t in texts.items():
        if p.endswith(".antt"):
            for n in declared(t):
                names[n] = GIVEN.get(n) or spelled(n)
    used = {}
    for p, t in texts.items():
        for line in t.splitlines():
            for m in TOKEN.finditer(split_comment(line, p)[0]):
                used.setdefault(m.group(0), set()).add(p)
    by_new = {}
    for old, new in sorted(names.items()):
        by_new.setdefault(new, []).append(old)
    left = set()
    for new, olds in by_new.items():
        if len(olds) > 1:
            print(f"left: {', '.join(olds)} would all be {new}")
            left.update(olds)
        for old in olds:
            both = used.get(new, set()) & used.get(old, set())
            if both and new not in names:
                print(f"look: {old} becomes {new}, a name that stands already in {', '.join(sorted(os.path.relpath(b, root) for b in both))}")
    for old in left:
        del names[old]
    changed = 0
    for p, t in texts.items():
        mine = {o: n for o, n in names.items() if o not in foreign(t, own)}
        new = "".join(turn(l, p, mine) for l in t.splitlines(keepends=True))
        if new != t:
            changed += 1
            with open(p, "w", encoding="utf-8") as f:
                f.write(new)
    print(f"{len(names)} names respelled in {changed} files")
    return 0


if __name__ == "__main__":
    raise SystemExit(main(sys.argv[1:]))
