#!/usr/bin/env python3
"""Brings the repository's own definitions and lemmas to the spelling of today's Rattle.

usage: python3 tools/respell.py        at the top of the repository, once, after /opt/rattle/port/port.py and before any edit by hand

A function, lemma, field or constructor is in snake case: sumOver is sum_over. A dash stays where it joins two names, as in take-filled, and
else it is an underscore: ddr3-cap is ddr3_cap. A lemma that would get the name of a definition gets _lem behind it. Symbols of the analysis and of
the DRAM sheets (C, T, D, H, F, RD, JD, busRD, CL, tRCD, ..) are no words and stay as docs/RULES.md has them. Functions and types of src/, strings and the
names that Rattle makes for a proof (in proofs/F/) stay. Prints each name that moved, and each pair that would fall together.
"""

import os
import re
import sys

TOKEN = re.compile(r"[^\s(){}\[\],;.\"@λ\\`]+")
DECL = re.compile(r"^(\s*)(?:(?:unfoldable|abbrev|pub|opaque)\s+)*(?:(data|record)\s+)?([^\s:(){}|;=]+)(?:\s+[({].*[)}])?\s+:(?:\s|$)")
# symbols: they are spelled as in docs/RULES.md
SYMBOLS = re.compile(r"^(?:[A-Z]|RD|JD|CL|WL|BL|Ncols|Ncap|t[A-Z]+)$")
# what port.py took for a name of std's: a lemma that it gave the name that a definition beside it gets here, a definition, and a lemma that is named after a word of std
FIRST = {
    "crates/stored/proofs/": {"too_short": "too_short_lem"},
    "crates/rounds/specs/": {"field_own": "ownAt"},
    "/proofs/": {"getD-within": "get_or-within"},
}


def files(root, ends):
    for folder, dirs, names in os.walk(os.path.join(root, "crates")):
        dirs[:] = sorted(d for d in dirs if d != "out")
        for name in sorted(names):
            if name.endswith(ends):
                yield os.path.join(folder, name)


def made(path):
    """Is this a file of one function's proof, whose names are mostly made by Rattle?"""
    return path.endswith(("/Proof.antt", "/Answers.antt", "/Invariants.antt"))


def declared(root):
    """The names that .antt files declare, and of each the files."""
    names = {}
    for path in files(root, ".antt"):
        with open(path, encoding="utf-8") as f:
            for line in f:
                if line.lstrip().startswith(("use ", "--", "pub mod ", "mod ", "let ", "module ", "∷", "elim", "|", "returns")):
                    continue
                m = DECL.match(line)
                if m:
                    names.setdefault(m.group(3), set()).add(path)
    return names


def snake(part):
    """One part of a name, without dashes."""
    if SYMBOLS.match(part) or part[:1].isupper():
        return part
    out = re.sub(r"(?<=[a-z0-9])(?=[A-Z])", "_", part)
    if out == part:
        return part
    words = out.split("_")
    return "_".join(w if SYMBOLS.match(w) else w.lower() for w in words)


def respelled(name, words):
    m = re.match(r"^(◌?)(.*?)(◌?)$", name)
    head, body, tail = m.groups()
    if not re.match(r"^[A-Za-z0-9_'-]+$", body):
        return name
    parts = [snake(p) for p in body.split("-")]
    out = parts[0]
    for before, after in zip(parts, parts[1:]):
        out += ("-" if before in words and after in words else "_") + after
    return head + out + tail


def main():
    root = sys.argv[1] if len(sys.argv) > 1 else "."
    for path in files(root, ".antt"):
        for folder, turns in FIRST.items():
            if folder in path:
                with open(path, encoding="utf-8") as f:
                    text = f.read()
                with open(path, "w", encoding="utf-8") as f:
                    f.write(TOKEN.sub(lambda m: turns.get(m.group(0), m.group(0)), text))
    names = declared(root)
    lemma_files = {n for n, ps in names.items() if all("/proofs/" in p for p in ps)}
    own = {n for n, ps in names.items() if not all(made(p) for p in ps)}
    words = {snake(n) for n in own if "-" not in n and len(n) > 2} | {n for n in own if SYMBOLS.match(n)}
    words |= {"take", "drop", "set", "length", "map", "append", "replicate", "get_or", "joined", "those", "eqb", "max", "min"}
    table = {}
    for n in sorted(names):
        if n in own:
            new = respelled(n, words)
        else:
            new = "-".join(snake(p) for p in n.split("-")) if re.match(r"^[A-Za-z0-9_'-]+$", n) else n
        if new != n:
            table[n] = new
    # names that fall together: a lemma beside a definition gets _lem
    taken = {}
    for n in names:
        if n not in table:
            taken.setdefault(n, []).append(n)
    for n in sorted(table, key=lambda n: (n in lemma_files, "-" in n, n)):
        new = table[n]
        if new in taken:
            if n in lemma_files and n in own:
                table[n] = new = new + "_lem"
                print("lemma:", n, new)
            elif "-" in n:
                # a field of a claim beside the definition that it speaks of: the dash keeps them apart
                table[n] = new = "-".join(snake(p) for p in n.split("-"))
                print("dash:", n, new)
            else:
                print("TOGETHER:", n, new, taken[new])
        taken.setdefault(new, []).append(n)
    inner = {}
    for n, new in table.items():
        inner[n] = new
        m = re.match(r"^◌(.+)◌$", n)
        if m:
            inner[m.group(1)] = new.strip("◌")
            inner["_" + m.group(1) + "_"] = new
    seen = set()

    def turn(m):
        t = m.group(0)
        if t in inner:
            return inner[t]
        seen.add(t)
        return t

    def line_of_rt(line):
        # strings stay
        out, rest = "", line
        for piece in re.split(r'(b?"(?:[^"\\]|\\.)*")', line):
            out += piece if piece.startswith(('"', 'b"')) else TOKEN.sub(turn, piece)
        return out

    changed = 0
    for path in files(root, (".antt", ".rt", ".edit")):
        with open(path, encoding="utf-8") as f:
            text = f.read()
        new = "".join(line_of_rt(line) for line in text.splitlines(True))
        if new != text:
            changed += 1
            with open(path, "w", encoding="utf-8") as f:
                f.write(new)
    for n, new in sorted(inner.items()):
        print("name:", n, new)
        if new in seen:
            print("SEEN BEFORE:", n, new)
    print("respell:", changed, "files,", len(table), "names")


main()
