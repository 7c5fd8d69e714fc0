#!/usr/bin/env python3
"""Brings the repository's own definitions and lemmas to the toolchain's spelling: snake case.

usage: python3 tools/respell.py [--list]     at the top of the repository, once, right after the toolchain's own script

It renames what the files of specs/ and proofs/ declare, in these files, in the clauses of src/, in the must-fail edits and in the pages.
Functions of src/, exported names, strings, inputs and outputs keep their names. A lemma whose name would fall together with another gets `_lem`.
"""
import os
import re
import sys

NAME = r"[^\s()\[\]{},;.λ\"`:=→×]+"
HEAD = re.compile(r"^(\s*)((?:unfoldable |abbrev |pub |private )*)(" + NAME + r")((?: " + NAME + r")*) : (.*)$")
KIND = re.compile(r"^(\s*)(?:pub )?(data|record|module) (" + NAME + r")")
TOKEN = re.compile(r"[^\s()\[\]{},;.λ\"`«»]+")
GOAL = re.compile(r"\b(?:tie|goal|goals)\.")


def texts(root, ends, tops=("crates",)):
    for top in tops:
        for folder, dirs, files in os.walk(os.path.join(root, top)):
            dirs[:] = sorted(d for d in dirs if d not in ("out", ".git", "target"))
            for f in sorted(files):
                if f.endswith(ends):
                    yield os.path.join(folder, f)


def read(p):
    with open(p, encoding="utf-8") as f:
        return f.read()


def declared(root):
    """name -> list of (path, the words before it, its type)"""
    found = {}
    for p in texts(root, (".antt",)):
        lines = read(p).split("\n")
        for i, l in enumerate(lines):
            if l.lstrip().startswith("--"):
                continue
            m = HEAD.match(l)
            if m:
                for n in [m.group(3)] + m.group(4).split():
                    found.setdefault(n, []).append((p, m.group(2), m.group(5)))
            m = KIND.match(l)
            if m:
                found.setdefault(m.group(3), []).append((p, m.group(2), ""))
    return found


def snake(part):
    if part[:1].isupper() or not re.search(r"[a-z0-9][A-Z]", part):
        return part
    return re.sub(r"([a-z0-9])([A-Z]+)", lambda m: m.group(1) + "_" + m.group(2).lower(), part)


def respelled(name):
    return "_".join(snake(p) for p in name.split("-"))


def tokens(p):
    found = set()
    for l in read(p).split("\n"):
        if not l.lstrip().startswith(("--", "//")):
            found |= set(TOKEN.findall(l))
    return found


def mapping(root):
    found = declared(root)
    to = {}
    for n, places in found.items():
        if GOAL.search(places[0][2]) or n.startswith(("loop-", "decreases-", "invariant-", "returns-")) or n[:1].isupper() and "-" not in n:
            continue
        if "-" in n or snake(n) != n:
            to[n] = respelled(n)
    clash = True
    while clash:
        clash = False
        for p in texts(root, (".antt", ".rt")):
            by = {}
            for n in tokens(p):
                by.setdefault(to.get(n, n), []).append(n)
            for t, ns in by.items():
                if len(ns) < 2:
                    continue
                lemmas = [n for n in ns if n in found and ("-" in n or n == snake(n)) and all("/proofs/" in q for q, _, _ in found[n])]
                for n in lemmas[: len(ns) - 1]:
                    to[n] = to.get(n, n) + "_lem"
                    clash = True
    return found, to


def turn(text, to):
    return TOKEN.sub(lambda m: to.get(m.group(0), m.group(0)), text)


def turn_page(text, to):
    """In a page a name stands between backticks, or has capitals inside."""
    camel = {n: t for n, t in to.items() if "-" not in n and snake(n) != n}
    parts = re.split(r"(`[^`\n]*`)", text)
    return "".join(turn(x, to) if x.startswith("`") else re.sub(r"[A-Za-z0-9_-]+", lambda m: camel.get(m.group(0), m.group(0)), x) for x in parts)


def turn_source(text, to):
    """Of a source the clauses and imports; a comment is read as a page."""
    camel = {n: t for n, t in to.items() if "-" not in n and snake(n) != n}
    out = []
    for l in text.split("\n"):
        s = l.lstrip()
        if s.startswith("//"):
            out.append(turn_page(l, to))
        elif s.startswith(("ghost use", "requires", "ensures", "ghost ")):
            out.append(turn(l, to))
        else:
            out.append(TOKEN.sub(lambda m: camel.get(m.group(0), m.group(0)), l))
    return "\n".join(out)


def turn_proof(text, to):
    return "\n".join(turn_page(l, to) if l.lstrip().startswith("--") else turn(l, to) for l in text.split("\n"))


def turn_edit(text, to):
    out = []
    source = False
    for l in text.split("\n"):
        if l.startswith("file: "):
            source = l.endswith(".rt")
            out.append(l)
        elif l.startswith(("old: ", "new: ")):
            out.append(l[:5] + (turn_source(l[5:], to) if source else turn(l[5:], to)))
        else:
            out.append(turn_page(l, to))
    return "\n".join(out)


def write(p, text):
    if text != read(p):
        with open(p, "w", encoding="utf-8") as f:
            f.write(text)


if __name__ == "__main__":
    found, to = mapping(".")
    if "--list" in sys.argv:
        for n in sorted(to):
            print(n, to[n])
        raise SystemExit
    for p in texts(".", (".antt",)):
        write(p, turn_proof(read(p), to))
    for p in texts(".", (".rt",)):
        write(p, turn_source(read(p), to))
    for p in texts(".", (".edit",)):
        write(p, turn_edit(read(p), to))
    for p in ["README.md", *texts(".", (".md",), ("docs",))]:
        write(p, turn_page(read(p), to))
