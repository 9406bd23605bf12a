#!/usr/bin/env python3
"""Spells the repository's own definitions and lemmas as the library spells its: words in snake case, types in camel case.

usage: python3 tools/respell.py        at the top of the repository, once, right after the toolchain's own respelling script

A name is the repository's own where an .antt file under crates/ declares it. Names that the prover makes (goals, steps)
and names that a file imports from elsewhere stay. Names that would fall together are listed, and then nothing is written.
"""

import collections
import os
import re
import sys

NAME = r"[A-Za-z][A-Za-z0-9_'+\-]*"
DECLARED = re.compile(r"(?m)^[ \t]*((?:pub |abbrev |unfoldable |data |record |ruleset )*)(" + NAME + r")[ \t]*(?::|\{|\(|\n[ \t]+:|=|where)")
FIELD = re.compile(r"[{;][ \t]*(" + NAME + r") : ")
GOAL = re.compile(r"(?m)^[ \t]*(?:pub |abbrev )*(" + NAME + r") : (?:goal|given)\.")
IMPORT = re.compile(r"(?m)^[ \t]*(?:pub )?(?:ghost )?use ([^\s{]+)\.\{([^}]*)\}")
TOKEN = re.compile(r"[^\s(){}.;,«»\"`]+")
# a lemma about the fact All, spelled as the library spells such a lemma
LEMMAS_OF_TYPES = {"All-more"}


def files(ending):
    found = []
    for folder, dirs, names in os.walk("crates"):
        dirs[:] = sorted(d for d in dirs if d != "out")
        found += [os.path.join(folder, n) for n in sorted(names) if n.endswith(ending)]
    return found


def bare(text, mark):
    """The text with each comment blanked, so that places stay."""
    return re.sub(re.escape(mark) + r"[^\n]*", lambda m: " " * len(m.group(0)), text)


def respelled(name):
    if name in LEMMAS_OF_TYPES:
        return name
    if name[0].isupper():
        return "".join(w[:1].upper() + w[1:] for w in name.split("-"))
    return re.sub(r"-(?=[A-Za-z0-9])", "_", name)


def own_names():
    own, goals = collections.defaultdict(set), set()
    for path in files(".antt"):
        text = bare(open(path, encoding="utf-8").read(), "--")
        here = {m.group(2) for m in DECLARED.finditer(text)} | {m.group(1) for m in FIELD.finditer(text)}
        goals |= {m.group(1) for m in GOAL.finditer(text)}
        for name in here:
            own[name].add(path)
    return {n: p for n, p in own.items() if n not in goals}, goals


def borrowed(text):
    """Names that this file imports from outside the repository."""
    crates = set(os.listdir("crates"))
    names = set()
    for m in IMPORT.finditer(text):
        parts = m.group(1).split(".")
        if parts[0] == "Rattle" and parts[1] in crates:
            continue
        for part in m.group(2).split(","):
            part = part.strip()
            names.add(part.split(" as ")[-1].strip())
    return names


def turned(text, names, mark):
    stay = borrowed(text)
    clean = bare(text, mark)
    if mark == "//":
        clean = re.sub(r'"(?:[^"\\\n]|\\.)*"', lambda m: " " * len(m.group(0)), clean)
    out, last = [], 0
    for m in TOKEN.finditer(clean):
        word = m.group(0).rstrip(":")
        if word in names and word not in stay:
            out += [text[last : m.start()], names[word]]
            last = m.start() + len(word)
    return "".join(out) + text[last:]


def main():
    own, goals = own_names()
    names = {n: respelled(n) for n in own if "-" in n and respelled(n) != n}
    bad = []
    spelled = collections.defaultdict(set)
    for n in own:
        spelled[names.get(n, n)].add(n)
    for new, olds in spelled.items():
        if len(olds) > 1:
            bad.append(f"{' and '.join(sorted(olds))} would both be {new}: {sorted(set().union(*(own[o] for o in olds)))}")
    for path in files(".antt"):
        taken = borrowed(open(path, encoding="utf-8").read())
        for n in own:
            if path in own[n] and names.get(n) in taken:
                bad.append(f"{path}: {n} would be {names[n]}, which is imported there")
    for line in bad:
        print("together:", line)
    if bad and "--write-all" not in sys.argv:
        return 1
    changed = 0
    for ending, mark in ((".antt", "--"), (".rt", "//")):
        for path in files(ending):
            text = open(path, encoding="utf-8").read()
            new = turned(text, names, mark)
            if new != text:
                open(path, "w", encoding="utf-8").write(new)
                changed += 1
    for path in ["README.md"] + sorted(os.path.join("docs", f) for f in os.listdir("docs") if f.endswith(".md")):
        text = open(path, encoding="utf-8").read()
        new = re.sub(r"`[^`\n]+`", lambda m: re.sub(r"(?<![\w/.-])" + NAME + r"(?!\.\w)", lambda w: names.get(w.group(0), w.group(0)), m.group(0)), text)
        if new != text:
            open(path, "w", encoding="utf-8").write(new)
            changed += 1
    for n in sorted(names):
        print(n, names[n])
    print(f"{len(names)} names, {changed} files")
    return 0


if __name__ == "__main__":
    raise SystemExit(main())
