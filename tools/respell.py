#!/usr/bin/env python3
"""Spells this repository's own definitions and lemmas as today's Rattle does: `is-chain` becomes `is_chain`, `First-clash` becomes `FirstClash`.

usage: python3 tools/respell.py [--list] [TOP]

Names of the library keep their spelling, as do the names that Rattle makes for the goals of a function. --list only prints the table and
where names would fall together. Run once, right behind port.py; a second run changes nothing.
"""
import collections
import glob
import os
import re
import sys

WORD = r"[A-Za-z][\w']*(?:-[\w']+)+"
HYPHENED = re.compile(rf"(?<![\w'-]){WORD}(?![\w'-])")
# code parts that hold no name: strings, and comments of each language
QUIET = {".antt": re.compile(r'"(?:[^"\\\n]|\\.)*"|--[^\n]*'), ".rt": re.compile(r'"(?:[^"\\]|\\.)*"|//[^\n]*')}
# what Rattle makes stands behind these
HEADS = ("c", "goal", "l", "g", "args")
MADE = re.compile(r"/proofs/(.*/)?(Answers|Invariants|Choices|Proof)\.antt$")


def files(top, *kinds):
    for kind in kinds:
        yield from sorted(f for f in glob.glob(os.path.join(top, "crates", "*", "**", "*" + kind), recursive=True) if "/out/" not in f)


def read(path):
    with open(path, encoding="utf-8") as f:
        return f.read()


def pieces(path, text):
    """The text as (is code, piece) in order."""
    at, quiet = 0, QUIET[os.path.splitext(path)[1]]
    for m in quiet.finditer(text):
        yield True, text[at : m.start()]
        yield False, m[0]
        at = m.end()
    yield True, text[at:]


def code(path):
    return "".join(p if is_code else " " for is_code, p in pieces(path, read(path)))


def library(top):
    """Names that some file imports from std or a library below it."""
    found = set()
    for path in files(top, ".antt", ".rt"):
        for m in re.finditer(r"use (?:Rattle\.std|borrow|denote|lib|mathlib|native|Prim)[\w.]*\.\{([^}]*)\}", code(path)):
            found.update(re.findall(r"[^\s,{}]+", m[1].replace(" as ", ",")))
    return found


def declared(top):
    """The names with a hyphen that specs, lemmas and ghost members declare or bind."""
    names = set()
    for path in files(top, ".antt"):
        if not MADE.search(path):
            text = code(path)
            names.update(m[0] for m in HYPHENED.finditer(text) if not text[: m.start()].endswith("goal."))
    return names


def spelled(name):
    if name[0].isupper() and not name.isupper():
        return "".join(w[:1].upper() + w[1:] for w in name.split("-"))
    return name.replace("-", "_")


def table(top):
    lib = library(top)
    return {n: spelled(n) for n in declared(top) if n not in lib}


def turned(path, text, names):
    made = set(re.findall(rf"(?m)^(?:abbrev )?(?:pub )?({WORD}) :", text)) if MADE.search(path) else set()
    out = []
    for is_code, piece in pieces(path, text):
        if is_code:

            def new(m):
                name, before = m[0], piece[: m.start()]
                head = re.search(r"([\w']+)\.$", before)
                if name not in names or MADE.search(path) and (name in made and not before.endswith(".") or head and head[1] in HEADS):
                    return name
                return names[name]

            piece = HYPHENED.sub(new, piece)
        out.append(piece)
    return "".join(out)


def words(path, text):
    return set(re.findall(r"[A-Za-z_][\w']*(?:-[\w']+)*", "".join(p for is_code, p in pieces(path, text) if is_code)))


def clashes(top, names):
    back = collections.defaultdict(set)
    for old, new in names.items():
        back[new].add(old)
    for new, olds in sorted(back.items()):
        if len(olds) > 1:
            print("fall together:", new, sorted(olds))
    for path in files(top, ".antt", ".rt"):
        there = words(path, read(path))
        for old in sorted(there & set(names)):
            if names[old] in there:
                print(f"{path}: {old} meets {names[old]}")


def main():
    words_ = [a for a in sys.argv[1:] if not a.startswith("--")]
    top = words_[0] if words_ else "."
    names = table(top)
    if "--list" in sys.argv:
        for old, new in sorted(names.items()):
            print(f"{old}\t{new}")
        clashes(top, names)
        return
    for path in files(top, ".antt", ".rt"):
        old = read(path)
        new = turned(path, old, names)
        if new != old:
            with open(path, "w", encoding="utf-8") as f:
                f.write(new)


main()
