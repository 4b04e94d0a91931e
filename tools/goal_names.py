#!/usr/bin/env python3
"""Brings the names of goals and steps in a crate's answers and invariants to those that Rattle makes now.

usage, at the top of the repository: python3 tools/goal_names.py CRATE..

An older Rattle wrote the names of the source with '-' inside a goal's name, today's keeps their '_': `returns-then-not-is-printable` is
`returns-then-not-is_printable`. It only needs a crate that compiles over crates that prove; what has no single new name stays for the check
to tell.
"""
import glob
import json
import os
import re
import subprocess
import sys
import tempfile

WORD = re.compile(r"(?<![\w'-])[A-Za-z][\w']*(?:[-+][\w']+)+(?![\w'-])")
COMMENT = re.compile(r"(--[^\n]*)")
# where a name from the check stands: a function's folder, and the function where a folder has several
FOLDER = r"Rattle-{}-proofs\.(.*)\.Lts(?:-(\w+))?(?:\..*)?"


def plain(name):
    return name.replace("_", "-")


def strings(value):
    if isinstance(value, dict):
        for key, inner in value.items():
            yield key
            yield from strings(inner)
    elif isinstance(value, list):
        for inner in value:
            yield from strings(inner)
    elif isinstance(value, str):
        yield value


def made_names(crate):
    """What the check makes for each folder of proofs: {folder: names}."""
    with tempfile.TemporaryDirectory() as out:
        told = subprocess.run(["rt", "check", "--generated", out, "--old-names"], cwd=f"crates/{crate}", capture_output=True, text=True)
        path = os.path.join(out, "names.json")
        if not os.path.exists(path):
            sys.exit(f"{crate}: the check gave no names:\n{(told.stdout + told.stderr)[-1500:]}")
        with open(path, encoding="utf-8") as f:
            groups = json.load(f)
    folders = {}
    for key, value in groups.items():
        m = re.fullmatch(FOLDER.format(crate), key)
        if m:
            names = folders.setdefault(f"crates/{crate}/proofs/" + m[1].replace(".", "/"), set())
            found = {word for s in strings(value) for word in re.findall(r"[A-Za-z][\w'-]*", s)}
            names |= found | {"decreases-" + name for name in found}
            if m[2]:
                names |= {"decreases-" + m[2]} | {f"{m[2]}-{name}" for name in found}
    return folders


def new_name(name, names):
    if name in names:
        return name
    alike = [n for n in names if plain(n) == plain(name)]
    if len(alike) == 1:
        return alike[0]
    if re.match(r"(returns-)?in-(ok|err)-", name):
        # a `?` inside an arm has the arm's name behind its own
        longer = sorted((n for n in names if plain(n).startswith(plain(name) + "-in-") and "-clause-" not in n), key=len)
        if longer and all(n.startswith(longer[0]) for n in longer):
            return longer[0]
    goal, clause, label = name.partition("-clause-")
    return new_name(goal, names) + clause + label if clause else name


def turned(text, names):
    parts = COMMENT.split(text)
    text = "".join(p if i % 2 else WORD.sub(lambda m: new_name(m[0], names), p) for i, p in enumerate(parts))
    places = sorted(set(re.findall(r"\bgoal\.([A-Z][\w'-]*)", text)))
    head = re.search(r"(?m)^use (Rattle\.\S+\.Goals) as goal\n", text)
    if places and head:
        # a place is imported by its name
        text = re.sub(r"\bgoal\.(?=[A-Z])", "", text)
        text = text.replace(head[0], f"{head[0]}use {head[1]}.{{{', '.join(places)}}}\n")
    return text


def main():
    for crate in sys.argv[1:]:
        for folder, names in made_names(crate).items():
            for path in glob.glob(folder + "/*.antt"):
                with open(path, encoding="utf-8") as f:
                    old = f.read()
                new = turned(old, names)
                if new != old:
                    with open(path, "w", encoding="utf-8") as f:
                        f.write(new)
                    print(path)


main()
