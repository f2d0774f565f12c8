#!/usr/bin/env python3
"""Spells the repository's own definitions and lemmas as today's Rattle spells them: words in snake case, types in camel
case, a dash only between the names of two functions. Run once at the top, after the toolchain's port.py.

Only names that the specs/ and proofs/ of this repository define are turned, in specs/, proofs/, the sources and the
must-fail edits. Functions and types of src/, strings, inputs and outputs keep their names. Where two names would fall
together in one crate, it says so and writes nothing.
"""

import glob
import os
import re
import sys

# A dash stays where it joins the names of two functions.
KEPT = {"after-after", "bytes-append", "bytes-replicate", "changed-after", "lifted-after", "replies-append", "words-unblanked"}
# Names that another script turned halfway.
NAMED = {"getD-padded": "get_or-padded"}

TOKEN = re.compile(r"[A-Za-z_][A-Za-z0-9_'-]*")
DEFINES = re.compile(r"^[ ]*(?:(?:abbrev pub|abbrev|unfoldable pub|unfoldable|pub data|pub record|data|record|pub)[ ]+)?([A-Za-z][A-Za-z0-9_'-]*)[ ]+(?:[({][^:\n]*:[^\n]*)?:(?:[ ]|$)", re.M)


def snake(name):
    return re.sub(r"(?<=[a-z0-9])([A-Z])", lambda m: "_" + m.group(1).lower(), name).replace("-", "_")


def pieces():
    for pattern in ("crates/*/specs/*.antt", "crates/*/proofs/*.antt"):
        yield from sorted(glob.glob(pattern))


def table():
    names = {}
    for path in pieces():
        for name in DEFINES.findall(open(path, encoding="utf-8").read()):
            if name[0].islower() and name not in KEPT and NAMED.get(name, snake(name)) != name:
                names[name] = NAMED.get(name, snake(name))
    return names


def clashes(names):
    for path in pieces():
        have = set(DEFINES.findall(open(path, encoding="utf-8").read()))
        for old in have & set(names):
            if names[old] in have:
                yield path, old, names[old]


def turned(text, names):
    parts = re.split(r'("(?:[^"\\\n]|\\.)*")', text)
    return "".join(p if p.startswith('"') else TOKEN.sub(lambda m: names.get(m.group(0), m.group(0)), p) for p in parts)


def main():
    names = table()
    bad = list(clashes(names))
    for path, old, new in bad:
        print(f"{path}: {old} and {new} fall together")
    if bad:
        return 1
    paths = [p for p in glob.glob("crates/*/**/*", recursive=True) if p.endswith((".antt", ".rt", ".edit")) and "/out/" not in p]
    for path in sorted(paths):
        text = open(path, encoding="utf-8").read()
        new = turned(text, names)
        if new != text:
            with open(path, "w", encoding="utf-8") as f:
                f.write(new)
    for old, new in sorted(names.items()):
        print(f"{old} -> {new}")
    return 0


if __name__ == "__main__":
    sys.exit(main())
