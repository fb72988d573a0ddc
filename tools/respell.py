#!/usr/bin/env python3
"""Spells the register's own definitions and lemmas in snake case: respell.py [ROOT].

A word of specs/, proofs/, contracts, must-fail edits and pages that begins with a small letter and
has a capital within it is written with underscores: keyOf becomes key_of, also as a part of a
dashed name. Types, modules and names of the sources keep theirs. In five files a lemma would get
the name of a definition there, and ends in _lem. docs/PORT.md has the older names beside the new
ones, and stays. A second run changes nothing.
"""
import glob
import os
import re
import sys

ROOT = sys.argv[1] if len(sys.argv) > 1 else os.path.join(os.path.dirname(os.path.abspath(__file__)), "..")
CAMEL = re.compile(r"(?<![A-Za-z0-9_'’.])(?<!-[A-Z])[a-z][a-z0-9]*(?:[A-Z][a-z0-9]*)+(?![A-Za-z0-9_])")
FIELD = re.compile(r"(?<=\.)[a-z][a-z0-9]*(?:[A-Z][a-z0-9]*)+(?![A-Za-z0-9_])")

# Lemmas that would get a definition's name: in these files they end in _lem.
LEMMAS = {
    "index_read/proofs/Chain.antt": "closed_after",
    "index_write/proofs/Renewing.antt": "free_bytes",
    "interval_read/proofs/Verdicts.antt": "keys_from",
    "register/proofs/Aimed.antt": "aim_at",
    "register/proofs/change_at/Proof.antt": "aim_at",
}


def below(*patterns):
    for pattern in patterns:
        yield from sorted(glob.glob(os.path.join(ROOT, pattern), recursive=True))


def logic():
    return below("crates/*/specs/**/*.antt", "crates/*/proofs/**/*.antt", "crates/*/src/**/*.rt")


def pages():
    return below("crates/*/must-fail/*.edit", "docs/*.md", "README.md", "tests/README.md")


def read(path):
    with open(path, encoding="utf-8", newline="") as file:
        return file.read()


def snake(name):
    return re.sub(r"([A-Z])", lambda it: "_" + it.group(1).lower(), name)


def without_own_lemmas(path, text):
    """The text with a lemma of LEMMAS renamed, where the definition still has its capital."""
    name = LEMMAS.get(os.path.relpath(path, os.path.join(ROOT, "crates")))
    whole = rf"(?<![A-Za-z0-9_'-]){name}(?![A-Za-z0-9_'-])"
    return re.sub(whole, name + "_lem", text) if name and CAMEL.search(text) else text


def main():
    changed, names = 0, set()
    for path in [*logic(), *pages()]:
        if "/out/" in path or path.endswith("docs/PORT.md"):
            continue
        text = read(path)
        said = without_own_lemmas(path, text)
        names |= set(CAMEL.findall(said))
        said = CAMEL.sub(lambda it: snake(it.group()), said)
        if not path.endswith(".md"):
            said = FIELD.sub(lambda it: snake(it.group()), said)
        if said != text:
            with open(path, "w", encoding="utf-8", newline="") as file:
                file.write(said)
            changed += 1
    print(f"respell: {len(names)} names, {changed} files")


if __name__ == "__main__":
    main()
