#!/usr/bin/env python3
"""Holds the pages to the tree: docs_true.py [ROOT].

Every crate, function, file and statement that README.md and docs/ name must exist, every caller that docs/EXCEPTIONS.md names must really call,
and every public function with a `requires` must stand there. docs/LANDINGS.md and docs/DESIGN-CHANGES.md tell of what was, and are not held to today's names.
Prints each fault, then `docs: N names, M wrong`; the status is 0 only if none is.
"""
import glob
import os
import re
import sys

ROOT = sys.argv[1] if len(sys.argv) > 1 else os.path.join(os.path.dirname(os.path.abspath(__file__)), "..")
os.chdir(ROOT)
faults, names = [], 0


def text(path):
    with open(path, encoding="utf-8") as file:
        return file.read()


def wants(truth, said):
    global names
    names += 1
    if not truth:
        faults.append(said)


CRATES = [line.split(":")[0].split()[0] for line in text("crates.txt").splitlines() if ":" in line and not line.startswith("#")]


class Function:
    def __init__(self, crate, file, name, public, head, body):
        self.crate, self.file, self.name, self.public, self.head, self.body = crate, file, name, public, head, body


def functions():
    """Every function of the tree, with its head (signature and clauses) and its body."""
    out = []
    for path in glob.glob("crates/*/src/*.rt"):
        crate, file = path.split("/")[1], os.path.basename(path)[:-3]
        source = text(path)
        for found in re.finditer(r"^(pub(?:\(crate\))? )?(?:extern \"C\" )?fn (\w+)(?:<[^>]*>)?\(", source, re.M):
            end = source.find("\n}\n", found.start())
            whole = source[found.start():end]
            start = whole.find("\n{\n") if "\n{\n" in whole else whole.find("{\n")
            out.append(Function(crate, file, found.group(2), found.group(1) == "pub ", whole[:start], whole[start:]))
    return out


FUNCTIONS = functions()
OTHERS = {(path.split("/")[1], name) for path in glob.glob("crates/*/src/*.rt") for name in re.findall(r"(?:struct|enum|const) (\w+)", text(path))}


def called(said):
    """The functions that `crate::name` or `crate::file::name` may mean."""
    words = said.split("::")
    return [f for f in FUNCTIONS if f.crate == words[0] and f.name == words[-1] and (len(words) == 2 or f.file == words[1])]


def names_of_code(page):
    for said in re.findall(r"`(\w+::\w+(?:::\w+)?)`", text(page)):
        crate, last = said.split("::")[0], said.split("::")[-1]
        if crate in CRATES:
            wants(called(said) or (crate, last) in OTHERS, f"{page}: there is no {said}")


def names_of_files(page):
    for said in re.findall(r"`((?:tests|docs|samples|crates|\.ci)/[\w./*-]*)`", text(page)):
        wants("NAME" in said or glob.glob(said) or glob.glob(said + "*"), f"{page}: there is no file {said}")
    for said in re.findall(r"\b(docs/[A-Z]+\.md)\b", text(page)):
        wants(os.path.exists(said), f"{page}: there is no page {said}")


def laws():
    out = {}
    for path in glob.glob("crates/*/proofs/**/*.antt", recursive=True) + glob.glob("crates/*/specs/**/*.antt", recursive=True):
        for name in re.findall(r"^\s*(?:abbrev |unfoldable )?pub (?:record |data )?([\w·\-]+)", text(path), re.M):
            out.setdefault(name, set()).add(path.split("/")[1])
    return out


def statements():
    page, known = "docs/STATEMENTS.md", laws()
    others = {f.name for f in FUNCTIONS} | {name for _, name in OTHERS} | set(CRATES) | {"unique-f"}
    for name in re.findall(r"`([a-z][a-z0-9]*(?:[-_][a-z0-9]+)+)`", text(page)):
        wants(name in known or name in others, f"{page}: there is no statement {name}")
    listed = {(m.group(1), name) for m in re.finditer(r"^\| `(\w+)` \| (`unique-.*) \|$", text(page), re.M) for name in re.findall(r"`(unique-[\w-]+)`", m.group(2))}
    there = {(crate, name) for name, crates in known.items() if name.startswith("unique-") for crate in crates}
    for crate, name in sorted(there ^ listed):
        wants(False, f"{page}: {name} of {crate} is " + ("not listed" if (crate, name) in there else "listed, and is not there"))


def listed_callers(cell):
    """The functions of a table's cell; a bare name has the crate of the one before it."""
    out, crate = [], None
    for said in re.findall(r"`([\w:]+)`", cell):
        if "::" in said:
            crate = said.split("::")[0]
            out.append(said)
        elif crate:
            out.append(crate + "::" + said)
    return out


def exceptions():
    page, rows = "docs/EXCEPTIONS.md", set()
    for line in text(page).splitlines():
        cells = [cell.strip() for cell in line.strip("|").split("|")]
        if len(cells) != 4 or "::" not in cells[0]:
            continue
        asked, callers = listed_callers(cells[0]), listed_callers(cells[3])
        rows |= {tuple(said.split("::")[::len(said.split("::")) - 1]) for said in asked}
        for caller in callers:
            hits = called(caller)
            wants(hits, f"{page}: there is no {caller}")
            for f in hits[:1]:
                uses = [g.split("::") for g in asked]
                wants(any(re.search((r"\b" if f.crate == c[0] else c[0] + "::") + c[-1] + r"(?:::<\w+>)?\(", f.body) for c in uses),
                      f"{page}: {caller} calls none of {', '.join(asked)}")
    for f in FUNCTIONS:
        if f.public and "requires" in f.head:
            wants((f.crate, f.name) in rows, f"{page}: {f.crate}::{f.name} requires something and is not listed")


def rooms():
    for page, pattern in (("docs/ARCHITECTURE.md", r"^\| `(\w+)` \| [^|`]*\w[^|]*\|$"), ("docs/GATE.md", r"^\| `(\w+)` \| \d")):
        found = set(re.findall(pattern, text(page), re.M))
        for crate in CRATES:
            wants(crate in found, f"{page}: no row for {crate}")


PAGES = ["README.md"] + [page for page in sorted(glob.glob("docs/*.md")) if not page.endswith(("LANDINGS.md", "DESIGN-CHANGES.md"))]
for page in PAGES:
    names_of_code(page)
    names_of_files(page)
statements()
exceptions()
rooms()
for fault in faults:
    print(fault)
print(f"docs: {names} names, {len(faults)} wrong")
sys.exit(1 if faults else 0)
