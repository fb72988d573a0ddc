#!/usr/bin/env python3
"""crates.txt, made of what each crate itself names: crates.py [--check].

A crate's line lists the crates that its own sources, definitions and proofs name, a library of the
kit as well if its code calls it; and those that declare a type which a type of a crate that its
code names holds, since the prover must be able to name it. What those crates need in turn is theirs
to list. Lines stand in an order in which each crate comes after all that it names. NAME_c, where
there is a crate NAME, is a static library: `staticlib` stands after its name. Without a word the
file is written; with --check only the difference is told.
"""
import glob
import os
import re
import subprocess
import sys

os.chdir(os.path.join(os.path.dirname(os.path.abspath(__file__)), ".."))
HEAD = "# NAME: DEP DEP ..   every crate of the register, lowest floor first; tests/crates.py makes this file\n"


def kit():
    """The libraries of the kit that a line may list."""
    page = subprocess.run(["rt", "doc"], check=True, capture_output=True, text=True).stdout.strip()
    return {name.removesuffix(".rlib") for name in os.listdir(os.path.join(os.path.dirname(page), "rlibs"))} - {"core", "std"}


KIT = kit()


def text(path):
    with open(path, encoding="utf-8") as file:
        return file.read()


def sources(crate):
    return [re.sub(r"//[^\n]*", "", text(path)) for path in glob.glob(f"crates/{crate}/src/**/*.rt", recursive=True)]


def called(crate):
    """What stands before `::` in its code, crates among it, but not its own modules and what it takes
    from elsewhere by `use`."""
    found, own = set(), set()
    for source in sources(crate):
        found |= set(re.findall(r"(?<![\w:])(\w+)::", source))
        own |= set(re.findall(r"^\s*(?:pub(?:\(crate\))? )?mod (\w+);", source, re.M))
        for tree in re.findall(r"^\s*(?:pub(?:\(crate\))? )?use \w+::([^;]+);", source, re.M):
            own |= set(re.findall(r"(\w+)\s*(?=[,}]|$)", tree))
    return found - own


def held(crate, crates):
    """The crates whose types the structs and enums of this one hold, or those of these crates."""
    found = set()
    for source in sources(crate):
        bodies = " ".join(re.findall(r"^pub (?:struct|enum) \w+[^{;]*\{(.*?)^\}", source, re.M | re.S))
        for other, name in re.findall(r"^use (\w+)::(?:\w+::)*(\w+)", source, re.M):
            if other in crates and re.search(rf"\b{name}\b", bodies):
                found |= {other} | held(other, crates)
        found |= {other for other in re.findall(r"\b(\w+)::", bodies) if other in crates}
    return found


def named(crate, crates):
    """The other crates that the files of this one name, and those whose types are reached through theirs."""
    found = called(crate)
    for other in found & crates:
        found = found | held(other, crates)
    for path in glob.glob(f"crates/{crate}/specs/**/*.antt", recursive=True) + glob.glob(f"crates/{crate}/proofs/**/*.antt", recursive=True):
        found |= set(re.findall(r"Rattle\.(\w+)", text(path)))
    for source in sources(crate):
        found |= set(re.findall(r"Rattle\.(\w+)", source))
    return found & (crates | KIT) - {crate}


def lines():
    """A line for each crate, in the order that crates.txt has, lower floors first."""
    order = re.findall(r"^(\w+)(?: staticlib)?:", text("crates.txt"), re.M)
    order += sorted(set(os.listdir("crates")) - set(order))
    crates = {crate for crate in order if os.path.isdir(f"crates/{crate}/src")}
    needs = {crate: named(crate, crates) for crate in order if crate in crates}
    done, out = set(), []
    while len(done) < len(needs):
        crate = next(crate for crate in needs if crate not in done and needs[crate] - KIT <= done)
        done.add(crate)
        deps = [other for other in order if other in needs[crate]] + sorted(needs[crate] & KIT)
        kind = " staticlib" if crate.removesuffix("_c") in crates - {crate} else ""
        out.append(" ".join([crate + kind + ":"] + deps))
    return out


if __name__ == "__main__":
    made = HEAD + "\n".join(lines()) + "\n"
    if sys.argv[1:] != ["--check"]:
        with open("crates.txt", "w", encoding="utf-8") as file:
            file.write(made)
    elif made != text("crates.txt"):
        print("crates.txt is not what tests/crates.py makes of the crates")
        sys.exit(1)
