#!/usr/bin/env python3
"""Every public function of a library crate has its `unique-`, and that goes by the function's own contract: uniques.py [ROOT].

A contract is read where its callers read it: `Learnt` of the function's `Reads`, or, for a function that is walked by hand, a reading of its
`clauses` in the crate's proofs/Contracts.antt. The statement must name one of these twice, for the two results; a copy of the contract written out by
hand does not count. Functions that docs/EXCEPTIONS.md lists under 'What the world decides' need none.

A static library NAME_c has no laws of its own. Each of its exports must be what the function of its
name in the library NAME is: the same parameters, result and clauses, word for word, each word of
them from the same module, and a body that does nothing but call that function with its own
parameters, in their order. So it allows the same results. Each `extern "C"` function of NAME must
have such an export.
Prints each fault, then `uniques: N functions, M wrong`; the status is 0 only if none is.
"""
import glob
import os
import re
import sys

ROOT = sys.argv[1] if len(sys.argv) > 1 else os.path.join(os.path.dirname(os.path.abspath(__file__)), "..")
os.chdir(ROOT)


def text(path):
    with open(path, encoding="utf-8") as file:
        return file.read()


def library_below(crate):
    """The library that a static library makes ready for C, if it is one."""
    library = crate.removesuffix("_c")
    return library if library != crate and os.path.exists(f"crates/{library}/src/lib.rt") else None


def public_functions():
    """(crate, path of modules, name) of each `pub fn` of a library, lifetimes in its head or not."""
    for path in sorted(glob.glob("crates/*/src/**/*.rt", recursive=True)):
        crate = path.split("/")[1]
        if not os.path.exists(f"crates/{crate}/src/lib.rt") or library_below(crate):
            continue
        modules = path[len(f"crates/{crate}/src/"):-len(".rt")].split("/")
        for name in re.findall(r"^\s*pub (?:extern \"C\" )?fn (\w+)\s*[<(]", text(path), re.M):
            yield crate, [] if modules == ["lib"] else modules, name


def excepted():
    page = text("docs/EXCEPTIONS.md")
    part = page[page.index("## What the world decides"):].split("\n## ")[0]
    return {tuple(said.split("::")) for said in re.findall(r"`(\w+::\w+)`", part)}


def statement(law, source):
    """The type of a law, from its colon to the line where its clauses begin."""
    found = re.search(rf"^pub {re.escape(law)} :(.*?)^{re.escape(law)}\b", source, re.M | re.S)
    return found.group(1) if found else None


def readings(crate, modules, name):
    """The names under which a file of the crate may read this function's contract: of its `Reads`, and of its clauses in Contracts."""
    of = ".".join(modules + [name])
    hand, path = set(), f"crates/{crate}/proofs/Contracts.antt"
    if os.path.exists(path):
        source = text(path)
        for alias in re.findall(rf"^use {re.escape(f'Rattle.{crate}.specs.contracts.{of}')} as (\S+)$", source, re.M):
            for ensures in re.findall(rf"^\s*([\w-]+) w = \({re.escape(alias)}\.clauses [^()]*\)\.ensures ", source, re.M):
                for read in re.findall(rf"^\s*([\w-]+) = all_models {re.escape(ensures)} ", source, re.M):
                    hand |= set(re.findall(rf"^\s*(\w+) = AllOf {re.escape(read)}\.tells$", source, re.M))
    return f"Rattle.{crate}.proofs.{of}.Reads", hand


def fault(crate, modules, name):
    law = "unique-" + name.replace("_", "-")
    reads, hand = readings(crate, modules, name)
    for path in sorted(glob.glob(f"crates/{crate}/proofs/*.antt")):
        source = text(path)
        said = statement(law, source)
        if said is None:
            continue
        aliases = [alias + ".Learnt" for alias in re.findall(rf"^use {re.escape(reads)} as (\S+)$", source, re.M)] + sorted(hand)
        if any(len(re.findall(rf"(?<![\w.·-]){re.escape(alias)} ", said)) == 2 for alias in aliases):
            return None
        return f"{path}: {law} does not go by the contract of {'::'.join([crate] + modules + [name])}"
    return f"there is no {law} in crate {crate}"


def exports(path):
    """The functions for C of a source, by name: whether exported, the head from its parameters to the body, the parameters' names, the body."""
    out = {}
    for found in re.finditer(r"^(#\[unsafe\(no_mangle\)\]\n)?pub extern \"C\" fn (\w+)(\((.*?)\)(?: -> [^\n]*)?\n.*?)^\{\n(.*?)^\}\n", bare(path), re.M | re.S):
        out[found[2]] = bool(found[1]), " ".join(found[3].split()), re.findall(r"(\w+):", found[4]), re.sub(r"(?<=\() |,? (?=\)$)", "", " ".join(found[5].split()))
    return out


def bare(path):
    return re.sub(r"^[ \t]*//[^\n]*\n", "", text(path), flags=re.M)


def modules_of_words(path):
    """Where each word of the clauses of a source comes from."""
    return {word.strip(): module for module, words in re.findall(r"^ghost use ([\w.]+)\.\{([^}]*)\};$", bare(path), re.M) for word in words.split(",")}


def faults_of_exports(crate, library):
    """What keeps a static library from being its library, said for C."""
    sources = {path[len(f"crates/{crate}/src/"):-len(".rt")] for path in glob.glob(f"crates/{crate}/src/**/*.rt", recursive=True)}
    below = {path[len(f"crates/{library}/src/"):-len(".rt")] for path in glob.glob(f"crates/{library}/src/**/*.rt", recursive=True)}
    for source in sorted(sources | {it for it in below if "extern \"C\"" in text(f"crates/{library}/src/{it}.rt")}):
        mine, its = f"crates/{crate}/src/{source}.rt", f"crates/{library}/src/{source}.rt"
        if not os.path.exists(mine) or not os.path.exists(its):
            yield f"{mine} and {its} are not both there"
            continue
        known = modules_of_words(its)
        for word, module in modules_of_words(mine).items():
            if known.get(word) != module:
                yield f"{mine}: {word} is not that of {its}"
        if re.search(r"^\s*(?:pub )?(?:use|const|static|struct|enum|type|trait|impl|macro_rules!|ghost(?! use [\w.]+\.\{[^}]*\};$))\b", bare(mine), re.M):
            yield f"{mine} has more than exports"
        here, there = exports(mine), exports(its)
        if len(here) != len(re.findall(r"\bfn\b", bare(mine))) or len(there) != len(re.findall(r"^pub extern", bare(its), re.M)):
            yield f"{mine}: a function is not one for C, or could not be read"
        for name in sorted(here.keys() | there.keys()):
            if name not in here or name not in there or not here[name][0] or here[name][1] != there[name][1]:
                yield f"{mine}: {name} is not exported with the clauses that it has in {its}"
                continue
            path = "::".join([library] + ([] if source == "lib" else source.split("/")) + [name])
            if here[name][3] != f"{path}({', '.join(here[name][2])})":
                yield f"{mine}: {name} is more or less than a call of {path}"


free, count, faults = excepted(), 0, []
for crate in sorted(os.listdir("crates")):
    if library_below(crate):
        faults += faults_of_exports(crate, library_below(crate))
for crate, modules, name in public_functions():
    if (crate, name) in free:
        continue
    count += 1
    said = fault(crate, modules, name)
    if said:
        faults.append(said)
for said in faults:
    print(said)
print(f"uniques: {count} functions, {len(faults)} wrong")
sys.exit(1 if faults else 0)
