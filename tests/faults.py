#!/usr/bin/env python3
"""Holds every fault of the must-fail edits to the log of a run: faults.py [CRATE ..].

An .edit file may have several faults, each after a line `fault: NAME`: all in bodies, at most one
in a function. rt proves the crate once, and is content if one of them is refused; so each such file
is run here once more, and the log is read. A run is `rt check` of the crate with the edit applied,
in a copy outside the checkout that begins with the libraries and the proofs kept in out/ folders;
target/must-fail/CRATE/EDIT/.log keeps what it said. A fault in a body leaves the contract, which is
all that other proofs go by. What it makes false is therefore false in the proof of its own
function. Only, rt tries no goal of a function whose callee is not proved: so a fault that the log
does not tell is run alone, and judged by that log. And rt names goals and facts after the text of a
test, or an arm, as `returns-then-n-lt256`: where a fault changes a test, or two arms change places,
so that its proof names what went, and the new name is plain, it is run once more with the proof's
names brought to the new ones, and judged by that. What is said there is one of
  later   what it needs was refused before it: says nothing
  fact    what was to be shown does not hold
  unfit   the proof does not fit the code, whose names have changed; or an unknown message
A fault is told if its function has a fact and nothing unfit. A goal that no file answers is told by
the line that the search does not prove it. An edit without `fault:` is one fault, and `rt ci` alone
judges it.
Prints what is wrong, then `faults: N faults in M runs, K wrong`; the status is 0 only if nothing
is.
"""
import concurrent.futures
import glob
import os
import re
import shutil
import subprocess
import sys
import tempfile

ROOT = os.path.join(os.path.dirname(os.path.abspath(__file__)), "..")
FACTS = ("the two types", "expected type", "does not follow", "found no proof", "`search`: no proof of", "`simp`: no equation of the list",
         "`rw`: no occurrence of", "give a proof of that", "this binder is annotated")
UNFITS = ("has no field", "has no `", "is not in scope", "no clause covers", ".Lts.View.")


def text(path):
    with open(path, encoding="utf-8", errors="replace") as file:
        return file.read()


class Fault:
    def __init__(self, name):
        self.name, self.pairs = name, []


def read_edit(path):
    """The faults of an edit, with their pairs (file, old text, new text) as rt reads them, and
    whether they are named: all before the first `fault:` is one that has the edit's own name."""
    faults, file, old = [Fault(label_of(path))], "", ""
    for line in text(path).split("\n"):
        if line.startswith("fault:"):
            faults.append(Fault(line[len("fault:"):].strip()))
        elif line.startswith("file: "):
            file = line[len("file: "):]
        elif line.startswith("old: "):
            old = line[len("old: "):]
        elif line.startswith("new:"):
            faults[-1].pairs.append((file, old, line[len("new:"):].removeprefix(" ")))
    named = len(faults) > 1
    return faults[1:] if named and not faults[0].pairs else faults, named


def label_of(edit):
    return os.path.basename(edit)[:-len(".edit")]


def bodies(source):
    """(name, where its body begins, where it ends) of each function of a source."""
    for head in re.finditer(r"^(?:pub(?:\(crate\))? )?(?:extern \"C\" )?fn (\w+)", source, re.M):
        end = source.find("\n}\n", head.start())
        after_clauses = source.find("\n{\n", head.start(), end)
        yield head.group(1), source.find("{\n", max(head.start(), after_clauses), end) + 1, end


def function_of(crate, file, old):
    """The function whose body has a text, by its folder in proofs/. None where no body has it, or
    where it is not once in the file."""
    if not file.startswith("src/") or not os.path.exists(f"{crate}/{file}"):
        return None
    source, module = text(f"{crate}/{file}"), file[len("src/"):-len(".rt")]
    at = source.find(old)
    if at < 0 or source.find(old, at + 1) >= 0:
        return None
    for name, begin, end in bodies(source):
        if begin <= at and at + len(old) <= end:
            return name if module in ("lib", "main") else f"{module}/{name}"
    return None


def kind(message):
    if "was not admitted" in message or "which was rejected" in message:
        return "later"
    return "fact" if any(said in message for said in FACTS) and not any(said in message for said in UNFITS) else "unfit"


def lines_of(crate, function):
    """The source that has a function, and the lines from the end of the one before it to its own."""
    module, name = os.path.split(function)
    for file in [f"src/{module}.rt"] if module else ["src/lib.rt", "src/main.rt"]:
        if os.path.exists(f"{crate}/{file}"):
            source, before = text(f"{crate}/{file}"), 0
            for said, _, end in bodies(source):
                if said == name:
                    return file, range(source.count("\n", 0, before) + 1, source.count("\n", 0, end) + 3)
                before = end + len("\n}\n")
    return "", range(0)


def errors(log, crate, function):
    """What a log says of a function's proof, by kind."""
    out, name = {}, os.path.basename(crate) + "::" + function.replace("/", "::")
    place = rf"^(?:\S*/)?proofs/{re.escape(function)}/\w+\.antt:\d+:\d+: error: (.*(?:\n .*)*)"
    for message in re.findall(place, log, re.M):
        out.setdefault(kind(message), []).append(message)
    for message in re.findall(rf"^fn {re.escape(name)}: (.*)$", log, re.M):
        if "`search` did not prove `" in message:
            out.setdefault("fact", []).append(message)
        elif message not in ("proved", "not proved"):
            out.setdefault("later" if "which is not proved" in message else "unfit", []).append(message)
    file, lines = lines_of(crate, function)
    for said, line, message in re.findall(r"^note: (src/\S+?):(\d+):\d+: (it is not proved that .*)$", log, re.M):
        if said == file and int(line) in lines:
            out.setdefault("fact", []).append(message)
    return out


def wrong_with(fault, crate, log, taken):
    """What is wrong with a named fault, or None; `taken` has the functions of those before it."""
    if not fault.pairs or any(old == new for _, old, new in fault.pairs):
        return "it changes nothing"
    functions = {function_of(crate, file, old) for file, old, _ in fault.pairs}
    function = functions.pop()
    if functions or function is None:
        return "it does not stand in the body of one function"
    if function in taken:
        return f"another fault stands in {function} too"
    taken.add(function)
    found = errors(log, crate, function)
    if found.get("unfit"):
        return f"the proof of {function} does not fit it: {found['unfit'][0].splitlines()[0][:120]}"
    return None if found.get("fact") else f"nothing is false in the proof of {function}"


def crate_of(edit):
    return os.path.dirname(os.path.dirname(edit))


def log_of(root, edit, fault=None):
    """Where the log of a run lies: of an edit, or of one of its faults alone."""
    return "/".join([root, "target/must-fail", os.path.basename(crate_of(edit)), label_of(edit)] + ([fault.name] if fault else []) + [".log"])


def read_log(path):
    """A log of a refusal, or nothing."""
    said = text(path) if os.path.exists(path) else ""
    return said if "\nlogic=not-proved" in said else ""


def wrong_in(root, edit):
    """The number of an edit's faults, and what is wrong with them, each with its fault."""
    crate, taken, wrong = crate_of(edit), set(), []
    where = f"{os.path.basename(crate)}/{label_of(edit)}"
    faults, named = read_edit(edit)
    if not named:
        return 1, []
    log = read_log(log_of(root, edit))
    if not log:
        return len(faults), [(None, f"{where}: there is no log of a refusal")]
    for fault in faults:
        alone, before = read_log(log_of(root, edit, fault)), set(taken)
        said = wrong_with(fault, crate, log, taken)
        if said and alone:
            said = wrong_with(fault, crate, alone, before)
        if said:
            wrong.append((fault, f"{where}, {fault.name}: {said}"))
    return len(faults), wrong


def below(root):
    """The crates that each crate of crates.txt names, and those that these name."""
    names = {line.split()[0].rstrip(":"): line.partition(":")[2].split() for line in text(f"{root}/crates.txt").splitlines() if ":" in line.partition("#")[0]}

    def whole(crate):
        found = {crate}
        for other in names[crate]:
            if other in names:
                found |= whole(other)
        return found

    return names, {crate: whole(crate) for crate in names}


def link_or_copy(one, other):
    """As rt does it: a check replaces a proof that was kept, and a library, and writes into neither."""
    try:
        if "/out/rlib/" in one or one.endswith(".oantt"):
            return os.link(one, other)
    except OSError:
        pass
    return shutil.copy2(one, other)


def copied(root, crate, to):
    """Puts a crate and those below it into a folder, with the libraries that were built and the crate's own kept proofs."""
    names, wholes = below(root)
    with open(f"{to}/crates.txt", "w", encoding="utf-8") as file:
        file.writelines(f"{each}: {' '.join(names[each])}\n" for each in names if each in wholes[crate])
    if os.path.exists(f"{root}/HANDLES"):
        shutil.copy2(f"{root}/HANDLES", to)
    for each in wholes[crate]:
        for part in ("src", "specs", "proofs", "out/rlib") + (("out/incremental",) if each == crate else ()):
            if os.path.isdir(f"{root}/crates/{each}/{part}"):
                shutil.copytree(f"{root}/crates/{each}/{part}", f"{to}/crates/{each}/{part}", copy_function=link_or_copy)


def edited(crate, faults):
    """The texts of a crate's files with all faults in them, or None where some text is not once in its file."""
    texts = {}
    for fault in faults:
        for file, old, new in fault.pairs:
            if not os.path.isfile(f"{crate}/{file}"):
                return None
            said = texts.setdefault(file, text(f"{crate}/{file}"))
            if not old or said.count(old) != 1:
                return None
            texts[file] = said.replace(old, new)
    return texts


NAME = r"[A-Za-z][\w']*(?:-[\w']+)+"


def tested(name):
    """A name up to its last word that says that a test or an arm follows, and the text of that; None where it has no such word."""
    match = re.fullmatch(r"((?:.*-)?(?i:then|else|if|in|not)-)(.+)", name)
    return match and match.groups()


def between(old, new):
    """The texts of the tests in two names that are alike but for them; None where they are not."""
    one, other = tested(old), tested(new)
    return (one[1], other[1]) if one and other and one[0] == other[0] and one != other else None


def renamed(crate, fault, log):
    """A fault's function, and which texts of its tests and arms are put for others in the names of its proof, since they became others by the fault.

    Where names of two arms went, and each is like a name of the other, they have changed places. Else a pair stands for all names that went and are like one that
    the proof does not cite. None where no pair, or more than one, would do."""
    function = function_of(crate, *fault.pairs[0][:2]) if fault.pairs else None
    cited = "".join(text(path) for path in glob.glob(f"{crate}/proofs/{function}/*.antt")) if function else ""
    gone = {name for said in errors(log, crate, function).get("unfit", []) for name in re.findall(r"has no (?:field )?`([^`]+)`", said)} if function else set()
    there = {name.partition("-clause-")[0] for name in re.findall(rf"[`.]({NAME})", log)} - gone
    fits = both = None
    for old in gone:
        pairs = {new: between(old, new) for new in there if between(old, new)}
        fresh = {pair for new, pair in pairs.items() if not re.search(rf"(?<![\w'-]){re.escape(new)}(?![\w'-])", cited)}
        if fresh:
            fits = fresh if fits is None else fits & fresh
        sides = {frozenset(pair) for pair in pairs.values()}
        both = sides if both is None else both & sides
    arms = {tested(name)[1] for name in gone if tested(name)}
    for one, other in map(sorted, both if both and len(both) == 1 else []):
        if {one, other} <= arms:
            return function, {one: other, other: one}
    return (function, dict(fits)) if fits and len(fits) == 1 else None


def brought(said, texts):
    """A proof in whose names the texts of some tests or arms are put for others."""
    def name(match):
        words = re.match(r"(?:.*?-)??(?i:then|else|if|in|not)-", match[0])
        start = words.end() if words else len(match[0])
        return match[0][:start] + re.sub(r"(?<![^-])(?:" + "|".join(map(re.escape, texts)) + r")(?![^-])", lambda it: texts[it[0]], match[0][start:])
    return re.sub(rf"(?<![\w'-]){NAME}", name, said)


def run(root, crate, faults, room, log, names=None):
    """Makes the log of a run in a copy of the tree; where rt does not refuse it there is none. names: a function, and what is put into the names of its proof."""
    texts = edited(f"{root}/crates/{crate}", faults)
    if texts and names:
        for path in glob.glob(f"{root}/crates/{crate}/proofs/{names[0]}/*.antt"):
            texts[os.path.relpath(path, f"{root}/crates/{crate}")] = brought(text(path), names[1])
    if os.path.exists(log):
        os.remove(log)
    for file, said in (texts or {}).items():
        with open(f"{room}/crates/{crate}/{file}", "w", encoding="utf-8") as out:
            out.write(said)
    ran = subprocess.run(["rt", "check"], cwd=f"{room}/crates/{crate}", stdin=subprocess.DEVNULL, stdout=subprocess.PIPE, stderr=subprocess.STDOUT) if texts else None
    if ran and ran.returncode == 1:
        os.makedirs(os.path.dirname(log), exist_ok=True)
        with open(log, "wb") as out:
            if names:
                out.write("".join(f"faults.py: {old} became {new} in the names of proofs/{names[0]}\n" for old, new in names[1].items()).encode())
            out.write(ran.stdout)
    for file in texts or {}:
        shutil.copyfile(f"{root}/crates/{crate}/{file}", f"{room}/crates/{crate}/{file}")


def run_all(root, crate, edits):
    """Makes the logs of a crate's edits, one after another over the same kept proofs."""
    with tempfile.TemporaryDirectory(prefix="faults-") as room:
        copied(root, crate, room)
        for edit in edits:
            shutil.rmtree(os.path.dirname(log_of(root, edit)), ignore_errors=True)
            run(root, crate, read_edit(edit)[0], room, log_of(root, edit))
            for fault, _ in wrong_in(root, edit)[1]:
                if fault:
                    log = log_of(root, edit, fault)
                    run(root, crate, [fault], room, log)
                    names = renamed(f"{root}/crates/{crate}", fault, read_log(log))
                    if names and any(each.name == fault.name for each, _ in wrong_in(root, edit)[1] if each):
                        run(root, crate, [fault], room, log, names)


def main(root, crates):
    edits = sorted(edit for crate in crates or ["*"] for edit in glob.glob(f"{root}/crates/{crate}/must-fail/*.edit"))
    named = {}
    for edit in edits:
        if read_edit(edit)[1]:
            named.setdefault(os.path.basename(crate_of(edit)), []).append(edit)
    with concurrent.futures.ThreadPoolExecutor(max(1, len(os.sched_getaffinity(0)) // 2)) as pool:
        list(pool.map(lambda crate: run_all(root, crate, named[crate]), named))
    count, wrong = 0, []
    for edit in edits:
        faults, said = wrong_in(root, edit)
        count += faults
        wrong += [each for _, each in said]
    for said in wrong:
        print(said)
    print(f"faults: {count} faults in {len(edits)} runs, {len(wrong)} wrong")
    return 1 if wrong else 0


if __name__ == "__main__":
    sys.exit(main(os.path.abspath(ROOT), sys.argv[1:]))
