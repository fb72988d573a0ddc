#!/usr/bin/env python3
"""Tries faults.py on a made-up crate: what is told, and all that must not pass.

Each case has an edit, the log of its run (None: there is none), what faults.py must say of them,
None where nothing is wrong, and the logs of faults that were run alone. Prints each case that goes
otherwise, then `faults_test: N cases, M wrong`.
"""
import os
import sys
import tempfile

from faults import brought, edited, read_edit, renamed, wrong_in

SOURCE = """// The lower of two.
pub fn low(a: usize, b: usize) -> usize
    ensures { result ≡ min a b }
{
    if a < b { a } else { b }
}

// Twice.
pub(crate) fn twice(a: usize) -> usize {
    low(a, a) + a
}

pub fn one() -> usize
    ensures { result ≡ 1 }
{
    1
}
"""
LOW = "fault: low\nfile: src/lib.rt\nold:     if a < b { a }\nnew:     if b < a { a }\n"
TWICE = "fault: twice\nfile: src/lib.rt\nold:     low(a, a) + a\nnew:     low(a, a) + 0\n"
ONE = "fault: one\nfile: src/lib.rt\nold:     1\nnew:     2\n"
SECOND = "fault: second\nfile: src/lib.rt\nold: else { b }\nnew: else { a }\n"
END = "logic=not-proved\n"
RT = "rt: rt lemma WORD.. finds a lemma by guessed names or words of the goal\n"


def error(function, message, file="Answers"):
    return f"./proofs/{function}/{file}.antt:7:5: error: `returns`: {message}\n"


def note(line, what="that what the function ensures holds when it returns (`returns`)"):
    return f"note: src/lib.rt:{line}:5: it is not proved {what}; the facts known there allow values at which this goal is false\n"


def fn(name, said):
    return f"fn toy::{name}: {said}\n"


FALSE_LOW = error("low", "`omega`: the goal does not follow from what it read. All of that holds, and the goal fails, at `a` = 1") + fn("low", "not proved")
FALSE_TWICE = error("twice", "computed as far as they go, the two types differ only where one has `c.args.a` (expected) and the other has `0` (found)")
LATER_TWICE = error("twice", "`low-spec` was not admitted, so this cannot be checked")
REJECTED_LOW = error("low", "2 declarations that depend on `most-is`, which was rejected, were not checked: returns-then-a-b, returns")
WAITS_TWICE = fn("twice", "not proved; it calls `toy::low`, which is not proved")
NAME_TWICE = error("twice", "record `Rattle.toy.proofs.twice.Lts.View.In-After-low-q` has no field `low-p` (nearest: .low-q)")
SHAPE_TWICE = error("twice", "expected type `Rattle.toy.proofs.twice.Lts.View.In-if-1`, but this has type `Rattle.toy.proofs.twice.Lts.View.In-if-2`")
GONE_TWICE = error("twice", "`toy-spec` is not in scope: this file brings it in from no module", "Invariants")
UNKNOWN_TWICE = error("twice", "a message that nobody has seen", "Proof")
BARE_ONE = fn("one", "no proof: expected answers in ./proofs/one/Answers.antt; `search` did not prove `returns`")
BOTH_ONE = fn("one", "no proof: expected answers in ./proofs/one/Answers.antt; `search` did not prove `returns`; it calls `toy::low`, which is not proved")
LATER_ONE = fn("one", "no proof: it calls `toy::low`, which is not proved")
MEASURE_ONE = fn("one", "no proof: expected a measure in ./proofs/one/Invariants.antt")
NOTHING, UNFIT, ELSEWHERE = "nothing is false", "does not fit", "not stand in the body"

CASES = [
    ("each told by its own function", LOW + TWICE + ONE, FALSE_LOW + FALSE_TWICE + BARE_ONE + END, None),
    ("an error that comes of another beside a fact", LOW + TWICE, FALSE_LOW + LATER_TWICE + FALSE_TWICE + WAITS_TWICE + END, None),
    ("a goal beside a callee that is not proved", LOW + ONE, FALSE_LOW + BOTH_ONE + END, None),
    ("a goal told by its place alone", LOW + TWICE, FALSE_LOW + note(10, "that the sum fits (`overflow_add-result`)") + fn("twice", "not proved") + END, None),
    ("a goal at the head of its function", LOW + ONE, FALSE_LOW + note(13) + fn("one", "not proved") + END, None),
    ("a goal of the function before it", LOW + ONE, FALSE_LOW + note(10) + fn("one", "not proved") + END, NOTHING),
    ("a goal of the function behind it", LOW + TWICE, FALSE_LOW + note(12) + fn("twice", "not proved") + END, NOTHING),
    ("what rt says behind the last line", LOW, FALSE_LOW + END + RT, None),
    ("a missing log", LOW + TWICE, None, "no log"),
    ("a log of no refusal", LOW + TWICE, FALSE_LOW + FALSE_TWICE + "logic=proved functions=3\n", "no log"),
    ("a log of a text that was not read", LOW + TWICE, "error[E0425]: not in scope\n", "no log"),
    ("what comes of a fact that was rejected", LOW, FALSE_LOW + REJECTED_LOW + END, None),
    ("two faults in one function", LOW + SECOND, FALSE_LOW + END, "another fault"),
    ("no edit", LOW + TWICE.replace("+ 0", "+ a"), FALSE_LOW + FALSE_TWICE + END, "changes nothing"),
    ("a name without an edit", LOW + "fault: none\n", FALSE_LOW + END, "changes nothing"),
    ("a harmless change among faults", LOW + TWICE, FALSE_LOW + fn("twice", "proved") + END, NOTHING),
    ("a harmless change in a caller", LOW + TWICE, FALSE_LOW + LATER_TWICE + WAITS_TWICE + END, NOTHING),
    ("a harmless change without a proof file", LOW + ONE, FALSE_LOW + LATER_ONE + END, NOTHING),
    ("a name that went", LOW + TWICE, FALSE_LOW + FALSE_TWICE + NAME_TWICE + END, UNFIT),
    ("a place that went", LOW + TWICE, FALSE_LOW + SHAPE_TWICE + END, UNFIT),
    ("a proof that does not fit", LOW + TWICE, FALSE_LOW + FALSE_TWICE + GONE_TWICE + END, UNFIT),
    ("an unknown message", LOW + TWICE, FALSE_LOW + FALSE_TWICE + UNKNOWN_TWICE + END, UNFIT),
    ("a loop whose measure is sought", LOW + ONE, FALSE_LOW + MEASURE_ONE + END, UNFIT),
    ("a fault in a contract", LOW + ONE.replace(" 1", " ensures { result ≡ 1"), FALSE_LOW + BARE_ONE + END, ELSEWHERE),
    ("a fault in a definition", LOW + TWICE.replace("src/lib.rt", "specs/Toy.antt"), FALSE_LOW + FALSE_TWICE + END, ELSEWHERE),
    ("a fault in two functions", LOW + ONE.replace("fault: one\n", ""), FALSE_LOW + BARE_ONE + END, ELSEWHERE),
    ("told alone", LOW + TWICE, FALSE_LOW + WAITS_TWICE + END, None, {"twice": FALSE_TWICE + END}),
    ("not told alone", LOW + TWICE, FALSE_LOW + WAITS_TWICE + END, NOTHING, {"twice": fn("twice", "proved") + FALSE_LOW + END}),
    ("unfit alone", LOW + TWICE, FALSE_LOW + WAITS_TWICE + END, UNFIT, {"twice": NAME_TWICE + END}),
    ("not refused alone", LOW + TWICE, FALSE_LOW + WAITS_TWICE + END, NOTHING, {"twice": FALSE_TWICE + "logic=proved\n"}),
    ("two faults in one function, alone", LOW + SECOND, FALSE_LOW + END, "another fault", {"second": FALSE_LOW + END}),
    ("told alone, and no log of all", LOW + TWICE, None, "no log", {"low": FALSE_LOW + END, "twice": FALSE_TWICE + END}),
    ("a single edit, which rt ci judges", LOW.replace("fault: low\n", ""), None, None),
]


def write(path, said):
    os.makedirs(os.path.dirname(path), exist_ok=True)
    with open(path, "w", encoding="utf-8") as file:
        file.write(said)


def plant(root, edit):
    """A tree that has nothing but a crate with an edit; where the edit is."""
    write(f"{root}/crates/toy/src/lib.rt", SOURCE)
    write(f"{root}/crates/toy/must-fail/bodies.edit", edit)
    return f"{root}/crates/toy/must-fail/bodies.edit"


def said_of(edit, log, alone):
    """What faults.py says of an edit and the logs of its runs."""
    with tempfile.TemporaryDirectory() as root:
        at = plant(root, edit)
        for place, said in [("", log)] + [(f"/{name}", said) for name, said in alone.items()]:
            if said is not None:
                write(f"{root}/target/must-fail/toy/bodies{place}/.log", "\n" + said)
        return [said for _, said in wrong_in(root, at)[1]]


def texts_of(edit):
    """The texts that are tried for an edit."""
    with tempfile.TemporaryDirectory() as root:
        return edited(f"{root}/crates/toy", read_edit(plant(root, edit))[0])


def renaming(said, cited):
    """What is put into the names of a proof that cites some and whose log says that some went."""
    with tempfile.TemporaryDirectory() as root:
        at = plant(root, LOW)
        write(f"{root}/crates/toy/proofs/low/Answers.antt", cited)
        return renamed(f"{root}/crates/toy", read_edit(at)[0][0], "\n" + said + END)


wrong = 0
for name, edit, log, expected, *alone in CASES:
    said = said_of(edit, log, *alone or [{}])
    if said if expected is None else len(said) != 1 or expected not in said[0]:
        wrong += 1
        print(f"{name}: {said}, where it must be {expected}")
TEXTS = [
    ("both faults", LOW + TWICE, {"src/lib.rt": SOURCE.replace("if a < b { a }", "if b < a { a }").replace("+ a", "+ 0")}),
    ("a text that is not there", LOW + TWICE.replace("old:     low", "old:     high"), None),
    ("a text that is there twice", LOW.replace("    if a < b { a }", "usize"), None),
    ("no such file", LOW.replace("lib.rt", "low.rt"), None),
]
for name, edit, expected in TEXTS:
    if texts_of(edit) != expected:
        wrong += 1
        print(f"{name}: {texts_of(edit)}, where it must be {expected}")
GOAL = error("low", "`goal.returns-then-a-lt2`: module `Rattle.toy.proofs.low.Goals` has no `returns-then-a-lt2` that can be named from here")
FIELD = error("low", "record `Rattle.toy.proofs.low.Lts.Else1` has no field `if-a-lt2` (nearest: .if-a-lt3, .if-a-lt9)")
ASKS = "help: `Goals` has no `returns-then-a-lt2`; rattle asks for `returns-then-a-lt9`, `returns-then-a-lt3`, `returns`\n"
ARMS = (error("low", "`goal.returns-in-Same`: module `Rattle.toy.proofs.low.Goals` has no `returns-in-Same` (names in it that begin alike: `returns-in-Less`, `returns-in-Greater`)")
        + error("low", "record `Rattle.toy.proofs.low.Lts.In-In-Same` has no field `in-Less` (nearest: .in-Run, .in-Same)"))
NAMES = [
    ("a test that became another", GOAL + FIELD + ASKS, "returns c = c.if-a-lt9", ("low", {"a-lt2": "a-lt3"})),
    ("two that it may have become", GOAL + FIELD + ASKS, "returns c = c.args", None),
    ("both are cited", GOAL + FIELD + ASKS, "pub returns-then-a-lt9 : c.if-a-lt3", None),
    ("none is like it", GOAL, "", None),
    ("not the same for all that went", GOAL + FIELD.replace("if-a-lt3", "if-b-lt3") + ASKS, "c.if-a-lt9", None),
    ("one that is like none, beside one that is", GOAL + FIELD.replace("if-a-lt2", "call-of-if-b") + ASKS, "pub returns-then-a-lt9 c", ("low", {"a-lt2": "a-lt3"})),
    ("a test that several clauses follow", GOAL + ASKS.replace("`returns-then-a-lt9`, `returns-then-a-lt3`", "`returns-then-a-lt9-clause-low`, `returns-then-a-lt9-clause-is`"), "returns c", ("low", {"a-lt2": "a-lt9"})),
    ("two arms that changed places", ARMS, "pub returns-in-Same c = c.in-Same.in-Less", ("low", {"Less": "Same", "Same": "Less"})),
    ("an arm whose name went", ARMS.split("\n")[0] + "\n", "pub returns-in-Same c = c.in-Run.in-Greater", None),
    ("a name that went elsewhere", GOAL.replace("/low/", "/twice/") + ASKS, "", None),
    ("nothing went", FALSE_LOW + ASKS, "", None),
]
for name, said, cited, expected in NAMES:
    if renaming(said, cited) != expected:
        wrong += 1
        print(f"{name}: {renaming(said, cited)}, where it must be {expected}")
PROOF = "pub returns-then-bytes-end c = c.if-bytes-end.far-end, c.overflow_mul-end\nuse Lts.Then-bytes-end-2 Lts.In-In-Same c.in-Less.before-Less\n"
BROUGHT = [
    ("a test's names, and no others", {"bytes-end": "bytes-at"}, PROOF.replace("bytes-end c", "bytes-at c").replace("if-bytes-end.", "if-bytes-at.").replace("Then-bytes-end-", "Then-bytes-at-")),
    ("two arms", {"Less": "Same", "Same": "Less"}, PROOF.replace("In-In-Same c.in-Less", "In-In-Less c.in-Same")),
]
for name, parts, expected in BROUGHT:
    if brought(PROOF, parts) != expected:
        wrong += 1
        print(f"{name}: {brought(PROOF, parts)}, where it must be {expected}")
print(f"faults_test: {len(NAMES) + len(CASES) + len(TEXTS) + len(BROUGHT)} cases, {wrong} wrong")
sys.exit(1 if wrong else 0)
