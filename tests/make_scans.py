#!/usr/bin/env python3
"""Makes the folders of tests/scans: an area, the words that examples/scanner.c is started with, what it must print and its exit status.

What is expected comes from model.py, the words from the page at the head of examples/scanner.c; neither knows anything of what the program prints.
Run it at the repository's root; it writes the same bytes each time.
"""
import os
import shutil

import layout
from layout import bent
from model import Measures, check, get, read_index

ROOT = os.path.join(os.path.dirname(os.path.abspath(__file__)), "..")
HERE = os.path.join(ROOT, "tests", "scans")
DEPOT = Measures(512, 0, 8, 60)
LONGEST = 32761
FOLDER = object()   # in place of an area: a folder of that name, with a file in it

with open(os.path.join(ROOT, "samples", "register", "area.ci"), "rb") as sample:
    SAMPLE = sample.read()


# ---- what is printed

def shown(content):
    """Bytes as text where all of them are printable and the text is not taken for digits, else as digits."""
    if content and all(0x20 <= byte <= 0x7E for byte in content) and not content.startswith(b"x:"):
        return content.decode("ascii")
    return "x:" + content.hex().upper()


def refusal(answer, m):
    if answer.number == 2:
        place = answer.values[0]
        return "damaged at place %d, %s" % (place, "data interval %d" % (place - 1) if place else "the index record")
    return {1: "wrong measures, or the area has a wrong length",
            3: "wrong length, a key has %d bytes" % m.key,
            5: "no certificate has this key",
            8: "the output is too short, the record needs %d bytes" % (answer.values or (0,))[0]}[answer.number]


# ---- the cases

def path_of(name, area):
    """The area's file, from the repository's root."""
    return b"samples/register/area.ci" if area == SAMPLE else b"tests/scans/%s/area.ci" % name.encode()


def case(name, area, words, stdout="", status=2, stderr=None):
    """words: one to a line, as the program is given them. Where no stderr is given, one is expected exactly where the status is 2."""
    files = {"area.ci": None if area == SAMPLE else area, "words": b"".join(word + b"\n" for word in words), "expected/stdout": stdout.encode(),
             "expected/status": b"%d\n" % status, "expected/stderr": stderr}
    for file, content in files.items():
        path = os.path.join(HERE, name, file)
        if content is FOLDER:
            path, content = os.path.join(path, "inside"), b"a file\n"
        if content is not None:
            os.makedirs(os.path.dirname(path), exist_ok=True)
            with open(path, "wb") as out:
                out.write(content)


def options(m):
    """The words for the measures that are not the depot's."""
    out = []
    for name, value, usual in zip(("size", "offset", "key", "most"), m, DEPOT):
        if value != usual:
            out += [b"--" + name.encode(), b"%d" % value]
    return out


def looked_up(name, area, keys, m=DEPOT, out=LONGEST):
    """Keys are bytes, or a pair: how the key is written, and its bytes."""
    words, text, all_found = options(m), "", True
    if out != LONGEST:
        words += [b"--out", b"%d" % out]
    words.append(path_of(name, area))
    for key in keys:
        written, key = key if isinstance(key, tuple) else (key, key)
        answer, output = get(area, m, key, bytes(out))
        told = shown(output[:answer.values[0]]) if answer.number == 0 else refusal(answer, m)
        text += "%s %d %s\n" % (shown(key), answer.number, told)
        words.append(written)
        all_found &= answer.number == 0
    case(name, area, words, text, 0 if all_found else 1)


def checked(name, area, m=DEPOT):
    answer = check(area, m)
    told = "sound, records %d free %d" % answer.values if answer.number == 0 else refusal(answer, m)
    case(name, area, options(m) + [b"--check", path_of(name, area)], "%d %s\n" % (answer.number, told), 1 if answer.number else 0)


def misused(name, *words):
    case(name, SAMPLE, words)


AREA = path_of("", SAMPLE)


# The sample register has its records in data intervals 0 to 6, and 7 to 13 are free. These keys stand in the first, a middle and the last.
FIRST, MIDDLE, LAST, NOWHERE = b"HA001000", b"HA002073", b"KO002443", b"HA001001"


def sound():
    with open(os.path.join(ROOT, "samples", "certificates.txt"), "rb") as lines:
        every = [line[:8] for line in lines if line[:2] in (b"HA", b"KO")]
    looked_up("found", SAMPLE, [FIRST, MIDDLE, LAST])
    looked_up("found_every_one", SAMPLE, every)
    looked_up("found_by_digits", SAMPLE, [(b"x:4841303031303030", FIRST), (b"x:4b4F303032343433", LAST)])
    looked_up("absent", SAMPLE, [NOWHERE, b"        ", b"zzzzzzzz"])
    looked_up("absent_among_found", SAMPLE, [FIRST, NOWHERE, LAST])
    looked_up("key_too_short", SAMPLE, [FIRST[:7], b""])
    looked_up("key_too_long", SAMPLE, [FIRST + b"0", FIRST])
    looked_up("output_too_short", SAMPLE, [FIRST, b"HA001222"], out=14)
    looked_up("output_of_no_byte", SAMPLE, [FIRST, NOWHERE], out=0)
    looked_up("output_just_long_enough", SAMPLE, [FIRST], out=41)
    checked("check_sound", SAMPLE)


def others():
    """Other measures, and bytes that are not printable."""
    m = Measures(1024, 3, 4, 300)
    records = [b"\0\1\2AAAA\xff", b"abcBBBB", b"x:1CCCC", b"~ ~\x7f\x80\xfe\xff" + bytes(293)]
    area = layout.area_of(1024, [(b"C", 1), (b"", 0)], [2], {1: records[:3], 0: records[3:]})
    looked_up("other_measures", area, [b"AAAA", b"BBBB", b"CCCC", (b"x:7F80feff", b"\x7f\x80\xfe\xff"), (b"x:783a3031", b"x:01")], m)
    checked("check_other_measures", area, m)


def wrong():
    for name, m in (("size", DEPOT._replace(size=1024)), ("size_zero", DEPOT._replace(size=0)), ("offset", DEPOT._replace(offset=53)),
                    ("key", DEPOT._replace(key=0)), ("most", DEPOT._replace(most=506)), ("largest", DEPOT._replace(offset=2 ** 64 - 1))):
        looked_up("wrong_" + name, SAMPLE, [FIRST], m)
    looked_up("area_cut_short", SAMPLE[:-1], [FIRST])
    looked_up("area_empty", b"", [FIRST, b""])
    checked("check_area_empty", b"")
    checked("check_wrong_most", SAMPLE, DEPOT._replace(most=506))


def damaged():
    there = read_index(SAMPLE[:512], DEPOT, 14)
    index = bent(SAMPLE, 16, b"\2")
    first = bent(SAMPLE, 2 * 512 - 2, b"\x80")
    other = bent(SAMPLE, 4 * 512, b"Z")
    free = SAMPLE[:-512] + layout.data_interval([b"HA001002"], 512)
    looked_up("damaged_index", index, [FIRST, NOWHERE, FIRST[:7]])
    looked_up("damaged_elsewhere", other, [FIRST, LAST, NOWHERE])
    looked_up("damaged_free_interval", free, [FIRST, MIDDLE, LAST])
    looked_up("damaged_interval_of_the_key", first, [FIRST, NOWHERE, LAST])
    looked_up("damaged_interval_wrong_length", first, [FIRST[:7], FIRST + b"0"])
    looked_up("damaged_interval_short_output", first, [FIRST, LAST], out=8)
    looked_up("old_form", layout.old_index_interval(there.entries, there.free, 512) + SAMPLE[512:], [FIRST])
    checked("check_damaged_index", index)
    checked("check_damaged_interval", other)
    checked("check_damaged_free_interval", free)
    checked("check_lowest_of_two", bent(other, 2 * 512 - 2, b"\x80"))


def misuse():
    misused("usage_nothing")
    misused("usage_no_key", AREA)
    misused("usage_check_with_key", b"--check", AREA, FIRST)
    misused("usage_check_nothing", b"--check")
    misused("usage_unknown_option", b"--sise", b"512", AREA, FIRST)
    misused("usage_no_number", b"--size")
    misused("usage_not_a_number", b"--size", b"512b", AREA, FIRST)
    misused("usage_negative", b"--size", b"-512", AREA, FIRST)
    misused("usage_number_too_large", b"--size", b"18446744073709551616", AREA, FIRST)
    misused("usage_output_too_long", b"--out", b"32762", AREA, FIRST)
    misused("usage_odd_digits", AREA, FIRST, b"x:484")
    misused("usage_no_digits", AREA, FIRST, b"x:4g")
    for name, area, said in (("area_missing", None, b"No such file or directory"), ("area_is_a_folder", FOLDER, b"Is a directory")):
        case(name, area, [path_of(name, area), FIRST], stderr=b"scanner: %s: %s\n" % (path_of(name, area), said))


def main():
    shutil.rmtree(HERE, ignore_errors=True)
    sound()
    others()
    wrong()
    damaged()
    misuse()


if __name__ == "__main__":
    main()
