#!/usr/bin/env python3
"""Makes the folders of tests/lists, an area and what the program `list` must print of it, plain and as text, and the data of crate list.

What is expected comes from model.py, which follows the papers and knows nothing of the program. It writes the same bytes each time.
"""
import os
import shutil

import layout
import model
from layout import bent
from make_cases import DEPOT, FOLDER, SIZE, area_of, data_interval, empty, full, record, scattered, three

ROOT = os.path.dirname(os.path.dirname(os.path.abspath(__file__)))
HERE = os.path.join(ROOT, "tests", "lists")


def listed(area, with_text=False):
    """What the program prints of an area."""
    came = model.walk(area, DEPOT, True)
    if isinstance(came, model.Answer):
        return "area%s\n" % "".join(" %d" % each for each in (came.number,) + came.values)
    lines = ["%d %s%s\n" % (place, digits(each), " " + shown(each) if with_text else "") for place, (_, each) in enumerate(came, 1)]
    return "".join(lines) + "records %d\n" % len(came)


def digits(each):
    return DEPOT.key_of(each).hex().upper() + " " + each.hex().upper()


def shown(each):
    """Printable ASCII as it is, a dot for any other byte."""
    return "".join(chr(byte) if 32 <= byte <= 126 else "." for byte in each)


def stored(path, content):
    os.makedirs(os.path.dirname(path), exist_ok=True)
    with open(path, "wb") as out:
        out.write(content)


def case(name, area, long=None):
    """An area as it lies in its file; where that cannot be read, or is longer than the program reads, `long` is what it comes to."""
    folder = os.path.join(HERE, name)
    if area is FOLDER:
        stored(os.path.join(folder, "area.ci", "inside"), b"a file\n")
    elif area is not None:
        stored(os.path.join(folder, "area.ci"), area)
    for file, with_text in (("stdout", False), ("text", True)):
        stored(os.path.join(folder, "expected", file), listed(area if long is None else long, with_text).encode("ascii"))


# ---- areas that are listed

def strange():
    """Records of every byte, some that end in blanks, keys at both ends of their order."""
    every = bytes(range(256))
    parts = [every[at:at + 48] for at in range(0, 256, 48)]
    return area_of([(b"", 0)], [1], {0: sorted([bytes(8), b"\xff" * 8 + b"   "] + [b"K%07d" % i + part for i, part in enumerate(parts)])})


def emptied(*there):
    """Nine intervals in use, of which only these have records."""
    entries = [(bytes([65 + i]), 8 - i) for i in range(8)] + [(b"", 0)]
    return area_of(entries, [9], {8 - i: [record(b"%c000000%d" % (65 + i, j), 8 + i) for j in range(3)] for i in there})


def full_register():
    """As many records as inserts bring into 127 intervals, under scattered keys, until three in a row found no room."""
    area, refused, i = area_of([(b"", 0)], range(126, 0, -1), {}), 0, 0
    while refused < 3:
        i += 1
        answer, area = model.insert(area, DEPOT, record(scattered(i), 60 - i % 2))
        refused = refused + 1 if answer.number else 0
    return area


def sound():
    case("three", three())
    case("other_sections", three(sections=[1, 2]))
    case("empty", empty())
    case("empty_many", emptied())
    case("first_alone", emptied(0))
    case("last_alone", emptied(8))
    case("some_emptied", emptied(1, 4, 7))
    case("some_filled", emptied(0, 2, 3, 8))
    case("one_interval_full", full())
    case("one_record", area_of([(b"", 0)], [], {0: [record(b"A0000001", 60)]}))
    case("every_byte", strange())
    case("groups_apart", bent(empty(), SIZE, layout.data_interval([record(b"A000000%d" % i, 9) for i in range(5)], SIZE, [(9, 1), (9, 2), (9, 1), (9, 1)], 0xEE)))
    case("longest", area_of([(b"", 126)], range(126), {126: [record(b"A000000%d" % i, 60) for i in range(8)]}))
    case("full_register", full_register())
    with open(os.path.join(ROOT, "samples", "register", "area.ci"), "rb") as file:
        case("sample", file.read())


def refused():
    area, longest = three(), area_of([(b"", 0)], range(1, 127), {})
    case("area_missing", None, b"")
    case("area_is_a_folder", FOLDER, b"")
    case("area_empty", b"")
    case("area_one_byte_short", area[:-1])
    case("area_one_byte_more", area + b"\0")
    case("area_65537", longest + b"\0")
    case("area_too_long", longest + data_interval([]), longest + b"\0")
    case("unsound_index", bent(area, 16, b"\2"))
    case("unsound_first", bent(area, 1022, b"\x80"))
    case("unsound_middle", bent(area, 1024, b"C4999999"))
    case("unsound_free_not_empty", area[:2048] + data_interval([record(b"C4000000", 9)]))
    case("unsound_without_sections", layout.old_index_interval([(b"B", 0), (b"C5", 2), (b"", 1)], [3], SIZE) + area[SIZE:])


def main():
    shutil.rmtree(HERE, ignore_errors=True)
    sound()
    refused()
    crate = os.path.join(ROOT, "crates", "list")
    stored(os.path.join(crate, "data", "area.ci"), emptied(0, 2, 3, 8))
    stored(os.path.join(crate, "stdout"), listed(emptied(0, 2, 3, 8)).encode("ascii"))


if __name__ == "__main__":
    main()
