#!/usr/bin/env python3
"""Makes the folders of tests/depot: an area, requests, and what the depot must print and leave in area.out.

What is expected comes from model.py, which follows the papers and knows nothing of the program. Run it at the
repository's root; it writes the same bytes each time.
"""
import os
import shutil

import layout
from layout import bent, kept_bytes
from layout import request_line as request
from model import Measures, asked, check

SIZE, KEY, MOST = 512, 8, 60
DEPOT = Measures(SIZE, 0, KEY, MOST)


def area_of(entries, free, data, kept=(0, 0), sections=None):
    """An area as the depot lends it; kept are base RBA and horizontal pointer."""
    return layout.area_of(SIZE, entries, free, data, kept_bytes(*kept), sections=sections)


def data_interval(records):
    return layout.data_interval(records, SIZE)


# ---- the depot's day

def serve(area, line):
    """The text after the place, a number, and a found record in capitals; and the area afterwards."""
    letter, length = line[:1], line[1] if len(line) > 1 else 0
    if len(line) != 64 or letter not in (b"G", b"I", b"U", b"E") or length > 62:
        return "10", area
    came = asked(letter.decode(), area, DEPOT, line[2:2 + length], out=bytes(MOST))
    if letter == b"G" and came.answer.number == 0:
        return "0 " + came.out[:came.answer.values[0]].hex().upper(), area
    return "%d" % came.answer.number, came.area


def day(area, requests):
    """What the depot's program prints, and the area afterwards."""
    text = ""
    for place, at in enumerate(range(0, len(requests), 64), 1):
        told, area = serve(area, requests[at:at + 64])
        text += "%d %s\n" % (place, told)
    return text + "records %d free %d\n" % check(area, DEPOT).values, area


# ---- the cases

HERE = os.path.join(os.path.dirname(os.path.abspath(__file__)), "depot")


FOLDER = object()


def case(name, stdout, area=None, requests=None, after=None, before=None, stderr=None):
    """after: the area.out that is expected, None where none may be there; before: one that lay there already. FOLDER in
    place of bytes makes a folder of that name, with a file in it."""
    folder = os.path.join(HERE, name)
    files = {"area.ci": area, "requests.rec": requests, "area.out": before, "expected/stdout": stdout.encode(),
             "expected/area.out": after, "expected/stderr": stderr}
    for file, content in files.items():
        path = os.path.join(folder, file)
        if content is FOLDER:
            path, content = os.path.join(path, "inside"), b"a file\n"
        if content is not None:
            os.makedirs(os.path.dirname(path), exist_ok=True)
            with open(path, "wb") as out:
                out.write(content)


def served(name, area, requests, before=None, missing=False):
    """A case with a sound area: the model says what comes out."""
    text, after = day(area, requests)
    if missing:
        case(name, text, area, None, after, before, b"requests.rec: No such file or directory\n")
    else:
        case(name, text, area, requests, after, before)


def refused(name, text, area, before=None):
    requests = request(b"G", b"A0000001")
    case(name, text, area, requests, before, before)


def record(key, length, filler=b"k"):
    return key + filler * (length - KEY)


def empty(n=2):
    return area_of([(b"", 0)], range(1, n), {})


ENTRIES = [(b"B", 0), (b"C5", 2), (b"", 1)]


def three(kept=(0, 0), sections=None):
    """Three intervals with records, one of them not in the order of its number, and one free."""
    return area_of(ENTRIES, [3],
                   {0: [record(b"A0000001", 10), record(b"A0000002", 10), record(b"B0000001", 31)],
                    2: [record(b"C0000001", 20), record(b"C4999999", 8)],
                    1: [record(b"D0000001", 60), record(b"ZZZZZZZZ", 12)]}, kept, sections)


def full():
    """One used interval with no byte to spare, none free."""
    return area_of([(b"", 0)], [], {0: [record(b"A000000%d" % i, 60) for i in range(8)] + [record(b"A0000009", 19)]})


def areas():
    sound = three()
    longest = area_of([(b"", 0)], range(1, 127), {})
    refused("area_missing", "area 1\n", None)
    refused("area_empty", "area 1\n", b"")
    refused("area_no_data_interval", "area 1\n", sound[:512])
    refused("area_one_byte_short", "area 1\n", sound[:-1])
    refused("area_one_byte_more", "area 1\n", sound + b"\0")
    refused("area_too_long", "area 1\n", longest + data_interval([]))
    refused("area_65537", "area 1\n", longest + b"\0")
    refused("area_wrong_old_out", "area 1\n", b"", b"an older one")
    refused("unsound_index", "area 2 0\n", bent(sound, 16, b"\2"))
    refused("unsound_index_before_data", "area 2 0\n", bent(bent(sound, 16, b"\2"), 1022, b"\0\0"))
    refused("unsound_first", "area 2 1\n", bent(sound, 1022, b"\x80"))
    refused("unsound_middle", "area 2 2\n", bent(sound, 1024, b"C4999999"))
    refused("unsound_lowest_number", "area 2 2\n", bent(bent(sound, 1024, b"B"), 1536, b"B"))
    refused("unsound_last_used", "area 2 3\n", bent(sound, 1536, b"D"))
    refused("unsound_end_of_file", "area 2 4\n", bent(sound, 2556, bytes(4)))
    refused("unsound_free_not_empty", "area 2 4\n", sound[:2048] + data_interval([record(b"C4000000", 9)]))
    refused("unsound_old_out", "area 2 0\n", bent(sound, 0, b"\0"), b"an older one")
    refused("unsound_without_sections", "area 2 0\n", layout.old_index_interval(ENTRIES, [3], SIZE) + sound[SIZE:])
    served("area_longest", area_of([(b"", 0)], range(1, 127), {}), request(b"I", b"A0000001HK"))
    served("area_one_interval", area_of([(b"", 0)], [], {}), request(b"I", b"A0000001HK") + request(b"G", b"A0000001"))
    served("area_kept_bytes", three((0x00012000, 0xFFFFFFFF)), request(b"U", b"C0000001HK"))
    served("area_other_sections", three(sections=[1, 2]), request(b"G", b"C0000001")
           + b"".join(request(b"I", record(b"E000000%d" % i, 60)) for i in range(9)) + request(b"G", b"E0000008") + request(b"G", b"C4999999"))


def requests():
    get, new = request(b"G", b"A0000001"), request(b"I", b"A0000001HK")
    served("example", empty(), new + new + get + request(b"E", b"A0000002"))
    served("requests_missing", three(), b"", missing=True)
    served("requests_empty", three(), b"")
    served("requests_one_byte", three(), b"G")
    served("requests_short_last", three(), get + get[:63])
    served("requests_short_last_would_do", three(), get + get[:10])
    served("requests_bad_letters", three(), b"".join(request(bytes([c]), b"A0000001") for c in b"giueABDFHJTVZ \0\xff\xc7") + get)
    served("requests_lengths", three(), b"".join(request(letter, b"A0000001" + b"x" * 54, length) for letter in (b"G", b"I", b"U", b"E")
                                                 for length in (0, 1, 7, 9, 61, 62, 63, 64, 128, 255)) + get)
    served("requests_past_the_length", three(), request(b"G", b"A0000001", filling=255) + request(b"I", b"A0000003HK", filling=71)
           + request(b"G", b"A0000003", filling=1))
    served("requests_each_kind", three(), request(b"G", b"D0000001") + request(b"U", record(b"D0000001", 8)) + request(b"G", b"D0000001")
           + request(b"E", b"D0000001") + request(b"E", b"D0000001") + request(b"U", record(b"D0000001", 9))
           + request(b"I", record(b"B9999999", 60)) + request(b"G", b"B9999999") + request(b"G", b"C5000000"))
    served("requests_many", three(), (new + get + request(b"E", b"A0000001")) * 200)
    served("update_equal_bytes", three(), request(b"U", record(b"C0000001", 20)))
    served("erase_all_of_an_interval", three(), request(b"E", b"C0000001") + request(b"E", b"C4999999") + request(b"I", record(b"C3", 9)
           [:8] + b"x") + request(b"I", b"C3000000HK") + request(b"G", b"C3000000"))


def divisions():
    served("no_interval_left", full(), request(b"I", b"A0000008") + request(b"G", b"A0000001") + request(b"U", record(b"A0000009", 20))
           + request(b"E", b"A0000001") + request(b"I", b"A0000008"))
    nine = b"".join(request(b"I", record(b"A00000%02d" % i, 60)) for i in range(40))
    served("last_free_interval", empty(2), nine)
    served("divides_in_the_middle", empty(3), b"".join(request(b"I", record(b"A0000%03d" % (i * 37 % 101), 8 + i * 7 % 53)) for i in range(60)))
    served("divides_downwards", empty(9), b"".join(request(b"I", record(b"M%07d" % (9999999 - i * 77777), 60 - i % 3)) for i in range(70)))
    served("takes_the_rightmost_free", area_of([(b"", 2)], [4, 0, 3, 1], {}), nine)
    served("shorter_update_divides", shorter(), request(b"U", record(b"A0000004", 39)) + request(b"G", b"A0000004"))
    whole = area_of([(b"", 0)], range(1, 127), {})
    served("no_room_in_index", whole, b"".join(request(b"I", record(scattered(i), 60)) for i in range(1, 900)))
    served("old_longer_out", empty(), request(b"I", b"A0000001HK"), before=b"old" * 5000)
    served("old_shorter_out", empty(), request(b"I", b"A0000001HK"), before=b"old")


def failures():
    """Files that cannot be read or written: nothing is taken for an end, and nothing is half written."""
    sound, one = three(), request(b"G", b"C0000001")
    case("area_is_a_folder", "area 1\n", FOLDER, one)
    case("requests_are_a_folder", "", sound, FOLDER, stderr=b"requests.rec: Is a directory\n")
    case("requests_are_a_folder_old_out", "", sound, FOLDER, b"an older one", b"an older one", b"requests.rec: Is a directory\n")
    case("out_is_a_folder", day(three(), one)[0], sound, one, FOLDER, FOLDER, b"area.out: Is a directory\n")


def scattered(i):
    """A key whose digits follow no order."""
    return b"%08d" % (i * 48271 * 48271 % 99999989)


def shorter():
    """Equal lengths, filled so far that a run broken in two leaves no room."""
    return area_of([(b"", 0)], [1], {0: [record(b"A00000%02d" % i, 40) for i in range(12)] + [record(b"A0000012", 18)]})


def main():
    shutil.rmtree(HERE, ignore_errors=True)
    areas()
    requests()
    divisions()
    failures()


if __name__ == "__main__":
    main()
