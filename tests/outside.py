#!/usr/bin/env python3
"""tests/outside.py [LIBRARY]: the program, through C, against the model, on areas that the crates' own programs do not reach.

The script of the program `trial`; all 28 interval sizes; 200 intervals of 2,048, 256 of 32,768 and 1,000 of 4,096; 4,096 of 10,240 and of 32,768; on each a
sequence of requests, damaged copies, gets by key with damage in the key's interval and elsewhere, hostile measures; at each size one field after another with
other values; each link of the sections' chain with every value that a record has; keys at both ends of each entry's range; areas filled until 6 or 7. Answers,
values, outputs and every byte of what is lent are compared. They are the same cases each time: the chance in them has fixed seeds. Without a library it is
made first. The last line is `N compared, M different`; the status is 0 only where M is 0.
"""
import os
import random
import sys

import model
import program
import random_areas
import walker
from layout import area_of, bent, data_interval, old_index_interval
from trial_script import replayed


def requests(comparing, made, count):
    """A sequence of requests; gives the area that it leaves."""
    area = made.area
    for _ in range(count):
        letter, content, address, out = random_areas.request(made)
        area = comparing.ask(letter, area, made.m, content, address, out).area
    comparing.ask("C", area, made.m)
    return area


def damages(comparing, made, area, count):
    """Damaged copies, each checked and asked something."""
    for _ in range(count):
        hurt = random_areas.damaged(made.r, area, made.m)
        comparing.ask("C", hurt, made.m)
        letter, content, address, out = random_areas.request(made)
        comparing.ask(letter, hurt, made.m, content, address, out)


def lookups(comparing, made, area, count):
    """Gets by key on copies that are damaged in the index record, in the key's interval or elsewhere; sometimes the key has a wrong length."""
    for _ in range(count):
        hurt, key, out = random_areas.lookup(made, area)
        comparing.ask("G", hurt, made.m, key, 0, out)


def strange_measures(comparing, made, area, count):
    for _ in range(count):
        letter, content, address, out = random_areas.request(made)
        comparing.ask(letter, area, random_areas.hostile(made.r, made.m), content, address, out)
    for length in (0, 1, made.m.size - 1, made.m.size, len(area) - 1):
        comparing.ask("C", area[:length], made.m)
    comparing.ask("C", area + area[-made.m.size:], made.m)


def each_size(comparing):
    for size in model.SIZES:
        for turn in range(4):
            r = random.Random("size %d %d" % (size, turn))
            made = random_areas.Made(r, random_areas.measures(r, size), r.randint(1, 5))
            area = requests(comparing, made, 40)
            damages(comparing, made, area, 20)
            lookups(comparing, made, area, 60)
            strange_measures(comparing, made, area, 10)


def fields(area, m):
    """Places and widths of the layouts' fields: all of the index header, free numbers and entries at both ends, the sections' fields, RDFs and CIDFs."""
    size, last = m.size, model.number(area, 20)
    found = [(0, 2), (2, 1), (3, 1), (4, 4), (16, 1), (18, 2), (20, 2), (22, 2), (24, 1), (25, 1)]
    found += [(at, 2) for at in random_areas.field_places(area, m)]
    found += [(at, 1) for at in range(last, min(last + 12, size - 7))] + [(at, 1) for at in range(max(last, size - 19), size - 7)]
    found += [(size - 7, 1), (size - 6, 2), (size - 4, 2), (size - 2, 2)]
    for end in range(2 * size, min(len(area), 4 * size) + 1, size):
        found += [(end - 4, 2), (end - 2, 2)]
        for left in (end - 7, end - 10, end - 13):
            found += [(left, 1), (left + 1, 2)]
    return found


def each_field(comparing):
    """One field after another with other values, at every size."""
    for size in model.SIZES:
        r = random.Random("field %d" % size)
        made = random_areas.Made(r, random_areas.measures(r, size, (4, 8)), 8)
        limit = 2 ** 32 - made.n * size
        for at, width in fields(made.area, made.m):
            old, top = model.number(made.area, at, width), 256 ** width
            for new in {old + 1, old - 1, old + 3, old - 3, 0, top - 1, old ^ (top // 2), limit if width == 4 else 0, limit + 1 if width == 4 else 0}:
                hurt = bent(made.area, at, (new % top).to_bytes(width, "big"))
                comparing.ask("C", hurt, made.m)
                comparing.ask("G", hurt, made.m, random_areas.near_bound(made))


def each_link(comparing):
    """Nine entries in sections of three, and in others; every displacement within the record for each link and for the last entry, and some beyond. The check, and
    gets by keys that lead to the first entry, to one in the midst and to the last."""
    m = model.Measures(512, 0, 4, 60)
    entries = [(separator, number) for number, separator in enumerate((b"A", b"BAC", b"BA", b"BCA", b"BCC", b"BD", b"C", b"D", b""))]
    for sections in (None, [1, 5, 2, 1], [8, 1]):
        area = area_of(512, entries, [10, 9], {3: [b"BC01", b"BC02"]}, sections=sections)
        for at in [20, 22] + random_areas.field_places(area, m):
            for value in list(range(513)) + [1024, 32768, 65535]:
                hurt = bent(area, at, value.to_bytes(2, "big"))
                comparing.ask("C", hurt, m)
                for key in (b"A001", b"BC02", b"E001"):
                    comparing.ask("G", hurt, m, key)


def each_lead(comparing):
    """Every record's key and the keys beside each bound, in index records with few entries and many, short separators and long ones, other sections, other Fs."""
    for turn in range(60):
        r = random.Random("lead %d" % turn)
        size = r.choice([512, 1024, 1024, 2048])
        made = random_areas.Edged(r, random_areas.measures(r, size), r.choice([2, 8, 30, 300 if size == 1024 else 60]))
        keys = [made.m.key_of(record) for records in made.data.values() for record in records]
        for separator, _ in made.entries:
            bound, lowest = made.m.bound_of(separator), separator.ljust(made.m.key, b"\0")
            keys += [random_areas.beside(bound, 1), random_areas.beside(bound, 2), lowest, random_areas.beside(lowest, -1)]
        for key in keys:
            comparing.ask("G", made.area, made.m, key)


def no_room(comparing):
    """Index records with little room, so that divisions meet 7; such whose entries and free numbers overlap; such in the form without sections."""
    for turn in range(60):
        r = random.Random("crowded %d" % turn)
        made = random_areas.crowded(r)
        area = requests(comparing, made, 20)
        damages(comparing, made, area, 5)
        lookups(comparing, made, area, 40)
        for area, m in (random_areas.overlapping(r), random_areas.no_entries(r), random_areas.old_form(r)):
            comparing.ask("C", area, m)


def far_cuts(comparing):
    """Divisions whose cut nearest the middle does not fit."""
    for turn in range(60):
        area, m, record = random_areas.uneven(random.Random("uneven %d" % turn))
        comparing.ask("I", area, m, record)


def large(comparing, size, n, used, each, count):
    """Many intervals, most of them full, so that an insert divides."""
    made = random_areas.Even(random.Random("large %d %d" % (size, n)), n, used, each, size)
    area = requests(comparing, made, count)
    damages(comparing, made, area, count // 2)
    lookups(comparing, made, area, count // 2)
    strange_measures(comparing, made, area, 4)


def most(comparing, size):
    """4,096 intervals, more than any program here can hold: one of them full, so that an insert divides it and takes the number 4,095, which in the
    buffer is 4,096, the greatest that is told."""
    m = model.Measures(size, 0, 8, 60)
    records = [b"1%07d" % (2 * i + 1) + b"." * 52 for i in range((size - 10) // 60)]
    area = area_of(size, [(b"2", 4000), (b"", 0)], [k for k in range(1, 4096) if k != 4000], {4000: records})
    for letter, content, address, out in (("C", b"", 0, b""), ("G", records[-1][:8], 0, bytes(60)), ("G", b"10000000", 0, bytes(60)), ("R", b"", 4000 * size + 60, bytes(60)),
                                          ("I", b"10000002" + b"." * 52, 0, b""), ("U", records[0][:59], 0, b""), ("E", records[1][:8], 0, b""),
                                          ("G", b"10000002", 0, bytes(60)), ("C", b"", 0, b"")):
        told = comparing.ask(letter, area, m, content, address, out)
        area = told.area
        assert letter != "I" or told.values == (3, 0, 4001, 4096, 0)
    for at, new in ((2, b"\3\1"), (2, b"\4\1"), (24, b"\x10\x00"), (24, b"\x0f\xa0"), (18, b"\x20\x00")):
        comparing.ask("C", bent(area, at, new), m)
    hurt = bent(area, size, b"\xff" * 2 * size)     # nothing left of interval 0, where the last entry leads, and of a free one
    for key in (b"10000002", records[-1][:8], b"20000001", b"30000000", b"3"):
        comparing.ask("G", hurt, m, key, 0, bytes(60))


def most_named(comparing):
    """As many intervals as an index record of this size can name beside one entry; in the form without sections it had room for one more."""
    for size, n in ((1024, 494), (2048, 1006)):
        m = model.Measures(size, 0, 8, 60)
        area = area_of(size, [(b"", 0)], range(n - 1, 0, -1), {})
        for letter, content in (("C", b""), ("I", b"A0000001"), ("G", b"A0000001"), ("E", b"A0000001")):
            area = comparing.ask(letter, area, m, content).area
        comparing.ask("C", old_index_interval([(b"", 0)], range(n, 0, -1), size) + data_interval([], size) * (n + 1), m)


def beyond(comparing):
    """4,096 intervals are the most: one more is 1. At S 512 no record can name them, so that the area is never sound."""
    m = model.Measures(512, 0, 8, 60)
    for n in (256, 257, 4095, 4096, 4097):
        comparing.ask("C", bytes(512 * (n + 1)), m)
        comparing.ask("G", bytes(512 * (n + 1)), m, b"A0000001")


def filled_up(comparing, size, n, long):
    """Inserts under scattered keys until three in a row found no room."""
    m = model.Measures(size, 0, 8, size - 7)
    area, refused, i = area_of(size, [(b"", 0)], list(range(n - 1, 0, -1)), {}), 0, 0
    while refused < 3:
        i += 1
        came = comparing.ask("I", area, m, b"%08d" % (i * 48271 * 48271 % 99999989) + b"." * (long - 8 - i % 3))
        refused = refused + 1 if came.number in (6, 7) else 0
        area = came.area
    comparing.ask("C", area, m)


def replay(comparing):
    """The cases of `trial`, asked through C, must print what its stored output has."""
    folder = os.path.join(program.ROOT, "crates", "trial")
    with open(os.path.join(folder, "data", "script"), "rb") as script, open(os.path.join(folder, "stdout"), encoding="ascii") as stdout:
        found, stored = replayed(script.read(), lambda *request: plain(comparing, *request), walker.Walking(comparing).line), stdout.read()
    if found != stored:
        comparing.differences.append("crates/trial/stdout is not what its script comes to")


def plain(comparing, letter, area, m, content, address, out):
    """A request asked through C and compared; gives only the values that the answer has."""
    told = comparing.program.asked(letter, area, m, content, address, out)
    comparing.ask(letter, area, m, content, address, out)
    count = (1 + told.values[0] if letter in "IUE" else program.VALUES[letter]) if told.number == 0 else 1 if told.number in (2, 8) else 0
    return told.number, told.values[:count], told.area, told.out


def main(words):
    comparing = program.Comparing(program.Program(program.built(words[0] if words else None)))
    replay(comparing)
    each_size(comparing)
    each_field(comparing)
    each_link(comparing)
    each_lead(comparing)
    for size in (512, 1024, 4096):
        filled_up(comparing, size, 40, size // 4)
    filled_up(comparing, 512, 127, 200)
    no_room(comparing)
    far_cuts(comparing)
    large(comparing, 2048, 200, 190, 33, 200)
    large(comparing, 32768, 256, 250, 545, 60)
    large(comparing, 4096, 1000, 190, 66, 60)
    most_named(comparing)
    beyond(comparing)
    most(comparing, 10240)
    most(comparing, 32768)
    walker.all_walks(comparing)
    for told in comparing.differences[:20]:
        print(told)
    print("%d compared, %d different" % (comparing.compared, len(comparing.differences)))
    return 1 if comparing.differences else 0


if __name__ == "__main__":
    sys.exit(main(sys.argv[1:]))
