"""The cases of trial on get by key (document 02, L4): it judges the index record, then the interval that the key leads to, and nothing else. Damage in
that interval, elsewhere and in the index record, keys of wrong length; and where keys lead, in index records of every lawful form.

Each function writes its cases to a Script. The area of most of them, SEVEN, has seven intervals of 512 bytes. Five are in use: AB, AD and C are the
first section, DDD and the last entry the second. Each has two records of one length, which make a run, and a longer one, among them the lowest key
or the highest that its entry allows; no two intervals have a length in common, so that the length found tells the interval.
"""
import random

import model
from layout import HEADER, area_of, bent, data_interval, index_interval, parts_of, rdf, writers_sections
from model import Measures
from random_areas import beside, key_like
from trial_script import filled
from trial_soundness import HIGHEST, M4, MOST, SIZE, two

ENTRIES = [(b"AB", 4), (b"AD", 1), (b"C", 6), (b"DDD", 0), (b"", 3)]
FREE = [5, 2]
KEYS = {4: (b"AA01", b"AA02", b"AB\xff\xff"), 1: (b"AC\0\0", b"AC01", b"AD01"), 6: (b"AE\0\0", b"BB01", b"C\xff\xff\xff"),
        0: (b"D\0\0\0", b"DD01", b"DDD\xff"), 3: (b"DDE\0", b"EE01", b"\xff\xff\xff\xff")}
ORDER = [number for _, number in ENTRIES]


def long(number):
    """How long the two short records of an interval are; the third has 20 bytes more."""
    return 10 + number


DATA = {number: [filled(low, long(number)), filled(middle, long(number)), filled(high, long(number) + 20)]
        for number, (low, middle, high) in KEYS.items()}
SEVEN = area_of(SIZE, ENTRIES, FREE, DATA)
RUINED = b"\xff" * SIZE
OUT = 48


def interval(area, number):
    return area[(number + 1) * SIZE:(number + 2) * SIZE]


def with_interval(area, number, new):
    assert len(new) == SIZE
    return bent(area, (number + 1) * SIZE, new)


def ruined(numbers, area=SEVEN):
    """The area with intervals of which nothing is left."""
    for number in numbers:
        area = with_interval(area, number, RUINED)
    return area


def gets(t, damaged=()):
    """A get of each interval's middle record: found, or 2 where its own interval is damaged."""
    for number in ORDER:
        came = (2, number + 1) if number in damaged else (0, long(number))
        t.answers(t.ask("G", M4, KEYS[number][1], out=OUT), *came)


def others(t, place):
    """The other requests judge the whole area, as ever."""
    for letter, content in (("C", b""), ("R", b""), ("I", b"BB02"), ("U", b"BB01"), ("E", b"BB01")):
        t.answers(t.ask(letter, M4, content, out=OUT if letter == "R" else 0), 2, place)


# ---- damage in one interval

def faults(number):
    """Names, and what becomes of an interval in use: each kind of fault that counts against it."""
    sound, order = interval(SEVEN, number), ORDER.index(number)
    d, u = model.number(sound, SIZE - 4), model.number(sound, SIZE - 2)
    yield "the busy flag", bent(sound, SIZE - 2, two(u | 0x8000))
    yield "software end of file", bent(sound, SIZE - 4, bytes(4))
    yield "a displacement one more", bent(sound, SIZE - 4, two(d + 1))
    yield "a displacement three more, three bytes fewer unused", bent(sound, SIZE - 4, two(d + 3) + two(u - 3))
    yield "three bytes more unused, so that an RDF is left out", bent(sound, SIZE - 2, two(u + 3))
    yield "a spanning RDF", bent(sound, SIZE - 13, b"\x20")
    yield "a pair whose second is a single", bent(sound, SIZE - 10, rdf(0, long(number)))
    yield "a count of 1", bent(sound, SIZE - 10, rdf(8, 1))
    yield "lengths that do not add up", bent(sound, SIZE - 13, rdf(0, long(number) + 19))
    yield "keys out of order", bent(bent(sound, 0, KEYS[number][1]), long(number), KEYS[number][0])
    yield "a key twice", bent(sound, 0, KEYS[number][1])
    if order + 1 < len(ORDER):
        yield "a key above its own bound", bent(sound, 2 * long(number), KEYS[ORDER[order + 1]][0])
    if order > 0:
        yield "a key at the bound before", bent(sound, 0, M4.bound_of(ENTRIES[order - 1][0]))
        yield "a key below the bound before", bent(sound, 0, KEYS[ORDER[order - 1]][0])
    yield "nothing left of it", RUINED


def free_faults():
    yield "the busy flag", bent(data_interval([], SIZE), SIZE - 2, b"\x81")
    yield "software end of file", bytes(SIZE)
    yield "a displacement one more", bent(data_interval([], SIZE), SIZE - 3, b"\1")
    yield "a record", data_interval([filled(b"BB01", 9)], SIZE)
    yield "nothing left of it", RUINED


def in_one(t):
    """Damage in each interval, of each kind. Keys that lead there meet 2 with its place, be they there or not and the output long enough or not; all
    others are found."""
    t.text("== gets, and damage in one interval")
    t.lay(SEVEN)
    t.answers(t.ask("C", M4), 0, 15, 2)
    gets(t)
    for number in ORDER:
        for name, new in faults(number):
            t.text("interval %d: %s" % (number, name))
            t.lay(with_interval(SEVEN, number, new))
            others(t, number + 1)
            gets(t, {number})
            for key, out in ((KEYS[number][0], 0), (KEYS[number][2], OUT), (KEYS[number][1][:3] + b"9", OUT)):
                t.answers(t.ask("G", M4, key, out=out), 2, number + 1)
    for number in FREE:
        for name, new in free_faults():
            t.text("interval %d, free: %s" % (number, name))
            t.lay(with_interval(SEVEN, number, new))
            others(t, number + 1)
            gets(t)


# ---- damage everywhere else

def elsewhere(t):
    """One interval whole, and of all others nothing left: found, absent and too short an output are told as on a sound area."""
    for number in ORDER:
        t.text("== nothing left but the index record and interval %d" % number)
        t.lay(ruined(set(range(7)) - {number}))
        others(t, 2 if number == 0 else 1)
        gets(t, set(range(7)) - {number})
        for key, length in zip(KEYS[number], (long(number), long(number), long(number) + 20)):
            for out in (OUT, length):
                t.answers(t.ask("G", M4, key, out=out), 0, length)
            for out in (length - 1, 0):
                t.answers(t.ask("G", M4, key, out=out), 8, length)
        for key in (KEYS[number][0][:3] + b"\2", KEYS[number][1][:3] + b"9"):
            t.answers(t.ask("G", M4, key, out=OUT), 5)
        t.answers(t.ask("G", M4, KEYS[number][1] + b"0", out=OUT), 3)
    t.text("== no data interval left")
    t.lay(ruined(range(7)))
    others(t, 1)
    gets(t, ORDER)


def misplaced(t):
    """Records in an interval that their keys do not lead to. They are never found; 2 is met only by keys that lead to where they lie."""
    t.text("== two intervals exchanged")
    t.lay(with_interval(with_interval(SEVEN, 4, interval(SEVEN, 1)), 1, interval(SEVEN, 4)))
    gets(t, {1, 4})
    t.text("== a record among those of the next interval, its own empty")
    t.lay(with_interval(with_interval(SEVEN, 1, data_interval([], SIZE)), 6, data_interval([DATA[1][1]] + DATA[6], SIZE)))
    t.answers(t.ask("G", M4, b"AC01", out=OUT), 5)
    t.answers(t.ask("G", M4, b"BB01", out=OUT), 2, 7)
    t.answers(t.ask("C", M4), 2, 7)
    t.text("== a record in a free interval, its own empty")
    t.lay(with_interval(with_interval(SEVEN, 1, data_interval([], SIZE)), 5, data_interval(DATA[1], SIZE)))
    t.answers(t.ask("G", M4, b"AC01", out=OUT), 5)
    t.answers(t.ask("C", M4), 2, 6)
    t.text("== the same key in two intervals: the one it leads to is found, the other is damaged")
    t.lay(with_interval(SEVEN, 6, data_interval([filled(b"AC01", 9)] + DATA[6], SIZE)))
    t.answers(t.ask("G", M4, b"AC01", out=OUT), 0, long(1))
    t.answers(t.ask("G", M4, b"BB01", out=OUT), 2, 7)


# ---- the index record, lengths, measures

def lengths(t):
    """1, then 2 at the index record, then 3, whatever the intervals are; 2 at an interval only after 3."""
    hurt = bent(SEVEN, 16, b"\2")
    wrong = (b"", b"A", b"AA0", b"AA01.", b"AA01AA01", b"AA01" * 64, b"AA01" * 1000)
    for name, area, come in (("a sound area", SEVEN, (3,)), ("the interval damaged that the front would lead to", ruined([4]), (3,)),
                             ("all data intervals damaged", ruined(range(7)), (3,)), ("the index record damaged", hurt, (2, 0)),
                             ("all damaged", ruined(range(7), hurt), (2, 0))):
        t.text("== keys of wrong length: " + name)
        t.lay(area)
        for key in wrong:
            t.answers(t.ask("G", M4, key, out=OUT), *come)
        t.answers(t.ask("G", M4, b"AA02", out=OUT), *((2, 0) if come == (2, 0) else (0, long(4)) if area == SEVEN else (2, 5)))
        for m in (Measures(SIZE, 0, 4, MOST + 1), Measures(SIZE, 0, 0, 60), Measures(SIZE + 1, 0, 4, 60), Measures(SIZE, HIGHEST, 4, 60)):
            t.answers(t.ask("G", m, b"AA0", out=OUT), 1)
        t.answers(t.ask("G", M4, b"AA02", out=OUT, lent=len(area) - 1), 1)
        t.answers(t.ask("G", M4, b"AA02", out=OUT, lent=len(area) - SIZE), 2, 0)


def index_first(t):
    """Damage in the index record refuses every key, also where what it leads to is whole, and where the walk has met the key's entry before the damage."""
    t.text("== the index record damaged, field by field")
    last = model.number(SEVEN, 20)
    places = [0, 2, 3, 4, 16, 18, 19, 20, 21, 22, 23, 24, 25] + list(range(last - 2, SIZE))
    assert last == 481 and HEADER + len(FREE) == 26
    for at in places:
        t.lay(bent(SEVEN, at, bytes([SEVEN[at] ^ 0xFF])))
        for number in (4, 6, 3):
            t.ask("G", M4, KEYS[number][1])
        t.ask("G", M4, b"AA0")
    t.text("== the last entry's number is named twice")
    t.lay(bent(SEVEN, last + 2, b"\4"))
    for number in ORDER:
        t.answers(t.ask("G", M4, KEYS[number][1], out=OUT), 2, 0)


def other_measures(t):
    """Records longer than M count against their own interval only; under another K or offset the same bytes have other keys."""
    t.text("== M 10, 13, 30, 33")
    t.lay(SEVEN)
    for most in (10, 13, 30, 33):
        for number in ORDER:
            came = (0, long(number)) if long(number) + 20 <= most else (2, number + 1)
            t.answers(t.ask("G", M4._replace(most=most), KEYS[number][1], out=OUT), *came)
    t.text("K 3, 2, 5, 1; offset 1")
    for m in (Measures(SIZE, 0, 3, MOST), Measures(SIZE, 0, 2, MOST), Measures(SIZE, 0, 5, MOST), Measures(SIZE, 0, 1, MOST), Measures(SIZE, 1, 4, MOST)):
        for number in ORDER:
            t.ask("G", m, KEYS[number][1].ljust(m.key, b".")[:m.key])


# ---- where keys lead

def in_range(m, entries, others=()):
    """For each entry its number and keys that lead to it, by the bounds alone: the two lowest and the two highest, its separator filled up with zeros and
    the key below that, and of others as many as its interval has room for."""
    lowest = 0
    for separator, number in entries:
        own, least = (int.from_bytes(separator.ljust(m.key, filling), "big") for filling in (b"\xff", b"\0"))
        keys = [lowest, own, lowest + 1, own - 1, least, least - 1] + [int.from_bytes(key, "big") for key in others]
        keys = [key.to_bytes(m.key, "big") for key in dict.fromkeys(keys) if lowest <= key <= own]
        yield number, sorted(keys[:(m.size - 10) // (m.least + number)])
        lowest = own + 1


def forms(count):
    """Sizes of sections in which so many entries may stand: the writer's, one entry each, one and the rest, the rest and one, two each, halves."""
    found = []
    for sections in (writers_sections(count), [1] * count, [1, count - 1], [count - 1, 1], [2] * (count // 2) + [1] * (count % 2),
                     [count // 2, count - count // 2]):
        if min(sections) > 0 and (len(sections) > 1 or count <= 2) and sections not in found:
            found.append(sections)
    return found


def fronts_of(longest):
    """Fs that a reader must accept: the longest, none, half of each, one less, and the longest in every second entry only."""
    return (longest, [0] * len(longest), [front // 2 for front in longest], [max(front - 1, 0) for front in longest],
            [front * (place % 2) for place, front in enumerate(longest)])


def records(m, number, keys):
    """Records of one length, which tells the interval."""
    return [(b"-" * m.offset + key).ljust(m.least + number, b".") for key in keys]


def sought(t, title, m, separators, more=(), few=False):
    """Gets of keys at both ends of each entry's range, and of some that begin as a separator does, in index records of every form, or of a few. Then with every
    second interval empty, so that keys are absent at which a search could pass from one interval to the next."""
    entries, r = numbered(separators), random.Random(title)
    letters = sorted({min(max(byte + by, 0), 255) for separator in separators for byte in separator for by in (-1, 0, 1)}) or [77]
    ranges = list(in_range(m, entries, [key_like(r, m, separators or [b""], letters) for _ in range(4 * len(entries))]))
    data = {number: records(m, number, keys) for number, keys in ranges}
    t.text("== " + title)
    for index in indexes(m, entries, few):
        t.lay(area_of(m.size, entries, [], data, found={0: index}))
        for number, keys in ranges:
            for key in keys:
                t.answers(t.ask("G", m, key), 8, m.least + number)
        for key in more:
            t.ask("G", m, key)
    t.lay(area_of(m.size, entries, [], {number: data[number] for number, _ in ranges[::2]}))
    for place, (number, keys) in enumerate(ranges):
        for key in keys:
            t.answers(t.ask("G", m, key), *((8, m.least + number) if place % 2 == 0 else (5,)))
        for key in (beside(keys[0], 3), beside(keys[-1], -3)):
            t.ask("G", m, key)


def indexes(m, entries, few):
    """The entries as different lawful writers may have left them."""
    found = []
    for sections in forms(len(entries))[:2 if few else None]:
        longest = [part.front for part in parts_of(entries, sections)]
        for fronts in fronts_of(longest)[:2 if few else None]:
            index = index_interval(entries, [], m.size, sections=sections, fronts=fronts)
            if index not in found:
                found.append(index)
    return found


def numbered(separators):
    """Entries with these separators and the last one. Their numbers go down from the middle, and on from the highest."""
    count = len(separators) + 1
    return [(separator, (count // 2 - place) % count) for place, separator in enumerate(list(separators) + [b""])]


STEM = b"0123456789abcdefghijklmn"
DEEP = (0, 6, 7, 8, 9, 15, 16, 17, 23)


def deep():
    """Separators that leave the stem around its eighth and sixteenth byte and at both ends, below it and above it, and the stem itself."""
    below, above = ([STEM[:at] + bytes([STEM[at] + by]) for at in DEEP] for by in (-1, 1))
    return below + [STEM] + above[::-1]


def longest_keys():
    """Separators of up to 255 bytes, which differ in the last, behind the 128th and in the ninth."""
    stem = b"M" * 254
    return [stem[:9] + b"A", stem[:128] + b"B", stem + b"A", stem + b"C", stem + b"M", stem]


def leads(t):
    sought(t, "one entry", M4, [])
    sought(t, "two entries", M4, [b"M"])
    sought(t, "separators 41 42, then 41", M4, [b"AB", b"A"])
    sought(t, "separators 41, then 42 43, then 42", M4, [b"A", b"BC", b"B"])
    sought(t, "one character fewer in each: F alone, L 0", Measures(SIZE, 0, 12, MOST), [b"ABCDEFGHIJ"[:count] for count in range(10, 0, -1)])
    sought(t, "X'00', X'80' and X'FF'", Measures(SIZE, 0, 3, MOST), [b"\0\0\0", b"\0\0", b"\0", b"\1", b"\x7f\xff\x80", b"\x7f", b"\x80", b"\xfe\xff\xfe",
                                                                 b"\xfe", b"\xff\0", b"\xff\xff\xfe"])
    sought(t, "fronts of up to 24 bytes", Measures(SIZE, 0, 24, MOST), deep(), (b"0" * 24, STEM[:8] + b"8" * 16, STEM[:16] + b"\xff" * 8, b"1" * 24))
    sought(t, "keys behind other bytes", Measures(SIZE, 7, 4, MOST), [b"AA", b"AB", b"A", b"BA"])
    sought(t, "keys of one byte", Measures(SIZE, 0, 1, MOST), [bytes([byte]) for byte in (0, 1, 2, *range(10, 254, 7), 253, 254)],
           [bytes([byte]) for byte in range(256)], True)
    sought(t, "keys of 255 bytes", Measures(2048, 0, 255, 400), longest_keys(), (), True)
    sought(t, "thirty entries", M4, [b"%02d" % (3 * place) for place in range(29)], [b"%02d%02d" % (place, place) for place in range(0, 99, 7)], True)


# ---- two-byte pointers

def many(t):
    """300 intervals, 20 in use, their numbers on both sides of 255; of every second one nothing is left, nor of those that are free."""
    m, size = Measures(1024, 0, 4, 60), 1024
    entries = [(b"%02d" % (4 * place), (299 - 37 * place) % 300) for place in range(19)] + [(b"", 19)]
    numbers = [number for _, number in entries]
    free = [number for number in range(300) if number not in numbers]
    ranges = list(in_range(m, entries))
    data = {number: [filled(key, 20 + place) for key in keys] for place, (number, keys) in enumerate(ranges)}
    whole = set(numbers[::2])
    t.text("== 300 intervals, of most of them nothing left")
    t.lay(area_of(size, entries, free, data, found={number + 1: b"\xff" * size for number in range(300) if number not in whole}))
    t.answers(t.ask("C", m), 2, min(set(range(300)) - whole) + 1)
    for place, (number, keys) in enumerate(ranges):
        for key in keys:
            t.answers(t.ask("G", m, key, out=20 + place), *((0, 20 + place) if number in whole else (2, number + 1)))
        t.answers(t.ask("G", m, keys[0]), *((8, 20 + place) if number in whole else (2, number + 1)))
        t.answers(t.ask("G", m, beside(keys[0], 3), out=60), *((5,) if number in whole else (2, number + 1)))
    t.answers(t.ask("G", m, b"000", out=60), 3)
    t.text("== 300 intervals, the last entry's number named twice")
    t.lay(bent(t.area, model.number(t.area, 20) + 2, two(numbers[0])))
    for key in (ranges[0][1][0], ranges[-1][1][-1], b"000"):
        t.answers(t.ask("G", m, key, out=60), 2, 0)


CASES = (in_one, elsewhere, misplaced, lengths, index_first, other_measures, leads, many)
