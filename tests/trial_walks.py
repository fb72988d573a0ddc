"""The cases of trial on walks (document 02, L1): from both ends, from keys and from their first bytes; emptied intervals, groups and sections as any lawful
writer leaves them; refusals; and single steps from places that nobody gave out, on sound areas and on damaged ones.

Each function writes its cases to a Script. What a walk gives is model.walk; what a single step does is steps.py.
"""
import itertools
import random
import struct

import model
import steps
from layout import area_of, bent, data_interval, index_interval, rdf
from model import Measures
from random_areas import beside
from steps import Place
from trial_script import filled
from trial_soundness import ENTRIES, FIRST, FREE, M4, MOST, SECOND, SIZE, SOUND, THIRD, data_with

FORWARD, BACKWARD, LOWEST, HIGHEST, NEXT, PREVIOUS = "FBLHNP"
NAMES = {"F": "forward", "B": "backward", "L": "from the lowest", "H": "from the highest", "N": "next", "P": "previous"}
ALL = 1000      # more than any area here has records


# ---- the steps of the script, and what trial prints for them

def walk_line(letter, came, shown):
    """The answer, the first records by place and length, how many there are and the remainder of the number that their bytes are, and the end, twice."""
    if isinstance(came, model.Answer):
        return "  %s:%s" % (NAMES[letter], "".join(" %d" % each for each in (came.number,) + came.values))
    told = "".join(" %d+%d" % (start, len(record)) for start, record in came[:shown])
    rest = int.from_bytes(b"".join(record for _, record in came), "big") % 65521
    return "  %s: 0%s = %d %d end end" % (NAMES[letter], told, len(came), rest)


def steps_line(letter, places):
    """Each place by its start, its length and the length of its record."""
    return "  %s:%s" % (NAMES[letter], "".join(" %d+%d/%d" % (p.start, p.length, long) for p, long in places))


def modelled(letter, area, m, content, out):
    """The line for a walk or for steps, by the model."""
    if letter in "NP":
        return steps_line(letter, stepping(area, m.size, letter == NEXT, Place(*struct.unpack(">7Q", content)), out))
    return walk_line(letter, model.walk(area, m, letter in "FL", content if letter in "FB" else None), out)


def stepping(area, size, forward, p, count):
    places = [p]
    for _ in range(count):
        places.append(steps.next_place(area, size, forward, places[-1]))
    return [(each, len(steps.record_at(area, each))) for each in places]


def say(t, letter, m, content=b"", out=0, lent=None):
    lent = len(t.area) if lent is None else lent
    t.script += letter.encode("ascii") + struct.pack(">QQQQIIQH", *m, lent, out, 0, len(content)) + content
    t.lines.append(modelled(letter, t.area[:lent], m, content, out))


def walk(t, m, forward, given=None, shown=ALL, lent=None):
    """A walk; gives the records, or the answer that refuses it."""
    letter = (LOWEST if forward else HIGHEST) if given is None else FORWARD if forward else BACKWARD
    say(t, letter, m, b"" if given is None else given, shown, lent)
    return model.walk(t.area[:lent], m, forward, given)


def step(t, m, forward, place, count=2):
    say(t, NEXT if forward else PREVIOUS, m, struct.pack(">7Q", *place), count)


def both(t, m, given=None, shown=ALL):
    return [walk(t, m, forward, given, shown) for forward in (True, False)]


def ends(t, m, shown=ALL):
    """From both ends; the one walk is the other's reverse, and the single steps give it."""
    up, down = both(t, m, None, shown)
    assert up == down[::-1]
    for forward, walked in ((True, up), (False, down)):
        assert places_of(t.area, m, forward) == [(start, len(record)) for start, record in walked]
    return up


def places_of(area, m, forward):
    return [(p.start, p.length) for p in begun(area, m, forward)]


def begun(area, m, forward):
    """The places of a walk from an end of a sound area, by steps alone."""
    p, out = steps.first_place(area, m.size, forward, len(model.opened(area, m).index.entries)), []
    while p.length:
        out.append(p)
        p = steps.next_place(area, m.size, forward, p)
    return out


def keys_of(t, m):
    return [m.key_of(record) for _, record in model.walk(t.area, m, True)]


def fronts(key):
    return [key[:length] for length in range(1, len(key))]


def around(m, keys):
    """Each of the keys and of their fronts, and the bytes just below and just above each."""
    found = {given for key in keys for given in [key] + fronts(key)}
    found |= {beside(given, by) for given in found for by in (1, -1)}
    return sorted(found | {bytes(m.key), b"\xff" * m.key})


# ---- where a walk begins

def begins(t):
    """From each key, from each front of each key, from the bytes beside each: heads are compared as far as bytes are given."""
    t.text("== walks: from both ends, from keys, from fronts of keys, from what lies between, below and above")
    t.lay(SOUND)
    ends(t, M4)
    for given in around(M4, keys_of(t, M4)):
        t.text(given.hex())
        both(t, M4, given)
    t.text("no bytes, and five")
    for given in (b"", b"AA010", b"AA01" * 60):
        assert both(t, M4, given) == [(3, ())] * 2
    t.text("what the papers say: a front is a start and no filter; down from a front the last record that has it is the first one given")
    for forward, given, keys in ((True, b"A", b"AA01 AB01 BB01 CC01 DD01"), (False, b"A", b"AB01 AA01"), (True, b"AB", b"AB01 BB01 CC01 DD01"), (False, b"AB", b"AB01 AA01"),
                                 (True, b"AB01", b"AB01 BB01 CC01 DD01"), (False, b"AB00", b"AA01"), (True, b"AB02", b"BB01 CC01 DD01"), (False, b"\xff", b"DD01 CC01 BB01 AB01 AA01")):
        assert [M4.key_of(record) for _, record in walk(t, M4, forward, given)] == keys.split()
    assert walk(t, M4, True, b"DE") == walk(t, M4, False, b"A@") == walk(t, M4, False, b"\0") == walk(t, M4, True, b"\xff" * 4) == (5, ())


def none_and_one(t):
    t.text("== walks: no record")
    for entries in ([(b"", 0)], ENTRIES):
        t.lay(area_of(SIZE, entries, range(len(entries), 4), {}))
        assert ends(t, M4) == []
        for given in (bytes(4), b"A", b"\xff" * 4):
            assert both(t, M4, given) == [(5, ())] * 2
        assert both(t, M4, b"") == [(3, ())] * 2
    t.text("== walks: one record")
    for record in (b"MMMM", filled(b"MMMM", 505)):
        t.lay(area_of(SIZE, [(b"", 0)], [], {0: [record]}))
        ends(t, M4)
        for given in (b"L", b"M", b"N", b"MMML", b"MMMM", b"MMMN", bytes(4), b"\xff" * 4):
            both(t, M4, given)
    t.text("== walks: K 1 and records of one byte")
    one = Measures(SIZE, 0, 1, 1)
    for keys in (range(256), range(1, 255), (0,), (255,)):
        t.lay(area_of(SIZE, [(b"", 0)], [], {0: [bytes([key]) for key in keys]}))
        ends(t, one, 4)
        for given in (0, 1, 2, 127, 128, 253, 254, 255):
            both(t, one, bytes([given]), 4)


def keys_behind(t):
    """Keys behind other bytes, which descend while the keys ascend; keys that end in X'00' and X'FF'; keys of 255 bytes."""
    t.text("== walks: offset 7")
    m = Measures(SIZE, 7, 4, MOST)
    t.lay(area_of(SIZE, [(b"AB", 1), (b"", 0)], [2], {1: [b"z" * 7 + b"AAAA", b"y" * 7 + b"ABBB....", b"x" * 7 + b"ABDD"], 0: [b"b" * 7 + b"ACCC.."]}))
    ends(t, m)
    for given in around(m, [b"ABBB", b"ABDD"]):
        both(t, m, given)
    t.text("== walks: keys of X'00' and X'FF'")
    t.lay(area_of(SIZE, [(b"\0", 1), (b"", 0)], [], {1: [bytes(4), b"\0\0\0\1", b"\0\xff\xff\xff"], 0: [b"\1\0\0\0", b"\xff\0\0\0", b"\xff\xff\xff\0", b"\xff" * 4]}))
    ends(t, M4)
    for given in around(M4, keys_of(t, M4)):
        both(t, M4, given)
    t.text("== walks: keys of 255 bytes")
    long = Measures(SIZE, 0, 255, MOST)
    keys = [b"A" * 255, b"A" * 254 + b"B", b"B" * 255]
    t.lay(area_of(SIZE, [(b"A" * 255, 0), (b"A" * 254 + b"B", 2), (b"", 1)], [], {0: keys[:1], 2: keys[1:2], 1: keys[2:]}, sections=[1, 2]))
    ends(t, long)
    for given in [key[:length] for key in keys for length in (1, 100, 254, 255)] + [bytes(255), b"\xff" * 255, b"A" * 255 + b"A"]:
        both(t, long, given)


# ---- intervals that are empty

FIVE = [(b"B", 3), (b"D", 0), (b"F", 4), (b"H", 1), (b"", 2)]
FIVE_KEYS = (b"A", b"C", b"E", b"G", b"I")


def emptied(t):
    """Five entries, each subset of them without records: so empty intervals stand first, in the middle, last, beside each other, and all over."""
    t.text("== walks: every set of five intervals emptied")
    for full in itertools.product((True, False), repeat=5):
        data = {number: [filled(key + digits, 9) for digits in (b"001", b"002", b"003")] for (_, number), key, there in zip(FIVE, FIVE_KEYS, full) if there}
        t.text("records under " + (" ".join(key.decode() for key, there in zip(FIVE_KEYS, full) if there) or "none"))
        t.lay(area_of(SIZE, FIVE, [], data))
        ends(t, M4, 4)
        for key in FIVE_KEYS:
            both(t, M4, key + b"002", 4)
        both(t, M4, b"D", 4)
    t.text("== walks: emptied by erases, and what comes in again")
    t.lay(SOUND)
    for letter, content in (("E", b"BB01"), ("E", b"CC01"), ("E", b"AA01"), ("E", b"AB01"), ("E", b"DD01"), ("I", filled(b"BZZZ", 9)), ("I", filled(b"DA00", 60))):
        t.made(t.ask(letter, M4, content), 0, 1)
        ends(t, M4)
        both(t, M4, b"B")
    t.text("== walks: nine intervals, and one record in the last")
    entries = [(bytes([65 + i]), 8 - i) for i in range(8)] + [(b"", 0)]
    t.lay(area_of(SIZE, entries, [], {0: [filled(b"ZZZZ", 20)]}))
    ends(t, M4)
    both(t, M4, b"A")
    t.text("in the first")
    t.lay(area_of(SIZE, entries, [], {8: [filled(b"@ZZZ", 20)]}))
    ends(t, M4)
    both(t, M4, b"Z")


# ---- groups and sections

def groupings(t):
    """The same records in every grouping: singles that could be a run, runs of one length side by side, runs beside singles."""
    t.text("== walks: groups")
    four = [b"M%03dEE" % i for i in range(4)]
    for parts in ((4,), (1, 1, 1, 1), (2, 2), (1, 3), (3, 1), (1, 1, 2), (1, 2, 1), (2, 1, 1)):
        t.text("four of 6 as " + " and ".join(map(str, parts)))
        t.lay(data_with(1, data_interval(four, SIZE, [(6, count) for count in parts], 0xEE)))
        grouped(t, M4)
    for lens in ([20] * 3 + [21], [21] + [20] * 3, [21] + [20] * 3 + [22], [20] * 3 + [22] + [20] * 2 + [23], [20, 20, 21, 21, 20, 20], [4], [505], [4, 5] * 20):
        t.text("lengths " + " ".join(map(str, lens)))
        t.lay(area_of(SIZE, [(b"M", 1), (b"", 0)], [], {1: [filled(b"%04d" % (2 * i + 1), length) for i, length in enumerate(lens)], 0: [b"ZZ01", b"ZZ02", b"ZZ03Z"]}))
        grouped(t, M4)


def grouped(t, m):
    """From both ends, and from each key and behind each, so that a walk begins at every place of every group."""
    ends(t, m)
    for key in keys_of(t, m):
        both(t, m, key, 2)
        both(t, m, beside(key, 1), 2)


def sectioned(t):
    """Ten entries in the writer's sections and in others; each entry has a record, and a walk begins in each."""
    t.text("== walks: sections")
    for count in (1, 2, 3, 10):
        entries = [(b"" if i == count - 1 else b"%02d" % i, (7 * i + 1) % count) for i in range(count)]
        data = {number: [filled(b"%02d11" % i, 11 + i % 3), filled(b"%02d22" % i, 11)] for i, (_, number) in enumerate(entries)}
        for sizes in {1: (None,), 2: (None, [1, 1]), 3: (None, [1, 2], [1, 1, 1])}.get(count, (None, [1] * 10, [9, 1], [1, 9], [2] * 5, [1, 3, 2, 4], [5, 5])):
            t.text("sections of " + ("the writer" if sizes is None else " ".join(map(str, sizes))))
            t.lay(area_of(SIZE, entries, [], data, sections=sizes))
            ends(t, M4, 6)
            for i in range(count):
                both(t, M4, b"%02d15" % i, 3)
    t.text("sections of one entry, every second interval empty, short Fs, other unused bytes")
    entries = [(b"AAA%d" % i, i) for i in range(9)] + [(b"", 9)]
    found = {0: index_interval(entries, [10, 11], SIZE, bytes(range(13)), [1] * 10, [0] * 10, 0xEE)}
    t.lay(area_of(SIZE, entries, [10, 11], {i: [b"AAA%d" % i] for i in range(0, 10, 2)}, found=found))
    ends(t, M4)
    for given in (b"AAA1", b"AAA4", b"AAA", b"AAB"):
        both(t, M4, given)


def wide(t):
    """300 intervals, so that pointers have two bytes; then many records in few intervals."""
    t.text("== walks: 300 intervals")
    r = random.Random("walks")
    m, numbers = Measures(1024, 2, 4, 60), r.sample(range(300), 300)
    entries = [(b"%02d" % (2 * i + 1), number) for i, number in enumerate(numbers[:39])] + [(b"", numbers[39])]
    data = {number: [b"--%02d%02d" % (2 * i + 1, j) + b"." * ((7 * i + j // 3) % 5) for j in range((0, 1, 4)[i % 3])] for i, (_, number) in enumerate(entries)}
    assert max(data) > 255
    t.lay(area_of(1024, entries, numbers[40:], data))
    ends(t, m, 6)
    for given in (b"00", b"01", b"0103", b"02", b"0700", b"39", b"4001", b"77", b"78", b"9", b"\0", b"\xff"):
        both(t, m, given, 3)
    t.text("steps from other places")
    first = begun(t.area, m, True)[0]
    for right, end in itertools.product((0, 3, 4, 5, 1016, 1017, 1018, 1025), (0, 1013)):
        step(t, m, True, first._replace(left=0, right=right, end=end))
    for entry in (0, 1, 39, 40, 41, 299, 300, 65536):
        for forward in (True, False):
            step(t, m, forward, first._replace(entry=entry, left=0, at=1020))
    t.text("== walks: 545 records of 60 in each of two intervals")
    m = Measures(32768, 0, 8, 60)
    keys = [b"%08d" % (2 * i + 1) for i in range(1090)]
    t.lay(area_of(32768, [(keys[544], 1), (b"", 0)], [], {1: [filled(key, 60) for key in keys[:545]], 0: [filled(key, 60) for key in keys[545:]]}))
    ends(t, m, 3)
    for given in (keys[0], keys[1], keys[543], keys[544], keys[545], keys[1089], b"00001089", b"00001090", b"0000108", b"0000109", b"00000000", b"00002180"):
        both(t, m, given, 3)


# ---- refusals

def refused(t):
    """1, 2, 3 in this order, and then nothing; 5 last. From an end no 3 and no 5."""
    t.text("== walks: refused")
    for place, area in ((0, bent(SOUND, 16, b"\2")), (1, bent(SOUND, FIRST + 510, b"\x81")), (2, bent(SOUND, SECOND, b"B")), (3, bent(SOUND, THIRD + 505, b"\x40")),
                        (4, bent(SOUND, FREE + 508, bytes(4))), (0, bent(SOUND, 22, b"\1\xf0"))):
        t.lay(area)
        for given in (None, b"A", b"", b"AAAAA", b"\xff"):
            assert both(t, M4, given) == [(2, (place,))] * 2
    t.lay(SOUND)
    t.text("measures, lengths of the area")
    for m in (M4._replace(size=0), M4._replace(size=513), M4._replace(key=0), M4._replace(most=506), M4._replace(offset=2 ** 64 - 1), Measures(*[2 ** 64 - 1] * 4)):
        for given in (None, b"A", b""):
            assert both(t, m, given) == [(1, ())] * 2
    for lent, answer in ((0, (1, ())), (SIZE, (1, ())), (len(SOUND) - 1, (1, ())), (len(SOUND) - SIZE, (2, (0,)))):
        assert walk(t, M4, True, lent=lent) == walk(t, M4, False, b"", lent=lent) == answer
    t.text("other measures than the area was laid by")
    for m in ((0, 3, 505), (0, 2, 505), (0, 4, 10), (1, 4, 505)):
        both(t, Measures(SIZE, *m), b"AB")


# ---- places that nobody gave out

def extremes(area, size):
    return (0, 1, size - 1, size, 2 * size, len(area) - 1, len(area), 2 ** 63, 2 ** 64 - 1)


def hurt():
    """SOUND, and areas with damage that a step may meet: RDFs, CIDFs, entries, numbers past the last."""
    yield "sound", SOUND
    yield "d past the interval, u at its highest", bent(bent(SOUND, FIRST + 508, b"\xff\xff\x7f\xff"), THIRD + 508, b"\x01\xf0\x81\xf0")
    yield "RDFs of all kinds", data_with(0, bytes(454) + b"".join(rdf(control, value) for control, value in (
        (0x08, 65535), (0x40, 65535), (0x00, 65535), (0x08, 1), (0x40, 8), (0x08, 0), (0x40, 8), (0x40, 0), (0x00, 0), (0x10, 9), (0x08, 3), (0x40, 8), (0x00, 8),
        (0x08, 3), (0x40, 16), (0x00, 8), (0x08, 2), (0x40, 8))) + b"\0\1\1\xc5")
    yield "entries that lead nowhere", bent(bent(SOUND, 489, bytes([0, 255, 255, 255, 9])), 20, b"\0\0")
    yield "numbers of intervals past the last", bent(bent(SOUND, 504, b"\4"), 493, b"\7")
    yield "nothing but X'FF'", b"\xff" * len(SOUND)
    yield "nothing but zeros", bytes(len(SOUND))


def made_up(t):
    """Each number of a place at its extremes, one after another, both ways, on areas with and without damage."""
    known = [begun(SOUND, M4, True)[place] for place in (0, 1, 4)] + [begun(SOUND, M4, False)[place] for place in (0, 3)]
    for name, area in hurt():
        t.text("== steps from other places: " + name)
        t.lay(area)
        for p in known:
            for forward in (True, False):
                step(t, M4, forward, p, 6)
        for p in (known[0], known[2], known[4]):
            for place, value in itertools.product(range(7), extremes(area, SIZE)):
                for forward in (True, False):
                    step(t, M4, forward, p[:place] + (value,) + p[place + 1:])
    t.text("== steps from other places: all numbers alike, and starts with lengths")
    t.lay(SOUND)
    for value in extremes(SOUND, SIZE):
        for forward in (True, False):
            step(t, M4, forward, (value,) * 7)
            step(t, M4, forward, (0,) + (value,) * 6)
    for start, length, left in itertools.product(extremes(SOUND, SIZE), (1, 8, SIZE, len(SOUND), 2 ** 63, 2 ** 64 - 1), (0, 1)):
        for forward in (True, False):
            step(t, M4, forward, (1, start, length, left, 505, 499, 497))


def close_by(t):
    """Every place at which the RDFs of an interval may be said to end, and entries of the index record said to end at its edges."""
    t.text("== steps with RDFs that end elsewhere")
    for area in (SOUND, dict(hurt())["RDFs of all kinds"]):
        t.lay(area)
        for at in range(448, SIZE + 2):
            for forward in (True, False):
                step(t, M4, forward, Place(0, FIRST + 8, 8, 0, at, 499, 497), 1)
    t.text("== steps with entries that end elsewhere")
    for base in ("00000000", "00040000", "00020000", "00050000", "00010000"):
        t.lay(bent(SOUND, 4, bytes.fromhex(base)))
        for right in itertools.chain(range(12), range(486, 508)):
            for end in (max(right - 3, 0), 0):
                step(t, M4, True, Place(0, FIRST + 8, 8, 0, 502, right, end))


def other_sizes(t):
    """A place that was given out, and another size of intervals than it was given out for; an area that was cut, one that was changed."""
    t.text("== steps with other sizes")
    t.lay(SOUND)
    for size in (0, 1, 23, 24, 511, 512, 513, 1024, len(SOUND) - 1, len(SOUND), len(SOUND) + 1, 2 ** 63, 2 ** 64 - 1):
        for forward in (True, False):
            for p in begun(SOUND, M4, forward)[1:3]:
                step(t, M4._replace(size=size), forward, p)
    t.text("== steps on an area that was cut")
    for length in (0, 1, SIZE, 2 * SIZE - 1, 2 * SIZE, 3 * SIZE, 4 * SIZE):
        t.lay(SOUND[:length])
        for forward in (True, False):
            for p in begun(SOUND, M4, forward):
                step(t, M4, forward, p)
    t.text("== steps after a change")
    for letter, content in (("E", b"AB01"), ("I", filled(b"AA00", 8)), ("U", filled(b"AA01", 300)), ("I", filled(b"AAAA", 300))):
        t.lay(SOUND)
        t.ask(letter, M4, content)
        for forward in (True, False):
            for p in begun(SOUND, M4, forward):
                step(t, M4, forward, p, 6)


CASES = (begins, none_and_one, keys_behind, emptied, groupings, sectioned, wide, refused, made_up, close_by, other_sizes)
