"""The cases of trial on refusals 1 and 2: measures, areas that are sound in other ways than a writer's, damage, and each rule broken alone.

Each function writes its cases to a Script. The area of most of them, SOUND, has four intervals of 512 bytes: the entries AB, C and the last
name 0, 2 and 1, and 3 is free. AB and C are the first section, the last entry is the second.
"""
import model
from layout import HEADER, Part, area_of, bent, data_interval, index_frame, index_interval, old_index_interval, parts_of, rdf
from model import Measures

SIZE, MOST = 512, 505
M4 = Measures(SIZE, 0, 4, MOST)
HIGHEST = 2 ** 64 - 1


# ---- refusal 1

def measures(t):
    t.text("== measures")
    empty = area_of(SIZE, [(b"", 0)], [], {})
    t.text("M 505, 506; record of 506 under M 505")
    t.lay(empty)
    t.answers(t.ask("C", Measures(SIZE, 0, 8, 505)), 0, 0, 0)
    t.answers(t.ask("C", Measures(SIZE, 0, 8, 506)), 1)
    t.answers(t.ask("I", Measures(SIZE, 0, 8, 505), bytes(506)), 3)
    for m, number in edges_of_measures():
        t.text("S %d, offset %d, K %d, M %d" % m)
        answer = t.ask("C", Measures(*m))
        assert answer.number == number, (m, answer)
    t.text("each request with M 506 and with S 0; then lengths 0, one byte short, 512")
    for m in (Measures(SIZE, 0, 8, 506), Measures(0, 0, 8, 60)):
        for letter in "CGRIUE":
            t.answers(t.ask(letter, m, b"" if letter in "CR" else b"A0000001", out=3 if letter in "GR" else 0), 1)
    for lent in (0, len(empty) - 1, SIZE):
        t.answers(t.ask("C", Measures(SIZE, 0, 8, 60), lent=lent), 1)
    interval_sizes(t)


def edges_of_measures():
    """Measures, and 0 or 1: K and M at their edges, each number at 0 and near the highest there is, sums that would be small again."""
    for offset, key, most, number in ((0, 0, 60, 1), (0, 1, 60, 0), (0, 255, 255, 0), (0, 256, 256, 1), (52, 8, 60, 0), (53, 8, 60, 1),
                                      (497, 8, 505, 0), (498, 8, 505, 1), (HIGHEST - 7, 8, 60, 1), (HIGHEST, 1, 60, 1)):
        yield (SIZE, offset, key, most), number
    for place in range(4):
        for hostile in (0, 2 ** 63, HIGHEST - 7, HIGHEST):
            numbers = [SIZE, 0, 8, 60]
            numbers[place] = hostile
            yield tuple(numbers), 0 if numbers == [SIZE, 0, 8, 60] else 1


def interval_sizes(t):
    t.text("sizes that are none: 1, 511, 513, 1000, 8704, 16383, 32769, 34816")
    t.lay(bytes(69632))
    for size in (1, 511, 513, 1000, 8704, 16383, 32769, 34816):
        t.answers(t.ask("C", Measures(size, 0, 8, 60), lent=2 * size), 1)
    for size in (8192, 10240):
        t.text("S %d" % size)
        t.lay(area_of(size, [(b"", 0)], [], {}))
        t.answers(t.ask("C", Measures(size, 0, 8, 60)), 0, 0, 0)


# ---- refusal 2: areas that are sound in another way than a writer's, areas with damage

ENTRIES = [(b"AB", 0), (b"C", 2), (b"", 1)]
DATA = {0: [b"AA01HHHH", b"AB01KKKK"], 1: [b"DD01EEEEE"], 2: [b"BB01HHHH", b"CC01KKKKKKK"]}
KEYS = (b"AA01", b"BB01", b"DD01")
SOUND = area_of(SIZE, ENTRIES, [3], DATA)
FIRST, SECOND, THIRD, FREE = (SIZE * place for place in (1, 2, 3, 4))

# where the control information of its entries stands, and the fields of its two sections
AB_AT, C_AT, LAST_AT = 502, 497, 491
C_FIELD, LAST_FIELD = 494, 489
assert SOUND[18:24] == bytes([0, 25]) + LAST_AT.to_bytes(2, "big") + C_AT.to_bytes(2, "big")
assert SOUND[LAST_FIELD:505] == bytes([0, 0, 0, 0, 1, 0, C_AT - LAST_AT]) + b"C" + bytes([0, 1, 2]) + b"AB" + bytes([0, 2, 0])

# 257 intervals, so that pointers and free numbers have two bytes
WIDE = area_of(1024, [(b"M", 256), (b"", 0)], list(range(255, 0, -1)), {256: [b"AA01"], 0: [b"ZZ01"]})
M_WIDE = Measures(1024, 0, 4, 60)


def data_with(number, interval):
    """The sound area with other bytes for a data interval."""
    return bent(SOUND, SIZE * (number + 1), interval)


def index_with(entries, free, data, sections=None):
    """An index record and four data intervals, whether or not they are all named."""
    return index_interval(entries, free, SIZE, sections=sections) + intervals(data)


def intervals(data):
    """Four data intervals."""
    return b"".join(data_interval(data.get(number, []), SIZE) for number in range(4))


def two(number):
    return number.to_bytes(2, "big")


def with_end(body, fields, d, u):
    """A data interval by its parts; unused bytes are zero."""
    end = fields + d.to_bytes(2, "big") + u.to_bytes(2, "big")
    return body + bytes(SIZE - len(body) - len(end)) + end


def tried(t, name, area, m=M4, number=None):
    """The check of an area, then gets by key, which judge less: the index record as the check does, then no interval but their own. A wrong length is 3
    right after the index record."""
    t.text(name)
    t.lay(area)
    answer = t.ask("C", m)
    assert number is None or answer.number == number, name
    for key in KEYS:
        got = t.ask("G", m, key.ljust(m.key, b"."))
        own = got.number == answer.number == 2 and got.values >= answer.values
        assert got == answer if answer == (2, (0,)) else own or got.number in (5, 8), (name, key, got)
    t.answers(t.ask("G", m, bytes(m.key + 1)), *((2, 0) if answer == (2, (0,)) else (3,)))


def sound_varieties(t):
    t.text("== sound in other ways than a writer's")
    for name, area in (("as laid", SOUND),
                       ("other unused bytes", bent(SOUND, FIRST + 16, b"left over")),
                       ("two singles for a run", bent(SOUND, FIRST + 502, rdf(0, 8) + rdf(0, 8))),
                       ("kept bytes", bent(SOUND, 8, bytes(range(1, 9)))),
                       ("base at the limit", bent(SOUND, 4, bytes.fromhex("fffff800"))),
                       ("a key at its own bound", bent(SOUND, FIRST + 8, b"AB\xff\xff")),
                       ("a key just above the bound before", bent(SOUND, SECOND, b"D\0\0\0")),
                       ("what looks like an entry left of the last", bent(SOUND, LAST_FIELD - 4, b"Z" + bytes([0, 1, 7]))),
                       ("what looks like a section left of the last", bent(SOUND, LAST_FIELD - 6, bytes([0, 4]) + b"Z" + bytes([0, 1, 7]))),
                       ("sections of one and two", area_of(SIZE, ENTRIES, [3], DATA, sections=[1, 2])),
                       ("sections of one each", area_of(SIZE, ENTRIES, [3], DATA, sections=[1, 1, 1])),
                       ("two entries in sections of one", area_of(SIZE, ENTRIES[:1] + [(b"", 1)], [3, 2], {}, sections=[1, 1])),
                       ("pointers swapped, and the intervals empty", area_of(SIZE, [(b"AB", 2), (b"C", 0), (b"", 1)], [3], {})),
                       ("a separator of K bytes", area_of(SIZE, [(b"AB99", 0)] + ENTRIES[1:], [3], DATA)),
                       ("three of a length as a single and a run", data_with(1, data_interval([b"DD01", b"DD02", b"DD03"], SIZE, [(4, 1), (4, 2)])))):
        tried(t, name, area, number=0)
    t.text("a run of two after two singles of its length")
    four = [b"DD0%dEE" % i for i in range(4)]
    t.lay(data_with(1, data_interval(four, SIZE, [(6, 1), (6, 1), (6, 2)])))
    t.ask("C", M4)
    t.ask("G", M4, b"DD03", out=6)


def several_rules(t):
    """Cases of the former program that break more than one rule, and which place counts."""
    t.text("== damage")
    for name, area in (("displacement", bent(SOUND, FIRST + 508, b"\0\x11")),
                       ("end of file", bent(SOUND, FREE + 508, bytes(4))),
                       ("a pair with no count", bent(SOUND, THIRD + 505, b"\x40")),
                       ("leftmost of a pair", bent(SOUND, THIRD + 502, b"\x40")),
                       ("run and count the wrong way round", bent(SOUND, FIRST + 502, rdf(0x40, 8) + rdf(0x08, 2))),
                       ("lengths that do not add up, the keys elsewhere", bent(SOUND, FIRST + 506, b"\0\7")),
                       ("too short for a key", bent(SOUND, THIRD + 502, rdf(0, 16) + rdf(0, 3))),
                       ("a length of 506 under M 505", bent(SOUND, SECOND + 505, bytes.fromhex("0001fa01fa0000"))),
                       ("F past the separator before", bent(SOUND, C_AT, b"\3")),
                       ("F past the highest before, not past the separator before", later_front()),
                       ("a separator longer than K by F and L", index_with([(b"AB", 0), (b"ABCDE", 2), (b"", 1)], [3], DATA, sections=[1, 2])),
                       ("F and L of 255", bent(SOUND, C_AT, b"\xff\xff")),
                       ("ends in FF", bent(SOUND, C_AT - 1, b"\xff")),
                       ("empty before the last", index_with([(b"AB", 0), (b"", 2), (b"", 1)], [3], {})),
                       ("no characters at the end, but an F", bent(SOUND, LAST_AT, b"\1")),
                       ("a number twice", bent(SOUND, 504, b"\2")),
                       ("free and used", bent(SOUND, 24, b"\1")),
                       ("a number past the last, free", bent(SOUND, 24, b"\4")),
                       ("a number past the last, used", bent(SOUND, 504, b"\4")),
                       ("unused one less", bent(SOUND, 18, b"\0\x18")),
                       ("unused one more", bent(SOUND, 18, b"\0\x1a")),
                       ("last entry at the one before", bent(SOUND, 20, two(C_AT))),
                       ("last entry at the one before, and one section", bent(bent(SOUND, 20, two(C_AT)), C_FIELD, two(0))),
                       ("last entry in the header", bent(SOUND, 20, two(10) * 2)),
                       ("last entry past the record", bent(SOUND, 20, two(506) * 2)),
                       ("last entry at no place", bent(SOUND, 20, b"\xff\xff\xff\xff")),
                       ("unused past the record", bent(SOUND, 18, b"\xff\xff")),
                       ("d and u of 65535 and 32767", bent(SOUND, FIRST + 508, b"\xff\xff\x7f\xff")),
                       ("a count of 65535", bent(SOUND, FIRST + 502, rdf(0x08, 65535) + rdf(0x40, 65535)))):
        tried(t, name, area, number=2)
    places(t)


def places(t):
    """Which place is told, and that 2 stands before 3 in every request but get by key, where 3 stands right after the index (D13 to D15, F1; document
    02, L4)."""
    t.text("== the place")
    busy = {place: bent(SOUND, place + 510, b"\x81") for place in (FIRST, SECOND, THIRD, FREE)}
    for name, area, place in (("index before data", bent(busy[FIRST], 16, b"\2"), 0),
                              ("the lowest number, though the key order has another first", bent(bent(SOUND, SECOND, b"B"), THIRD, b"D"), 2),
                              ("busy, the third", busy[THIRD], 3),
                              ("busy, a free one", busy[FREE], 4),
                              ("pointers swapped: the lowest with a key outside", index_with([(b"AB", 1), (b"C", 2), (b"", 0)], [3], DATA), 1),
                              ("pointers swapped, the lower interval empty", index_with([(b"AB", 1), (b"C", 2), (b"", 0)], [3], {1: DATA[1]}), 2)):
        t.text(name)
        t.lay(area)
        t.answers(t.ask("C", M4), 2, place)
    t.text("each request of an area with damage, with lengths that would be 3")
    t.lay(busy[THIRD])
    for letter in "CGRIUE":
        come = (3,) if letter == "G" else (2, 3)
        t.answers(t.ask(letter, M4, b"" if letter in "CR" else b"A", out=5 if letter in "GR" else 0), *come)
    t.text("a buffer cut by an interval, and by two")
    t.lay(SOUND)
    t.answers(t.ask("C", M4, lent=4 * SIZE), 2, 0)
    t.answers(t.ask("C", M4, lent=3 * SIZE), 2, 0)
    t.text("other measures than the area was laid by: M 11, 10, 8; K 3, 5, 1; offset 4, 1")
    for m in ((0, 4, 11), (0, 4, 10), (0, 4, 8), (0, 3, 505), (0, 5, 505), (0, 1, 505), (4, 4, 505), (1, 4, 505)):
        t.ask("C", Measures(SIZE, *m))


# ---- each rule broken alone

def all_of_key(*entries):
    return area_of(SIZE, list(entries), [3], {0: DATA[0], 1: DATA[1]})


def overlapping():
    """Entries down to byte 24, and the free list one byte into them: the first byte of the last section's field, 0, is read as the free number 0."""
    index = index_interval([(b"A" * 234, 1), (b"B" * 234, 2), (b"", 3)], [], SIZE)
    assert index[18:22] == two(HEADER) + two(HEADER + 2)
    return bent(index, 18, two(HEADER + 1)) + data_interval([], SIZE) * 4


def by_front():
    """41 FF 05, then F 2 and L 0: the separator 41 FF ends in X'FF' though no character is written (D6)."""
    entries, sections = [(b"A\xff\x05", 0), (b"A\xff", 2), (b"", 1)], [1, 2]
    assert parts_of(entries, sections)[1] == Part(b"", 2, 2, False)
    return area_of(SIZE, entries, [3], {0: DATA[0], 2: [b"A\xff\x06\x01"], 1: DATA[1]}, sections=sections)


def below_the_one_before():
    """The highest of the second section is above the highest before it, but not above the entry before it, C."""
    return index_with([(b"A", 0), (b"C", 2), (b"B", 1), (b"", 3)], [], {0: DATA[0][:1]}, sections=[1, 2, 1])


def front_of_the_one_before():
    """A, then CA and a second section's highest with F 1 and D: that is AD, though CD would stand there if F were counted against CA."""
    parts = [Part(b"A", 0, 0, True), Part(b"CA", 0, 2, False), Part(b"D", 1, 1, True), Part(b"", 0, 3, True)]
    return index_frame(parts, [], SIZE) + intervals({})


def later_front():
    """A, then BCD and a second section's highest with F 2: more than A has."""
    parts = [Part(b"A", 0, 0, True), Part(b"BCD", 0, 2, False), Part(b"D", 2, 1, True), Part(b"", 0, 3, True)]
    return index_frame(parts, [], SIZE) + intervals({})


def alone():
    """(rule, name, area, measures): the area breaks this rule and no other."""
    return [(*each, M4) if len(each) == 3 else each for each in index_alone() + data_alone()]


def index_alone():
    return [
        ("record length", "504", bent(SOUND, 0, b"\1\xf8")),
        ("control length", "4", bent(SOUND, 2, b"\4")),
        ("pointer indicator", "3", bent(SOUND, 3, b"\3")),
        ("base", "one past the limit", bent(SOUND, 4, bytes.fromhex("fffff801"))),
        ("base", "the highest number", bent(SOUND, 4, b"\xff" * 4)),
        ("level", "2", bent(SOUND, 16, b"\2")),
        ("index RDF", "X'40'", bent(SOUND, 505, b"\x40")),
        ("index RDF's length", "504", bent(SOUND, 506, b"\1\xf8")),
        ("index CIDF", "504", bent(SOUND, 508, b"\1\xf8")),
        ("index CIDF's unused", "1", bent(SOUND, 510, b"\0\1")),
        ("index CIDF's unused", "busy", bent(SOUND, 510, b"\x80\0")),
        ("F", "1 in the first entry", bent(SOUND, AB_AT, b"\1")),
        ("F", "1 in the first section's highest, behind AB", bent(SOUND, C_AT, b"\1")),
        ("separator's length", "5 for K 4", all_of_key((b"ABCDE", 0), (b"C", 2), (b"", 1))),
        ("X'FF'", "43 FF", area_of(SIZE, [(b"AB", 0), (b"C\xff", 2), (b"", 1)], [3], DATA)),
        ("X'FF'", "by F with L 0", by_front()),
        ("bounds", "descend", all_of_key((b"C", 0), (b"AB", 2), (b"", 1))),
        ("bounds", "equal", all_of_key((b"AB", 0), (b"AB", 2), (b"", 1))),
        ("bounds", "a longer separator after its own front", all_of_key((b"C", 0), (b"CA", 2), (b"", 1))),
        ("bounds", "a section's highest, above the highest before", below_the_one_before()),
        ("bounds", "a section's highest, with the front of the highest before", front_of_the_one_before()),
        ("one entry", "none, all free", index_with([], [3, 2, 1, 0], {})),
        ("last empty", "Z", index_with([(b"AB", 0), (b"C", 2), (b"Z", 1)], [3], DATA)),
        ("last entry", "at a field", bent(SOUND, 20, two(C_FIELD))),
        ("last entry", "at its own field", bent(SOUND, 20, two(LAST_FIELD))),
        ("last entry", "0", bent(SOUND, 20, two(0))),
        ("first section", "one byte after its highest's F", bent(SOUND, 22, two(C_AT + 1))),
        ("first section", "past the record", bent(area_of(SIZE, ENTRIES, [3], DATA, sections=[1, 2]), 22, b"\xff\xff")),
        ("chain", "zero too early", bent(SOUND, C_FIELD, two(0))),
        ("chain", "one byte after the next highest's F", bent(SOUND, C_FIELD, two(C_AT - LAST_AT - 1))),
        ("chain's end", "one byte before the last F", bent(SOUND, C_FIELD, two(C_AT - LAST_AT + 1))),
        ("chain's end", "what looks like an entry, but is not reached", bent(bent(SOUND, C_FIELD, two(C_AT - 486)), 484, bytes([0, 0, 0, 0, 3]))),
        ("chain's end", "at the free numbers", bent(SOUND, C_FIELD, two(C_AT - HEADER))),
        ("chain's end", "larger than the record", bent(SOUND, C_FIELD, b"\xff\xff")),
        ("last field", "1", bent(SOUND, LAST_FIELD, two(1))),
        ("last field", "leads on", bent(SOUND, LAST_FIELD, two(5))),
        ("last field", "256, of a single section", bent(area_of(SIZE, ENTRIES[:1] + [(b"", 1)], [3, 2], {}), 495, two(256))),
        ("single section", "three entries", area_of(SIZE, ENTRIES, [3], DATA, sections=[3])),
        ("single section", "the form without sections", area_of(SIZE, ENTRIES, [3], DATA, found={0: old_index_interval(ENTRIES, [3], SIZE)})),
        ("unused field", "23", bent(area_of(SIZE, ENTRIES, [], DATA), 18, b"\0\x17")),
        ("unused field", "0", bent(area_of(SIZE, ENTRIES, [], DATA), 18, b"\0\0")),
        ("overlap", "by one byte", overlapping(), Measures(SIZE, 0, 255, MOST)),
        ("number below n", "4 of 4, free", index_with(ENTRIES, [3, 4], DATA)),
        ("number below n", "255 of 4, used", index_with([(b"@", 255)] + ENTRIES, [3], DATA)),
        ("named once", "free twice", index_with(ENTRIES, [3, 3], DATA)),
        ("named once", "free and used, and empty", index_with([(b"@", 3)] + ENTRIES, [3], DATA)),
        ("all named", "3 is not", index_with(ENTRIES, [], DATA)),
        ("control length", "3 for 257 intervals", bent(WIDE, 2, b"\3"), M_WIDE),
        ("pointer indicator", "1 for 257 intervals", bent(WIDE, 3, b"\1"), M_WIDE),
        ("whole numbers", "one byte more than 255 of them", bent(WIDE, 18, (HEADER + 511).to_bytes(2, "big")), M_WIDE),
        ("number below n", "257 of 257, used", index_interval([(b"@", 257), (b"M", 256), (b"", 0)], list(range(255, 0, -1)), 1024) + WIDE[1024:], M_WIDE),
    ]


def data_alone():
    pair = b"DD01EDD02E"
    return [
        ("busy", "in use", bent(SOUND, FIRST + 510, b"\x81\xe6")),
        ("busy", "free", bent(SOUND, FREE + 510, b"\x81\xfc")),
        ("equation", "u one less", bent(SOUND, FIRST + 510, b"\1\xe5")),
        ("equation", "u two less", bent(SOUND, FIRST + 510, b"\1\xe4")),
        ("equation", "u one less, free", bent(SOUND, FREE + 510, b"\1\xfb")),
        ("equation", "u one more, free", bent(SOUND, FREE + 510, b"\1\xfd")),
        ("control byte", "spanning, first", bent(SOUND, SECOND + 505, b"\x10")),
        ("control byte", "spanning, last", bent(SOUND, SECOND + 505, b"\x20")),
        ("control byte", "empty slot", bent(SOUND, SECOND + 505, b"\4")),
        ("control byte", "reserved bits", bent(SOUND, SECOND + 505, b"\x80")),
        ("control byte", "reserved bits, the last", bent(SOUND, SECOND + 505, b"\1")),
        ("control byte", "a count alone", bent(SOUND, SECOND + 505, b"\x08")),
        ("pair within", "the count lies in the unused space", data_with(1, with_end(pair, rdf(8, 2) + rdf(0x40, 5), 10, 495))),
        ("partner", "X'00'", bent(SOUND, FIRST + 502, b"\0")),
        ("partner", "X'48'", bent(SOUND, FIRST + 502, b"\x48")),
        ("partner", "X'18'", bent(SOUND, FIRST + 502, b"\x18")),
        ("count", "1", bent(SOUND, FIRST + 502, rdf(8, 1) + rdf(0x40, 16))),
        ("count", "0, beside a single", data_with(1, with_end(b"DD01EEEEE", rdf(8, 0) + rdf(0x40, 9) + rdf(0, 9), 9, 490))),
        ("least length", "3 for K 4", data_with(1, with_end(b"DD0", rdf(0, 3), 3, 502))),
        ("least length", "0", data_with(0, with_end(b"", rdf(0, 0), 0, 505))),
        ("least length", "8 where the key stands at 5", offset_area(8), Measures(SIZE, 5, 4, MOST)),
        ("greatest length", "11 for M 10", SOUND, Measures(SIZE, 0, 4, 10)),
        ("greatest length", "9 for M 8", data_with(2, data_interval(DATA[2][:1], SIZE)), Measures(SIZE, 0, 4, 8)),
        ("sum", "one less than d", bent(SOUND, FIRST + 502, rdf(0, 7) + rdf(0, 8))),
        ("sum", "one more than d", bent(SOUND, FIRST + 502, rdf(0, 9) + rdf(0, 8))),
        ("keys ascend", "a key twice", bent(SOUND, FIRST + 8, b"AA01")),
        ("keys ascend", "a key lower than the one before", bent(SOUND, FIRST + 8, b"AA00")),
        ("free is empty", "one record", data_with(3, data_interval([b"CZ01HHHHH"], SIZE))),
        ("above the bound before", "at it", bent(SOUND, SECOND, b"C\xff\xff\xff")),
        ("above the bound before", "below it", bent(SOUND, SECOND, b"CZ99")),
        ("at most its own bound", "above it", bent(SOUND, FIRST + 8, b"AC01")),
        ("at most its own bound", "just above it", bent(SOUND, FIRST + 8, b"AC\0\0")),
    ]


def offset_area(length):
    """Keys behind five bytes, K 4, and one record that ends before its key does."""
    return area_of(SIZE, [(b"", 0)], [], {0: [(b"....." + key)[:long] for key, long in ((b"AA0", length), (b"AA01", 9))]})


def led(area, m, key):
    """The number of the interval that a key leads to, where the index record is sound."""
    index = model.opened_index(area, m)
    return index.entries[index.entry_of(key)][1]


def rules_alone(t):
    """Leaving that one rule out changes the answer to 0, and leaving out any other changes nothing: so the area breaks it alone."""
    t.text("== each rule broken alone")
    met = set()
    for rule, name, area, m in alone():
        number, place = model.check(area, m).number, model.check(area, m).values
        assert number == 2 and model.check(area, m, without=rule).number == 0, (rule, name)
        for other in model.RULES:
            assert other == rule or model.check(area, m, without=other) == (2, place), (rule, name, other)
        assert (place == (0,)) == (rule in model.INDEX_RULES), (rule, name)
        for key in KEYS if rule in model.DATA_RULES else ():
            assert (model.get(area, m, key, b"")[0] == (2, place)) == (led(area, m, key) + 1 in place), (rule, name, key)
        met.add(rule)
        tried(t, "%s: %s" % (rule, name), area, m)
    assert met == set(model.RULES), set(model.RULES) - met
