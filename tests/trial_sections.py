"""The cases of trial on the sections of an index record (document 02, L5): worked bytes, numbers of entries at which the sections change, sections that
another writer left, the form that had none, links that lead elsewhere, and what 7 counts.

Each function writes its cases to a Script. Bytes stand here as the papers work them out, and the model is held to them.
"""
import model
from layout import HEADER, area_of, bent, data_interval, index_interval, index_size, old_index_interval, writers_sections
from model import Measures
from trial_script import filled
from trial_soundness import ENTRIES, M4, MOST, SIZE, two

LONG = Measures(SIZE, 0, 255, MOST)


def leads(t, m, key, number):
    """An insert under this key goes into that interval."""
    t.made(t.ask("I", m, key.ljust(m.least, b".")), 0, 1, number + 1)
    assert key in t.area[(number + 1) * m.size:(number + 2) * m.size], (key, number)


# ---- worked bytes

def front_before_the_last(t):
    """F 1 and L 0, and yet not the last entry."""
    t.text("== separators 41, then 42 43, then 42")
    t.lay(area_of(SIZE, [(b"A", 0), (b"BC", 1), (b"B", 2), (b"", 3)], [], {}))
    t.says(18, "0018 01e8 01f2")
    t.says(486, "0000 000003 010002 000a 4243 000201 41 000100")
    t.answers(t.ask("C", M4), 0, 0, 0)
    for key, number in ((b"A999", 0), (b"BC99", 1), (b"BD00", 2), (b"B\xff\xff\xff", 2), (b"C000", 3)):
        leads(t, M4, key, number)
    t.answers(t.ask("C", M4), 0, 5, 0)


FIGURE_38 = (("12345", "12350", "1234"), ("12356", "12357", "12356"), ("12359", "12370", "1235"), ("12401", "12405", "12401"),
             ("12421", "12900", "124"), ("13456", "13567", "134"))


def figure_38(t):
    """Source document 001, Figure 38: each cut of its own, then all entries in one record, in sections of three, three and one."""
    m = Measures(SIZE, 0, 5, MOST)
    t.text("== figure 38")
    for left, right, separator in FIGURE_38:
        t.text("%s and %s: %s" % (left, right, separator))
        t.lay(area_of(SIZE, [(b"", 0)], [1], {0: [filled(left.encode(), 300)]}))
        t.made(t.ask("I", m, filled(right.encode(), 300)), 0, 3, 0, 1, 2)
        t.says(505 - 3 - len(separator), separator.encode().hex() + "00%02x00" % len(separator))
    t.text("all entries")
    entries = [(separator.encode(), number) for number, (_, _, separator) in enumerate(FIGURE_38)] + [(b"", 6)]
    t.lay(area_of(SIZE, entries, [], {}))
    t.says(18, "0018 01d1 01ea")
    t.says(463, "0000 000006" + "0007 3334 010205" + "030004" + "343031 020303" + "0012 31323335 000402" + "3536 030201" + "31323334 000400")
    t.answers(t.ask("C", m), 0, 0, 0)
    t.text("12402, 124 FF FF, 12500, 134 FF FF, 13500")
    for key, number in ((b"12402", 4), (b"124\xff\xff", 4), (b"12500", 5), (b"134\xff\xff", 5), (b"13500", 6)):
        leads(t, m, key, number)
    t.text("in sections of two, two and three: F 4 and L 0 in 1235, as in the figure; F 5 and L 0")
    t.lay(area_of(SIZE, entries, [], {}, sections=[2, 2, 3]))
    t.says(485, "040002 000d 3132333536 000501")
    t.answers(t.ask("C", m), 0, 0, 0)
    t.lay(bent(t.area, 485, b"\5"))
    t.answers(t.ask("C", m), 2, 0)


def digits(text):
    """Digits as the bureau's machine has them: F0 to F9."""
    return text.encode("cp037")


def cut(t, m, left, right):
    """A cut between two keys: records that no interval holds together, and that go again."""
    for key, count in ((digits(left), 1), (digits(right), 3)):
        t.made(t.ask("I", m, filled(key, m.size * 3 // 5)), 0, count)
    for key in (digits(left), digits(right)):
        t.made(t.ask("E", m, key), 0, 1)


def empty(size, n):
    return area_of(size, [(b"", 0)], range(n - 1, 0, -1), {})


FIVE = [(digits(separator), number) for separator, number in (("1234", 0), ("12356", 3), ("1235", 1), ("12401", 4), ("", 2))]
TEN = [(digits(separator), number) for number, separator in enumerate(("1234", "12356", "1235", "12401", "124", "134", "1357", "13", "2", ""))]


def five_entries(t):
    """Four of the figure's separators and the last, by divisions and as laid; the fifth entry changes the sections from two each to three and two."""
    for size, n, places, entries in (
            (SIZE, 8, "001b 01db 01ea 070605", "0000 000002 f4f0f1 020304 000f f1f2f3f5 000401 f5f6 030203 f1f2f3f4 000400"),
            (1024, 300, "0266 03d6 03e7", "0000 00000002 f4f0f1 02030004 0011 f1f2f3f5 00040001 f5f6 03020003 f1f2f3f4 00040000")):
        m = Measures(size, 0, 5, size - 7)
        t.text("== five entries, %d intervals" % n)
        t.lay(empty(size, n))
        for left, right in (("12356", "12357"), ("12401", "12405"), ("12345", "12350"), ("12359", "12370")):
            cut(t, m, left, right)
        assert t.area == area_of(size, FIVE, range(n - 1, 4, -1), {})
        t.says(18, places)
        t.says(size - 7 - len(bytes.fromhex(entries)), entries)
        t.answers(t.ask("C", m), 0, 0, n - 5)
        for key, number in (("12349", 0), ("12356", 3), ("12359", 1), ("12399", 4), ("12402", 2)):
            leads(t, m, digits(key), number)


def ten_entries(t):
    """Nine cuts, each in the last entry; the tenth entry changes the sections from three each to four, four and two."""
    m = Measures(SIZE, 0, 5, MOST)
    t.text("== ten entries")
    t.lay(empty(SIZE, 12))
    for left, right in [(left, right) for left, right, _ in FIGURE_38] + [("13570", "13580"), ("13900", "14000"), ("29999", "30000")]:
        cut(t, m, left, right)
    assert t.area == area_of(SIZE, TEN, [11, 10], {})
    t.says(18, "001a 01c6 01e7 0b0a")
    t.says(452, "0000 000009 f2 000108 000a f3 010107 f5f7 020206 f3f4 010205 030004 0017 f1f2f4f0f1 000503 040002 f5f6 030201 f1f2f3f4 000400")
    t.answers(t.ask("C", m), 0, 0, 2)
    for number, key in enumerate(("12349", "12356", "12359", "12401", "12499", "13499", "13579", "13999", "29999", "30000")):
        leads(t, m, digits(key), number)


# both displacements where the entries have one character each: to the last entry and to the first section's highest
GROWN = {1: "01f6 01f6", 2: "01f2 01f2", 3: "01ec 01f2", 4: "01e8 01f2", 5: "01e4 01ee", 9: "01d2 01ee", 10: "01ce 01ea", 16: "01b4 01ea", 17: "01b0 01e6"}


def growing(t):
    """From one entry to seventeen, each new one by a division of the last: sections of one, two, three, four and five."""
    t.text("== from 1 entry to 17")
    t.lay(empty(SIZE, 18))
    for count in range(1, 18):
        t.made(t.ask("I", M4, filled(bytes([64 + count]) * 4, 300)), 0, *((1, 1) if count == 1 else (3, 0, count - 1, count)))
        if count in GROWN:
            t.says(20, GROWN[count])
    t.answers(t.ask("C", M4), 0, 17, 1)
    for count in range(1, 18):
        t.answers(t.ask("G", M4, bytes([64 + count]) * 4), 8, 300)
    t.text("== from 15 entries to 17 at once")
    entries = [(bytes([65 + i]), i) for i in range(14)] + [(b"", 14)]
    t.lay(area_of(SIZE, entries, [17, 16, 15], {14: [filled(b"PAAA", 250), filled(b"PZZZ", 240)]}))
    t.made(t.ask("I", M4, filled(b"PMMM", 400)), 0, 4, 0, 15, 16, 17)
    t.says(18, "0019 01af 01e6")
    t.answers(t.ask("C", M4), 0, 3, 1)


# ---- sections as another writer left them

def other_sections(t):
    t.text("== divided, where other sections and shorter Fs were found")
    entries = [(b"AAB", 0), (b"AAC", 3), (b"AC", 2), (b"", 1)]
    for sections in ([1, 3], [3, 1], [1, 1, 2], [1, 1, 1, 1], [2, 2]):
        for fronts in (None, [0] * 4):
            found = {0: index_interval(entries, [4], SIZE, bytes(range(13)), sections, fronts, 0xEE)}
            t.lay(area_of(SIZE, entries, [4], {2: [filled(b"ABBB", 300)]}, found=found))
            t.answers(t.ask("C", M4), 0, 1, 1)
            t.made(t.ask("I", M4, filled(b"ABDD", 300)), 0, 3, 0, 3, 5)
            assert t.area[:SIZE] == index_interval(entries[:2] + [(b"ABB", 2), (b"AC", 4), (b"", 1)], [], SIZE, bytes(range(13)))
            t.answers(t.ask("G", M4, b"ABDD"), 8, 300)
    t.text("== a hundred entries in ten sections, in fifty and in a hundred")
    entries = [(b"%02d" % i, 99 - i) for i in range(99)] + [(b"", 0)]
    m = Measures(1024, 0, 4, 60)
    for sections in (None, [2] * 50, [1] * 100):
        t.lay(area_of(1024, entries, [], {}, sections=sections))
        t.answers(t.ask("C", m), 0, 0, 0)
        leads(t, m, b"4699", 53)


def alike(count, long):
    """Separators with a front of so many bytes in common: each costs all of it where it closes a section after one that it does not match."""
    return [b"A" * long + bytes([i + 1]) for i in range(count)]


def only_in_other_sections(t):
    """Three separators of 241 bytes: found in sections of one and three they take little, in the writer's too much."""
    entries = list(zip(alike(3, 240) + [b""], range(4)))
    assert [index_size(entries, [], sections=sections) for sections in ([1, 3], None)] == [283, 523]
    t.text("== three separators of 241, in sections of 1 and 3")
    t.lay(area_of(SIZE, entries, [], {}, sections=[1, 3]))
    t.answers(t.ask("C", LONG), 0, 0, 0)
    t.text("one free; nothing can be divided")
    assert index_size(entries, [4], sections=[1, 3]) == 284
    t.lay(area_of(SIZE, entries, [4], {3: [filled(b"B" * 255, 300)]}, sections=[1, 3]))
    t.answers(t.ask("C", LONG), 0, 1, 1)
    t.made(t.ask("I", LONG, filled(b"C" * 255, 300)), 7)
    t.made(t.ask("U", LONG, filled(b"B" * 255, 400)), 0, 1, 4)
    t.answers(t.ask("C", LONG), 0, 1, 1)


# ---- what 7 counts

def grown_to(t, separators, sections, long, last):
    """A cut in the last of four entries, with a new separator of so many bytes."""
    entries = list(zip(separators + [b""], range(4)))
    keys = [b"Z" * (long - 1) + bytes([byte]) * (256 - long) for byte in b"XY"]
    t.lay(area_of(SIZE, entries, [4], {3: [filled(keys[0], 300)]}, sections=sections))
    t.answers(t.ask("C", LONG), 0, 1, 1)
    t.made(t.ask("I", LONG, filled(keys[1], 300)), *last)
    t.ask("C", LONG)
    return index_size(entries, [4]), index_size(entries[:3] + [(keys[0][:long], 3), (b"", 4)], [])


def counted(t):
    """The fifth entry makes the third a section's highest in the second's place, so that the record becomes shorter or longer by far."""
    short, long = alike(2, 240) + [b"B"], [b"A"] + [b"B" + separator for separator in alike(2, 199)]
    t.text("== 524 bytes in the writer's sections, found in others; 505 and 506 with an entry more")
    assert grown_to(t, short, [1, 3], 219, (0, 3)) == (524, 505)
    assert grown_to(t, short, [1, 3], 220, (7,)) == (524, 506)
    t.text("== 244 bytes; 505 and 506 with an entry more")
    assert grown_to(t, long, None, 59, (0, 3)) == (244, 505)
    assert grown_to(t, long, None, 60, (7,)) == (244, 506)
    t.text("== 444 bytes; 247 with an entry more")
    assert grown_to(t, alike(2, 200) + [b"B"], None, 1, (0, 3)) == (444, 247)
    t.says(18, "0018 011c 0126")


# ---- the form without sections

def in_old_form(t, entries, free, m, filling, *come):
    t.lay(area_of(m.size, entries, free, {}, found={0: old_index_interval(entries, free, m.size, filling=filling)}))
    t.answers(t.ask("C", m), *come)
    for letter, content in (("G", bytes(m.key)), ("I", bytes(m.least)), ("E", bytes(m.key))) if come == (2, 0) else ():
        t.answers(t.ask(letter, m, content), 2, 0)


def old_forms(t):
    """One and two entries are sound where two zero bytes stand left of them, since those are the bytes of the new form; more never are."""
    for entries, free in (([(b"", 0)], [1]), ([(b"M", 0), (b"", 1)], [2])):
        t.text("== the form without sections, %d of %d in use: zeros in the unused space, and others" % (len(entries), len(entries) + 1))
        assert old_index_interval(entries, free, SIZE) == index_interval(entries, free, SIZE)
        in_old_form(t, entries, free, M4, 0, 0, 0, 1)
        in_old_form(t, entries, free, M4, 0xEE, 2, 0)
        left = SIZE - 7 - sum(3 + len(separator) for separator, _ in entries) - 2
        for field in (b"\0\1", b"\1\0"):
            t.lay(bent(area_of(SIZE, entries, free, {}), left, field))
            t.answers(t.ask("C", M4), 2, 0)
        t.lay(bent(area_of(SIZE, entries, free, {}), left - 1, b"\xee"))
        t.answers(t.ask("C", M4), 0, 0, 1)
    for long, come in ((219, (0, 0, 254)), (220, (2, 0)), (221, (2, 0))):
        t.text("== the form without sections, 2 of 256 in use, bytes unused: %d" % (221 - long))
        in_old_form(t, [(b"A" * long, 0), (b"", 1)], range(2, 256), LONG, 0, *come)
    t.text("== the form without sections, 3 and 100 entries")
    for filling in (0, 0xEE):
        in_old_form(t, ENTRIES, [3], M4, filling, 2, 0)
        in_old_form(t, [(b"%02d" % i, i) for i in range(99)] + [(b"", 99)], [], Measures(1024, 0, 4, 60), filling, 2, 0)


# ---- links that lead elsewhere

SOUND_TEN = area_of(SIZE, TEN, [11, 10], {})
M5 = Measures(SIZE, 0, 5, MOST)

# where the control information of its ten entries stands; its fields with the entries that have them, and the two bytes that hold each
CONTROLS = (502, 495, 490, 487, 477, 474, 469, 464, 458, 454)
FIELDS = ((487, 480, 23), (464, 461, 10), (454, 452, 0))


def links(t):
    """The header's last displacement and each section's field with every value that may be taken for the right one, and some that never are."""
    for control, at, field in FIELDS:
        assert model.number(SOUND_TEN, at) == field
    t.text("== the first section's highest elsewhere")
    for value in unlike(487, set(CONTROLS) | {0, 1, 23, 24, 25, 26, 452, 453, 480, 486, 488, 505, 506, 65535}):
        linked(t, 22, value)
    for control, at, field in FIELDS:
        t.text("== the field of the section that ends at %d" % control)
        entries = {control - other for other in CONTROLS if other < control}
        beside = {field + by for by in (-3, -1, 1, 3, 5) if 0 <= field + by}
        elsewhere = {control - place for place in (449, 26, 25, 24, 23, 0)}     # unused space, free numbers, header
        for value in unlike(field, entries | beside | elsewhere | {0, 256, 505, 65535}):
            linked(t, at, value)
    for at, right in ((22, 487),) + tuple((at, field) for _, at, field in FIELDS):
        sound = [value for value in range(600) if model.check(bent(SOUND_TEN, at, two(value)), M5).number == 0]
        assert sound == [right], (at, sound)


def unlike(right, values):
    return sorted(values - {right})


def linked(t, at, value):
    t.lay(bent(SOUND_TEN, at, two(value)))
    t.answers(t.ask("C", M5), 2, 0)


def into_sections(t):
    """A full record whose free numbers reach on into the last section: its field, its entry, the section before."""
    entries = [(b"A" * 157, 1), (b"B" * 157, 2), (b"C" * 151, 3), (b"", 0)]
    index = index_interval(entries, [], SIZE)
    assert index_size(entries, []) == 505 and writers_sections(4) == [2, 2] and index[HEADER:HEADER + 5] == bytes(5)
    t.text("== free numbers that reach 0, 1, 2, 5 and 6 bytes, and to the end, into the sections")
    for reach in (0, 1, 2, 5, 6, 481, 482, 488):
        t.lay(bent(index, 18, two(HEADER + reach)) + data_interval([], SIZE) * 4)
        t.answers(t.ask("C", LONG), *((0, 0, 0) if reach == 0 else (2, 0)))


def section_fronts(t):
    """F of a section's highest is counted against the highest before; what the entry before it would allow may be too much."""
    t.text("== other Fs of a section's highest")
    for at, front in ((487, 1), (487, 4), (464, 2), (464, 5), (464, 6), (464, 255), (454, 1), (454, 2), (454, 3)):
        t.lay(bent(SOUND_TEN, at, bytes([front])))
        t.answers(t.ask("C", M5), 2, 0)


CASES = (front_before_the_last, figure_38, five_entries, ten_entries, growing, other_sections, only_in_other_sections, counted, old_forms, links,
         into_sections, section_fronts)
