#!/usr/bin/env python3
"""Writes crates/trial/data/script, the cases that the program `trial` runs, and crates/trial/stdout, what it must print.

Both come from model.py, which follows the papers and knows nothing of the program. Where document 01 or a source gives bytes or a
verdict, they stand here as written there, and the model is held to them (`says`, `answers`). It writes the same bytes each time.

Where the cases of the two former test programs are now:

| edges | here |
|---|---|
| data: measures at the edges | measures |
| data: endings, fitting, source figure, largest empty | endings, fitting, largest_empty |
| records: figure 38, shorter after longer | figure_38 of trial_sections.py, shorter_after_longer |
| areas: data rules, index rules | sound_varieties, several_rules, and rules_alone |
| areas: gets, gets at | gets (and trial_gets.py), addresses |

| edges_change | here |
|---|---|
| cases: fitting, three parts, updates, shortenings, shortened pairs, refusals, far cut, record bytes, emptied | the same names |
| behind, entries, found, whole | behind; short_fronts, full_at, long_key; wasteful, kept; greatest |
"""
import os

import model
import trial_gets
import trial_sections
import trial_walks
from layout import area_of, bent, data_interval, index_interval, kept_bytes
from model import Measures
from trial_script import Script, filled
from trial_soundness import HIGHEST, M4, MOST, SIZE, SOUND, measures, rules_alone, several_rules, sound_varieties


# ---- requests as most cases make them

def steps(t, m, *requests):
    """Requests such as ("I AAAA", 300), one after another, then the check. An E or G has no length."""
    for request in requests:
        words, length = request if isinstance(request, tuple) else (request, None)
        letter, key = words.split()
        t.ask(letter, m, key.encode() if length is None else filled(key.encode(), length), out=64 if letter == "G" else 0)
    t.ask("C", m)


def loaded(free, lens):
    """Interval 0 in use, with records of these lengths under the keys AAAA, CCCC, EEEE and so on."""
    return area_of(SIZE, [(b"", 0)], free, {0: [bytes([65 + 2 * i]) * length for i, length in enumerate(lens)]})


def case(t, free, lens, letter, byte, *lengths, come=()):
    """A request with each of some lengths, each of the area as loaded; what the papers say that they come to, where they do."""
    for place, length in enumerate(lengths):
        t.text("%s of %s, %d bytes; %d free" % (model.NAMES[letter], byte, length, len(free)))
        t.lay(loaded(free, lens))
        answer = t.ask(letter, M4, filled(byte.encode() * 4, length))
        if come:
            t.made(answer, *come[place], *numbers(free, *come[place]))
        t.ask("C", M4)


STAYS, TWO, THREE, NO_INTERVAL = (0, 1), (0, 3), (0, 4), (6,)


def numbers(free, number, count=0, old=0):
    """The intervals that a change tells, by their numbers in the buffer: the old one; where there are more, the index record and those taken, from
    the right end of the free ones."""
    return () if number else tuple(sorted([old + 1] + [0] * (count > 1) + [k + 1 for k in free[::-1][:max(count - 2, 0)]]))


def ends(t, d, u):
    """Document 01 on interval 0: its records' bytes and its unused space."""
    t.says(1020, "%04x%04x" % (d, u))


# ---- gets

def gets(t):
    t.text("== get by key")
    t.lay(SOUND)
    for key, out in ((b"CC02", 12), (b"CC02", 0), (b"CC0", 12), (b"CC011", 12), (b"", 12), (b"CC01", 12), (b"CC01", 11), (b"CC01", 10), (b"CC01", 0),
                     (b"AA01", 8), (b"AB01", 8), (b"BB01", 8), (b"DD01", 9), (b"\0\0\0\0", 9), (b"\xff\xff\xff\xff", 9)):
        t.text("key %s, output %d" % (key.hex() or "none", out))
        t.ask("G", M4, key, out=out)
    t.text("longest output, longest record")
    t.lay(loaded([], [505]))
    t.ask("G", M4, b"AAAA", out=65536)
    t.ask("G", M4, b"AAAA", out=504)


def addresses(t):
    t.text("== get by address")
    t.lay(SOUND)
    for address in (0, 8, 4, 16, 512, 1032, 1536, 2048, 2 ** 32 + 8, HIGHEST):
        t.text("%d" % address)
        t.ask("R", M4, address=address, out=12)
    t.text("inside a record, its last byte, CIDF; output short, and none")
    for address, out in ((1, 12), (7, 12), (511, 12), (1032, 10), (1032, 11), (0, 0)):
        t.ask("R", M4, address=address, out=out)
    for base in (0x12345, 2 ** 32 - 4 * SIZE):
        t.lay(bent(SOUND, 4, base.to_bytes(4, "big")))
        for address in (base - 1, base, base + 8, base + 4, base + 512, base + 1032, base + 1536, base + 2048, 0, 8, 1032, 2 ** 32 + base, HIGHEST):
            t.text("base %d, address %d" % (base, address))
            t.ask("R", M4, address=address, out=11)
    t.text("base one past the limit")
    t.lay(bent(SOUND, 4, (2 ** 32 - 4 * SIZE + 1).to_bytes(4, "big")))
    t.answers(t.ask("R", M4, address=2 ** 32 - 4 * SIZE + 1, out=11), 2, 0)
    t.text("four of 60 at the highest base: the last one, and the bytes beside it")
    base = 2 ** 32 - SIZE
    t.lay(area_of(SIZE, [(b"", 0)], [], {0: [b"AAA%d" % i + b"x" * 56 for i in range(4)]}, kept_bytes(base)))
    for address in (base + 179, base + 180, base + 181, base + 240):
        t.ask("R", M4, address=address, out=60)


# ---- searches in runs

def keyed(i, length):
    """The record whose key is i in four decimal digits: odd ones are there, even ones are the gaps between them."""
    return filled(b"%04d" % i, length)


def sought(t, m, lens):
    """Records of these lengths, each sought by key, and each gap; the addresses of their first bytes and of the ones beside."""
    t.lay(area_of(m.size, [(b"", 0)], [], {0: [keyed(2 * i + 1, length) for i, length in enumerate(lens)]}))
    for i, length in enumerate(lens):
        t.answers(t.ask("G", m, b"%04d" % (2 * i)), 5)
        t.answers(t.ask("G", m, b"%04d" % (2 * i + 1), out=length), 0, length)
    t.answers(t.ask("G", m, b"%04d" % (2 * len(lens))), 5)


def begun(t, m, lens, step=1):
    at = 0
    for i, length in enumerate(lens):
        if i % step == 0 or i == len(lens) - 1:
            t.answers(t.ask("R", m, address=at, out=4), 8, length)
            t.answers(t.ask("R", m, address=at + 1), 9)
            t.answers(t.ask("R", m, address=at + length - 1), 9)
        at += length
    t.answers(t.ask("R", m, address=at), 9)


def runs(t):
    """Runs alone, and before, between and behind single records; into each gap of a run alone a record comes and goes again."""
    for count in (1, 2, 3, 7, 8, 9):
        run = [20] * count
        t.text("== a run of %d" % count)
        sought(t, M4, run)
        begun(t, M4, run)
        for i in range(count + 1):
            t.ask("I", M4, keyed(2 * i, 20))
            t.ask("E", M4, b"%04d" % (2 * i))
        for title, lens in (("behind one", [21] + run), ("before one", run + [22]), ("between two", [21] + run + [22]), ("and another", run + [22] + run + [23])):
            t.text(title)
            sought(t, M4, lens)
            begun(t, M4, lens)
    t.text("== a run of 545")
    m = Measures(32768, 0, 4, 60)
    sought(t, m, [60] * 545)
    begun(t, m, [60] * 545, 32)


# ---- document 01's intervals and index records

def endings(t):
    """Document 01's endings, by inserts into an empty interval; and source document 001, Figure 24 with a = 50."""
    t.text("== endings")
    none = area_of(SIZE, [(b"", 0)], [], {})
    five = ("00006400640195", "08000240006400c8012e", "080003400064012c00ca", "", "08000540006401f40002")
    for title, lens, ends in (("one, two, three, four, five of 100", (100,) * 5, five),
                              ("100, 100, 80", (100, 100, 80), ("", "", "000050080002400064011800db")),
                              ("one of 505", (505,), ("0001f901f90000",)),
                              ("figure 24: 50, 50, 50, 100, 150", (50, 50, 50, 100, 150), ("", "", "", "", "00009600006408000340003201900060"))):
        t.text(title)
        t.lay(none)
        for i, (length, end) in enumerate(zip(lens, ends)):
            t.made(t.ask("I", M4, filled(bytes([65 + i]) * 4, length)), 0, 1, 1)
            t.says(-len(end) // 2, end)
        t.answers(t.ask("C", M4), 0, len(lens), 0)
    t.text("erased again: no record")
    t.lay(loaded([], [505]))
    t.made(t.ask("E", M4, b"AAAA"), 0, 1, 1)
    t.says(-4, "000001fc")


def largest_empty(t):
    """The largest interval, empty: its unused space is as long as two bytes tell with the busy flag off."""
    t.text("== largest, empty")
    size = 32768
    t.lay(index_interval([(b"", 0)], [], size) + data_interval([], size, filling=0xFF))
    t.says(-4, "00007ffc")
    t.answers(t.ask("C", Measures(size, 0, 4, size - 7)), 0, 0, 0)
    t.text("and busy")
    t.lay(bent(t.area, 2 * size - 2, b"\xff"))
    t.answers(t.ask("C", Measures(size, 0, 4, size - 7)), 2, 1)


def index_cut(t):
    """n = 2, K = 4, one entry to 0, 1 free; then a cut between C1F1F2F3 and C2F0F0F0."""
    t.text("== a cut between C1F1F2F3 and C2F0F0F0")
    t.lay(area_of(SIZE, [(b"", 0)], [1], {}))
    t.says(18, "001901f601f601")
    t.says(500, "0000 000000")
    t.ask("C", M4)
    t.made(t.ask("I", M4, filled(bytes.fromhex("C1F1F2F3"), 300)), 0, 1, 1)
    t.made(t.ask("I", M4, filled(bytes.fromhex("C2F0F0F0"), 300)), 0, 3, 0, 1, 2)
    t.says(18, "001801f201f2")
    t.says(496, "0000 000001c1000100")
    t.ask("C", M4)
    for key in ("C1F1F2F3", "C1FFFFFF", "C2000000", "C2F0F0F0"):
        t.ask("G", M4, bytes.fromhex(key), out=300)
    t.text("insert of C1FFFFFF and C2000000")
    t.ask("I", M4, filled(bytes.fromhex("C1FFFFFF"), 9))
    t.ask("I", M4, filled(bytes.fromhex("C2000000"), 9))


def shorter_after_longer(t):
    """41 closes the first section, so that nothing of 41 42 is taken over."""
    t.text("== separator 41 42, then 41")
    t.lay(area_of(SIZE, [(b"AB", 0), (b"A", 1), (b"", 2)], [], {}) + data_interval([], SIZE))
    t.says(18, "0018 01eb 01f1")
    t.says(489, "0000 000002 0006 41 000101 4142 000200")
    three = 4 * SIZE
    t.answers(t.ask("C", M4, lent=three), 0, 0, 0)
    t.text("n 4; K 1")
    t.answers(t.ask("C", M4), 2, 0)
    t.answers(t.ask("C", Measures(SIZE, 0, 1, MOST), lent=three), 2, 0)
    for key, place in (("41429999", 1), ("41430000", 2), ("42000000", 3), ("4142ffff", 1), ("41ffffff", 2), ("00000000", 1), ("ffffffff", 3)):
        t.text("insert of %s" % key)
        t.made(t.ask("I", M4, bytes.fromhex(key), lent=three), 0, 1, place)
        assert bytes.fromhex(key) in t.area[place * SIZE:(place + 1) * SIZE]
        t.ask("G", M4, bytes.fromhex(key), out=5, lent=three)
    t.ask("C", M4, lent=three)


# ---- changes of one interval

def fitting(t):
    t.text("== at the end of four of 100")
    case(t, [1, 2, 3], [100] * 4, "I", "I", 99, come=[STAYS])
    ends(t, 499, 0)
    case(t, [1, 2, 3], [100] * 4, "I", "I", 100, 101, come=[STAYS, TWO])
    ends(t, 300, 202)
    t.text("== between two and two of 100")
    case(t, [1, 2, 3], [100] * 4, "I", "D", 93, come=[STAYS])
    ends(t, 493, 0)
    case(t, [1, 2, 3], [100] * 4, "I", "D", 94, come=[TWO])
    ends(t, 200, 302)
    case(t, [3, 2, 1], [100] * 4, "I", "D", 99, come=[TWO])
    case(t, [1], [100] * 4, "I", "D", 100, come=[STAYS])
    ends(t, 500, 2)
    t.text("== between two and two of 99")
    case(t, [1], [99] * 4, "I", "D", 97, 98, come=[STAYS, TWO])


def three_parts(t):
    for title, free, come in (("400 to 250 and 240: between, before, after", [1, 2], [THREE, TWO, TWO]),
                              ("free numbers in another order", [2, 3, 1], [THREE]),
                              ("one free", [1], [NO_INTERVAL, TWO, TWO]), ("none free", [], [NO_INTERVAL] * 3)):
        t.text("== " + title)
        for byte, comes in zip("B@D", come):
            case(t, free, [250, 240], "I", byte, 400, come=[comes])


def updates(t):
    t.text("== third of five of 99 updated")
    case(t, [1], [99] * 5, "U", "E", 97, come=[STAYS])
    ends(t, 493, 0)
    case(t, [1], [99] * 5, "U", "E", 98, come=[TWO])
    ends(t, 198, 304)
    case(t, [1], [99] * 5, "U", "E", 99, come=[STAYS])
    case(t, [], [99] * 5, "U", "E", 98, come=[NO_INTERVAL])
    case(t, [2, 1], [99] * 5, "U", "E", 300, 500, come=[TWO, THREE])
    t.text("== one of 505 updated to 505 and to 4")
    case(t, [], [505], "U", "A", 505, 4, come=[STAYS, STAYS])


def shortenings(t):
    t.text("== six of 83, 4 bytes unused: third, second, first and last shortened")
    case(t, [1], [83] * 6, "U", "E", 82, 81, 80, 79, 78, 77, 76, 75, 74)
    case(t, [1], [83] * 6, "U", "C", 82, 81)
    case(t, [1], [83] * 6, "U", "A", 82)
    case(t, [1], [83] * 6, "U", "K", 82)
    t.text("== three of 100 and one of 198, 1 byte unused: second and third shortened")
    case(t, [1], [100, 100, 100, 198], "U", "C", 99, 98)
    case(t, [1], [100, 100, 100, 198], "U", "E", 99, 98)


def shortened_pairs(t):
    t.text("== two of 100 and one of 299, none unused: first and second shortened")
    case(t, [1], [100, 100, 299], "U", "A", 99)
    case(t, [1], [100, 100, 299], "U", "C", 99)
    t.text("== two of 100, two of 99 and one of 95, none unused: second shortened")
    case(t, [1], [100, 100, 99, 99, 95], "U", "C", 99)


def refusals(t):
    """Earlier reasons first: 3 before 4 and 5, 4 before 6, 5 before 6 (F1 to F3)."""
    t.text("== present, absent, lengths")
    for letter, byte, lengths in (("I", "A", (505, 506, 4)), ("U", "B", (505, 506)), ("E", "B", (4,)), ("I", "B", (3, 0)), ("U", "A", (3, 4, 0)),
                                  ("E", "A", (3, 5, 0))):
        case(t, [], [250, 240], letter, byte, *lengths)
    t.text("== an update that needs a third interval, with one free")
    case(t, [1], [99] * 5, "U", "E", 500)


def far_cut(t):
    t.text("== 206 after five of 40 and before forty of 4 and 5")
    case(t, [1], [40] * 5 + [4, 5] * 20, "I", "J", 206, come=[TWO])
    ends(t, 406, 93)


def record_bytes(t):
    t.text("== 130 after 30, 31, 30, 31 and three of 100")
    case(t, [1], [30, 31, 30, 31, 100, 100, 100], "I", "O", 130, come=[TWO])
    ends(t, 322, 168)


def joined(t):
    """Runs that an erase or an update joins, and one that it breaks."""
    t.text("== two of 60, one of 50, two of 60: the middle one erased, updated to 60, updated to 50")
    for request in (("E", 4), ("U", 60), ("U", 50)):
        case(t, [], [60, 60, 50, 60, 60], request[0], "E", request[1])


def emptied(t):
    t.text("== emptied")
    t.lay(loaded([1], [300, 200]))
    steps(t, M4, ("I BBBB", 100), "E CCCC", "E BBBB", "E AAAA")
    t.ask("I", M4, filled(b"A\xff\xff\xff", 9))
    t.ask("U", M4, filled(b"A\xff\xff\xff", 9))
    t.ask("I", M4, filled(b"B\0\0\0", 505))
    steps(t, M4, ("I ZZZZ", 4))


def behind(t):
    """Keys behind other bytes of their records: they ascend while the bytes before them descend; the shortest record has 11 bytes."""
    t.text("== offset 7")
    m = Measures(SIZE, 7, 4, MOST)
    t.lay(area_of(SIZE, [(b"", 0)], [1], {}))
    for letter, byte, key, length in (("I", b"z", b"ABBB", 10), ("I", b"z", b"ABBB", 200), ("I", b"x", b"ACCC", 200), ("I", b"y", b"ABDD", 200),
                                      ("U", b"a", b"ABDD", 11), ("I", b"b", b"ACCC", 11)):
        t.ask(letter, m, (byte * 7 + key + byte * 501)[:length])
    t.ask("G", m, b"ABDD", out=11)
    t.ask("E", m, b"ABBB")
    t.ask("C", m)


# ---- the numbers of the intervals written

def numbers_written(t):
    """Document 02, L9: one, three and four of them, with the old interval lowest, between and highest. An update that leaves every byte tells its interval."""
    t.text("== which intervals were written")
    parts = [filled(b"AAAA", 250), filled(b"CCCC", 240)]
    for old, free in ((0, [1, 2]), (0, [2, 1]), (1, [0, 2]), (1, [2, 0]), (2, [0, 1]), (2, [1, 0]), (0, [3, 2, 1]), (3, [0, 2, 1])):
        t.text("interval %d, free %s" % (old, " ".join(map(str, free))))
        begun = area_of(SIZE, [(b"", old)], free, {old: parts})
        for letter, content, count in (("U", parts[0], 1), ("E", b"CCCC", 1), ("I", filled(b"DDDD", 400), 3), ("I", filled(b"BBBB", 400), 4), ("I", filled(b"AAAA", 9), None)):
            t.lay(begun)
            t.made(t.ask(letter, M4, content), *((4,) if count is None else (0, count, *numbers(free, 0, count, old))))
        t.ask("C", M4)


# ---- index records that a division writes with other Fs, just fills, or would overfill

def short_fronts(t):
    t.text("== short Fs")
    entries = [(b"AAB", 0), (b"AAC", 1), (b"", 2)]
    short = area_of(SIZE, entries, [3], {}, found={0: index_interval(entries, [3], SIZE, fronts=[0, 0, 0])})
    for requests in ((("I AACA", 300), ("I AACC", 300), ("I AACB", 9), ("I AABZ", 9), ("I AADA", 9)), (("I BAAA", 300), ("I BCAA", 300))):
        t.lay(short)
        steps(t, M4, *requests)


def full_at(t, length, last):
    """A cut in the last entry adds 103 bytes; one and three would have a separator of two, but two and two are prescribed (E4). There are two
    sections before and after it."""
    t.text("== 24 + 0 + 3 x 103 + 3 + 103 + 3 + 2 x 2 and %d" % length)
    m = Measures(SIZE, 0, 100, MOST)
    t.lay(area_of(SIZE, [(b"A" * 100, 0), (b"B" * 100, 1), (b"C" * 100, 2), (b"D" * length, 3), (b"", 4)], [5], {}))
    for key in (b"EA" + b"B" * 98, b"EC" + b"B" * 98, b"EB" + b"B" * 98):
        t.ask("I", m, filled(key, 160))
    t.made(t.ask("I", m, filled(b"EB" + b"B" * 97 + b"A", 160)), *last)
    t.ask("C", m)


def long_key(t, length, free, last):
    t.text("== K 255, a separator of %d, free %d" % (length, len(free)))
    m = Measures(SIZE, 0, 255, MOST)
    t.lay(area_of(SIZE, [(b"A" * length, 0), (b"", 1)], free, {}))
    t.ask("I", m, b"B" * 255)
    t.made(t.ask("I", m, b"B" * 254 + b"C"), *last)
    t.ask("C", m)


def short_fronts_counted(t):
    """Found with short Fs: 24 + 4 x 103 + 3 + 2 x 2, and 103 for the new entry, would be 546. Counted is what will be written, 348 (E7)."""
    t.text("== no room with the Fs found, but with the longest")
    m = Measures(SIZE, 0, 100, MOST)
    entries = [(b"A" * 99 + bytes([65 + i]), i) for i in range(4)] + [(b"", 4)]
    left, right = b"B" * 99 + b"A", b"B" * 100
    t.lay(area_of(SIZE, entries, [5], {4: [filled(left, 300)]}, found={0: index_interval(entries, [5], SIZE, fronts=[0] * 5)}))
    t.ask("C", m)
    t.made(t.ask("I", m, filled(right, 300)), 0, 3, 0, 5, 6)
    t.ask("C", m)


# ---- areas found as no writer leaves them

def wasteful(t):
    t.text("== three of 100 as three singles")
    records = [filled(key, 100) for key in (b"AAAA", b"CCCC", b"EEEE")]
    singles = data_interval(records, SIZE, [(100, 1)] * 3, 0xEE)
    for requests in ((("U CCCC", 100), ("U CCCC", 100)), (("I GGGG", 199),), ("E CCCC",)):
        t.lay(area_of(SIZE, [(b"", 0)], [], {}, found={1: singles}))
        t.ask("C", M4)
        steps(t, M4, *requests)


def kept(t):
    """Every byte that the header keeps or no rule names is other than zero, in the free intervals too."""
    t.text("== kept and unused bytes")
    littered = {place: data_interval([], SIZE, filling=0xEE) for place in (1, 2, 3)}
    littered[0] = index_interval([(b"", 0)], [2, 1], SIZE, bytes(range(1, 14)), filling=0xEE)
    t.lay(area_of(SIZE, [(b"", 0)], [2, 1], {}, found=littered))
    t.ask("C", M4)
    steps(t, M4, ("I AAAA", 300), ("I CCCC", 300), ("I AAAB", 9), "E CCCC")


# ---- whole areas, larger intervals

def greatest(t):
    """256 intervals, 255 the rightmost free number, so that it is taken first; and one interval more."""
    t.lay(area_of(SIZE, [(b"", 0)], list(range(1, 256)), {}) + data_interval([], SIZE))
    t.text("== 256 intervals")
    whole = 257 * SIZE
    t.answers(t.ask("C", M4, lent=whole), 0, 0, 255)
    for letter, key, length in (("I", b"AAAA", 200), ("I", b"CCCC", 200), ("I", b"EEEE", 200), ("U", b"EEEE", 290), ("I", b"DDDD", 400),
                                ("E", b"EEEE", 4)):
        t.ask(letter, M4, filled(key, length), lent=whole)
    t.answers(t.ask("C", M4, lent=whole), 0, 3, 252)
    t.text("== 257 intervals, more than an index record of 512 bytes can name: no 1, but never sound")
    for letter, content in (("C", b""), ("G", b"AAAA"), ("R", b""), ("I", filled(b"ZZZZ", 200)), ("U", filled(b"AAAA", 200)), ("E", b"AAAA")):
        t.answers(t.ask(letter, M4, content, out=5 if letter in "GR" else 0), 2, 0)


def widths(t):
    """256 and 257 intervals side by side: the same requests, one byte for a number and two. Then each with the other's record."""
    m, records = Measures(1024, 0, 4, 300), {}
    for n in (256, 257):
        t.text("== %d intervals of 1,024 bytes" % n)
        records[n] = area_of(1024, [(b"M", n - 2), (b"", 0)], list(range(1, n - 2)) + [n - 1], {n - 2: [filled(b"AA%02d" % i, 250) for i in range(4)]})
        t.lay(records[n])
        t.answers(t.ask("C", m), 0, 4, n - 2)
        t.answers(t.ask("G", m, b"AA03", out=6), 8, 250)
        t.answers(t.ask("R", m, address=(n - 2) * 1024 + 500, out=6), 8, 250)
        t.made(t.ask("I", m, filled(b"AA10", 250)), 0, 3, 0, n - 1, n)
        t.says(2, "0301" if n == 256 else "0403")
        t.made(t.ask("U", m, filled(b"AA10", 300)), 0, 1, n)
        t.made(t.ask("E", m, b"AA00"), 0, 1, n - 1)
        t.answers(t.ask("C", m), 0, 4, n - 3)
    t.text("== the record of 256 before 257 intervals, and the other way round")
    t.lay(records[256] + data_interval([], 1024))
    t.answers(t.ask("C", m), 2, 0)
    t.lay(records[257])
    t.answers(t.ask("C", m, lent=257 * 1024), 2, 0)
    for pair in (b"\3\1", b"\4\1", b"\3\3"):
        t.text("257 intervals, header bytes %s" % pair.hex())
        t.lay(bent(records[257], 2, pair))
        t.answers(t.ask("G", m, b"AA03", out=6), 2, 0)


def full_at_two(t, length, last):
    """Two bytes a number: 24, 252 free numbers, five entries of 4, two sections, and separators of 3 x 117 and this length."""
    t.text("== 257 intervals, divided at a separator of %d bytes" % length)
    m = Measures(1024, 0, 120, 300)
    fronts = [bytes([65 + i]) * 117 for i in range(3)]
    entries = [(front, i) for i, front in enumerate(fronts)] + [(b"", 3)]
    keys = [b"Z" * (length - 1) + bytes([c]) + b"z" * (120 - length) for c in b"ACEGB"]
    t.lay(area_of(1024, entries, list(range(4, 257)), {3: [filled(key, 250) for key in keys[:4]]}))
    t.made(t.ask("I", m, filled(keys[4], 250)), *last)
    t.ask("C", m)


def larger(t, size):
    """Two parts at the tie, then three around a record that fills an interval; every number of the layouts is wide here."""
    t.text("== S %d" % size)
    m = Measures(size, 2, 8, size - 7)
    third = (size - 10) // 3
    t.lay(area_of(size, [(b"", 1)], [0, 3, 2], {}))
    for letter, key, length in (("I", b"KEY00001", third), ("I", b"KEY00005", third), ("I", b"KEY00003", third), ("I", b"KEY00004", third),
                                ("I", b"KEY00002", size - 7), ("U", b"KEY00005", 10), ("E", b"KEY00004", 8)):
        record = b"--" + key + b"." * (length - 10)
        t.ask(letter, m, key if letter == "E" else record)
    t.ask("C", m)
    t.ask("G", m, b"KEY00002", out=size)
    t.ask("G", m, b"KEY00005", out=9)
    t.ask("R", m, address=3 * size, out=12)


def main():
    t = Script()
    for part in (measures, sound_varieties, several_rules, rules_alone, gets, *trial_gets.CASES, addresses, runs, endings, largest_empty, index_cut,
                 shorter_after_longer, *trial_sections.CASES, fitting, three_parts, updates, shortenings, shortened_pairs, refusals, far_cut,
                 record_bytes, joined, emptied, behind, numbers_written, short_fronts):
        part(t)
    for length, last in ((59, (0, 3, 0, 5, 6)), (60, (7,)), (64, (7,))):
        full_at(t, length, last)
    for length, free, last in ((213, [2], (0, 3, 0, 2, 3)), (214, [2], (7,)), (230, [2], (7,)), (230, [], (6,))):
        long_key(t, length, free, last)
    short_fronts_counted(t)
    wasteful(t)
    kept(t)
    greatest(t)
    widths(t)
    for length, last in ((114, (0, 3, 0, 4, 257)), (115, (7,))):
        full_at_two(t, length, last)
    for size in (1024, 2048, 32768):
        larger(t, size)
    for part in trial_walks.CASES:
        part(t)
    crate = os.path.join(os.path.dirname(os.path.dirname(os.path.abspath(__file__))), "crates", "trial")
    os.makedirs(os.path.join(crate, "data"), exist_ok=True)
    with open(os.path.join(crate, "data", "script"), "wb") as out:
        out.write(t.script)
    with open(os.path.join(crate, "stdout"), "w", encoding="ascii") as out:
        out.write(t.stdout())


if __name__ == "__main__":
    main()
