"""A model of document 01, as document 02 amends it (L4, L5, L6, L9): what each request comes to on any bytes, under any measures.

It follows the papers (document 01; where that is open, docs/DECISIONS.md, whose points are cited as C2, D1 and so on) and knows nothing
of the program. An area is bytes. Each request gives an answer, which is a number and its values, and the bytes of area and output
afterwards.

Each rule of soundness is one named test, a call of `ask` below. A name of RULES handed over as `without` leaves that one rule out, so that
a script can show which rule an area breaks.
"""
import functools
from typing import NamedTuple

from layout import HEADER, cut_at, data_interval, index_interval, index_size, needs, width_for

SIZES = tuple(range(512, 8193, 512)) + tuple(range(10240, 32769, 2048))
LIMIT = 4096

INDEX_RULES = {
    "record length": "the header's record length is S - 7",
    "control length": "the control length is 3, or 4 above 256 intervals",
    "pointer indicator": "the pointer indicator is 1, or 3 above 256 intervals",
    "base": "base + n x S is at most 2^32",
    "level": "the level is 1",
    "index RDF": "the index record's RDF is X'00'",
    "index RDF's length": "the RDF's length is S - 7",
    "index CIDF": "the index interval's CIDF has the displacement S - 7",
    "index CIDF's unused": "and no unused space",
    "F": "F is at most the length of the separator that it is counted against",
    "separator's length": "separators have at most K bytes",
    "X'FF'": "separators don't end in X'FF'",
    "bounds": "separators filled up with X'FF' to K bytes strictly ascend",
    "one entry": "there is at least one entry",
    "last empty": "the last entry has an empty separator",
    "last entry": "the displacement to the last entry's control information agrees with what lies there",
    "first section": "the header's last displacement leads to the control information of an entry, the first section's highest",
    "chain": "each section's field leads to the control information of an entry further on, the next section's highest",
    "chain's end": "the last entry closes a section",
    "last field": "the last section's field is zero",
    "single section": "one section alone has at most two entries",
    "unused field": "the displacement to the unused space is not below the header's end",
    "whole numbers": "the free numbers fill the bytes up to the unused space",
    "overlap": "free numbers don't overlap with entries or their sections' fields",
    "number below n": "no other number occurs",
    "named once": "no interval number is named twice",
    "all named": "every interval number below n is named",
}
DATA_RULES = {
    "busy": "the busy flag is off",
    "equation": "d + u + 3 x RDFs + 4 = S",
    "control byte": "a control byte is X'00', X'40', or X'08' as X'40's partner",
    "pair within": "X'40's partner is one of the interval's RDFs",
    "partner": "X'40's partner is X'08'",
    "count": "the count of a run is at least 2",
    "least length": "each length is at least offset + K",
    "greatest length": "each length is at most M",
    "sum": "the lengths add up to d",
    "keys ascend": "keys strictly ascend",
    "free is empty": "a free interval is empty",
    "above the bound before": "each key in an entry's interval is above the previous bound",
    "at most its own bound": "and at most its own",
}
RULES = {**INDEX_RULES, **DATA_RULES}


class Unsound(Exception):
    """A rule is broken; which one, the message says."""


def asking(without):
    """The function that asks for each rule, but for the one left out."""
    assert without is None or without in RULES, without

    def ask(rule, holds):
        assert rule in RULES, rule
        if not holds and rule != without:
            raise Unsound(rule)
    return ask


# ---- measures (refusal 1)

class Measures(NamedTuple):
    """The four numbers that come with each call: S, the key's offset, K and M."""
    size: int
    offset: int
    key: int
    most: int

    @property
    def least(self):
        return self.offset + self.key

    def judge(self, length):
        """n, the number of data intervals in a buffer of this length; None is refusal 1."""
        if self.size not in SIZES or not 1 <= self.key <= 255:
            return None
        if not self.least <= self.most <= self.size - 7:
            return None
        n = length // self.size - 1
        return n if length % self.size == 0 and 1 <= n <= LIMIT else None

    def key_of(self, record):
        return record[self.offset:self.least]

    def bound_of(self, separator):
        return separator.ljust(self.key, b"\xff")


def number(part, at, width=2):
    return int.from_bytes(part[at:at + width], "big")


# ---- data intervals: their form

@functools.lru_cache(maxsize=1024)
def read_interval(interval, m, without=None):
    """The records of a data interval by its own form, whatever its place in the index; Unsound where a rule is broken."""
    ask = asking(without)
    data, unused = number(interval, m.size - 4), number(interval, m.size - 2)
    ask("busy", unused & 0x8000 == 0)
    fields = m.size - 4 - data - (unused & 0x7FFF)
    ask("equation", fields >= 0 and fields % 3 == 0)
    groups = read_groups(interval, max(fields, 0) // 3, ask)
    for length, _ in groups:
        ask("least length", m.least <= length)
        ask("greatest length", length <= m.most)
    ask("sum", sum(length * count for length, count in groups) == data)
    records, at = [], 0
    for length, count in groups:
        for _ in range(count):
            records.append(interval[at:at + length])
            at += length
    keys = [m.key_of(record) for record in records]
    ask("keys ascend", all(a < b for a, b in zip(keys, keys[1:])))
    return tuple(records)


def read_groups(interval, rdfs, ask):
    """The groups as (length, count). RDFs run right to left, the first one next to the CIDF; a run's count stands left of its length."""
    groups, i = [], 0
    while i < rdfs:
        control, value = read_rdf(interval, i)
        i += 1
        if control != 0x40:
            ask("control byte", control == 0x00)
            groups.append((value, 1))
            continue
        ask("pair within", i < rdfs)    # C2: not in the unused space
        partner, count = read_rdf(interval, i)
        i += 1
        ask("partner", partner == 0x08)
        ask("count", count >= 2)
        groups.append((value, count))
    return groups


def read_rdf(interval, i):
    at = max(len(interval) - 4 - 3 * (i + 1), 0)
    return interval[at], number(interval, at + 1)


# ---- the index record

class Index(NamedTuple):
    """kept: the header bytes that stay as found, 13 in all; entries as (separator, number)."""
    kept: bytes
    base: int
    free: list
    entries: list

    def entry_of(self, key):
        """The place of the first entry whose separator is at least the key's first bytes, as many as the separator has."""
        for place, (separator, _) in enumerate(self.entries):
            if key[:len(separator)] <= separator:
                return place


def read_index(interval, m, n, without=None):
    """The index record of an area of n data intervals; Unsound where a rule is broken."""
    ask = asking(without)
    record, width = m.size - 7, width_for(n)
    base = number(interval, 4, 4)
    ask("record length", number(interval, 0) == record)
    ask("control length", interval[2] == width + 2)
    ask("pointer indicator", interval[3] == 2 ** width - 1)
    ask("base", base + n * m.size <= 2 ** 32)
    ask("level", interval[16] == 1)
    ask("index RDF", interval[record] == 0x00)
    ask("index RDF's length", number(interval, record + 1) == record)
    ask("index CIDF", number(interval, record + 3) == record)
    ask("index CIDF's unused", number(interval, record + 5) == 0)
    unused = number(interval, 18)
    entries, start = read_entries(interval, m, width, ask)
    ask("unused field", HEADER <= unused)
    ask("overlap", unused <= start)
    ask("whole numbers", (unused - HEADER) % width == 0)
    free = [number(interval, at, width) for at in range(HEADER, unused - width + 1, width)]
    named = free + [each for _, each in entries]
    ask("number below n", all(each < n for each in named))
    ask("named once", len(set(named)) == len(named))
    ask("all named", set(range(n)) <= set(named))
    return Index(interval[4:16] + interval[17:18], base, free, entries)


def read_entries(interval, m, width, ask):
    """The entries from the right, and where they begin. The walk ends at the first empty separator, or where the header has the last entry;
    it must be both (D1: walking to either alone judges the same). Left of it all is unused space, whatever it looks like (D2).

    `end` is where the open section's highest must stand: first the header says so, then each section's field, which stands left of its
    highest's characters. An entry that has passed `end` closes the section where the rule that it meets `end` is left out."""
    last, end, link = number(interval, 20), number(interval, 22), "first section"
    entries, closed, before, high, bound, field = [], [], b"", b"", None, 0
    control = start = m.size - 7
    while control != last and HEADER <= start - (width + 2):
        control = start - (width + 2)
        closes = control <= end
        ask(link, not closes or control == end)
        start, separator = read_separator(interval, m, control, high if closes else before, ask)
        ask("bounds", bound is None or bound < m.bound_of(separator))
        entries.append((separator, number(interval, control + 2, width)))
        closed.append(closes)
        before, bound, field = separator, m.bound_of(separator), 0
        if closes:
            start -= 2
            field = number(interval, max(start, 0))
            high, end, link = separator, control - field, "chain"
        if not separator:
            break
    ask("one entry", entries)
    ask("last empty", not before)
    ask("last entry", control == last)
    ask("chain's end", all(closed[-1:]))
    ask("last field", field == 0)
    ask("single section", len(entries) <= 2 or any(closed[:-1]))
    return entries, start


def read_separator(interval, m, control, against, ask):
    """Where an entry's characters begin, and its separator: F bytes of the one that it is counted against, then the characters."""
    front, count = interval[control:control + 2]
    start = control - count
    ask("F", front <= len(against))
    ask("separator's length", front + count <= m.key)
    separator = against[:front] + interval[max(start, 0):control]
    ask("X'FF'", not separator.endswith(b"\xff"))
    return start, separator


# ---- whole areas (refusals 1 and 2)

class Answer(NamedTuple):
    """A number of document 01's table, and the values that come with it."""
    number: int
    values: tuple = ()


class Content(NamedTuple):
    """What a sound area holds: its index, and the records of each interval by number."""
    index: Index
    data: list

    def records_of(self, place):
        return list(self.data[self.index.entries[place][1]])


def opened(area, m, without=None):
    """What the area holds, or the answer 1, or 2 with the place: 0 the index, else the lowest unsound data interval's number + 1."""
    index = opened_index(area, m, without)
    if isinstance(index, Answer):
        return index
    ranges, data = ranges_of(index, m), []
    for k in range(len(area) // m.size - 1):
        records = opened_interval(area, m, k, k in index.free, ranges.get(k, []), without)
        if isinstance(records, Answer):
            return records
        data.append(records)
    return Content(index, data)


def opened_index(area, m, without=None):
    """The area's index, or the answer 1, or 2 with the place 0."""
    n = m.judge(len(area))
    if n is None:
        return Answer(1)
    try:
        return read_index(area[:m.size], m, n, without)
    except Unsound:
        return Answer(2, (0,))


def opened_interval(area, m, k, is_free, ranges, without=None):
    """The records of the data interval k, or the answer 2 with its place."""
    try:
        records = read_interval(area[(k + 1) * m.size:(k + 2) * m.size], m, without)
        judge_role(records, m, is_free, ranges, asking(without))
    except Unsound:
        return Answer(2, (k + 1,))
    return records


def ranges_of(index, m):
    """For each number that entries name: the bound before and its own. (More than one only where `named once` is left out.)"""
    ranges, before = {}, None
    for separator, named in index.entries:
        own = m.bound_of(separator)
        ranges.setdefault(named, []).append((before, own))
        before = own
    return ranges


def judge_role(records, m, is_free, ranges, ask):
    """The two rules that bind an interval to its place in the index."""
    ask("free is empty", not (is_free and records))
    for before, own in ranges:
        keys = [m.key_of(record) for record in records]
        ask("above the bound before", before is None or all(before < key for key in keys))
        ask("at most its own bound", all(key <= own for key in keys))


# ---- requests that only read

def check(area, m, without=None):
    content = opened(area, m, without)
    if isinstance(content, Answer):
        return content
    return Answer(0, (sum(map(len, content.data)), len(content.index.free)))


def get(area, m, key, out):
    """Answer and output. The order is 1, 2 at the index record, 3, 2 at the interval that the key leads to, 5, 8. No other interval is
    looked at, in use or free (document 02, L4)."""
    index = opened_index(area, m)
    if isinstance(index, Answer):
        return index, out
    if len(key) != m.key:
        return Answer(3), out
    k = index.entries[index.entry_of(key)][1]
    records = opened_interval(area, m, k, False, ranges_of(index, m)[k])
    if isinstance(records, Answer):
        return records, out
    for record in records:
        if m.key_of(record) == key:
            return handed(record, out)
    return Answer(5), out


def get_at(area, m, address, out):
    """Answer and output. The order is 1, 2, 9, 8; RBA = base + number x S + displacement, all bits of it compared (F5)."""
    content = opened(area, m)
    if isinstance(content, Answer):
        return content, out
    for k, records in enumerate(content.data):
        start = content.index.base + k * m.size
        if not start <= address < start + m.size:
            continue
        for record in records:
            if start == address:
                return handed(record, out)
            start += len(record)
    return Answer(9), out


def handed(record, out):
    if len(out) < len(record):
        return Answer(8, (len(record),)), out
    return Answer(0, (len(record),)), record + out[len(record):]


# ---- walks (document 02, L1)

def walk(area, m, forward, given=None):
    """The records that a walk gives, each as (where it begins in the area, its bytes), or the answer that refuses it. The order is 1, 2, 3, 5.

    given: a key or its first bytes, and only so many are compared; None is an end of the register, from which there is no 3 and no 5."""
    content = opened(area, m)
    if isinstance(content, Answer):
        return content
    records = []
    for k, held in enumerate(content.data):
        start = (k + 1) * m.size
        for record in held:
            records.append((start, record))
            start += len(record)
    if given is not None:
        if not 1 <= len(given) <= m.key:
            return Answer(3)
        records = [each for each in records if beyond(m.key_of(each[1])[:len(given)], given, forward)]
        if not records:
            return Answer(5)
    return sorted(records, key=lambda each: m.key_of(each[1]), reverse=not forward)


def beyond(head, given, forward):
    """At or beyond the bytes given, in the direction."""
    return head >= given if forward else head <= given


# ---- changes

def insert(area, m, record):
    """Answer and area. The order is 1, 2, 3, 4, 6, 7."""
    return put(area, m, record, True)


def update(area, m, record):
    """Answer and area. The order is 1, 2, 3, 5, 6, 7."""
    return put(area, m, record, False)


def put(area, m, record, is_new):
    content = opened(area, m)
    if isinstance(content, Answer):
        return content, area
    if not m.least <= len(record) <= m.most:
        return Answer(3), area
    key = m.key_of(record)
    place = content.index.entry_of(key)
    records = content.records_of(place)
    lower = [other for other in records if m.key_of(other) < key]
    higher = [other for other in records if m.key_of(other) > key]
    there = len(lower) + len(higher) < len(records)
    if there == is_new:
        return Answer(4 if is_new else 5), area
    return stored(area, m, content.index, place, divide(lower + [record] + higher, len(lower), m.size))


def erase(area, m, key):
    """Answer and area. The order is 1, 2, 3, 5. What is left always fits (A1), so an erase never divides."""
    content = opened(area, m)
    if isinstance(content, Answer):
        return content, area
    if len(key) != m.key:
        return Answer(3), area
    place = content.index.entry_of(key)
    records = content.records_of(place)
    left = [record for record in records if m.key_of(record) != key]
    if left == records:
        return Answer(5), area
    return stored(area, m, content.index, place, [left])


def divide(records, changed, size):
    """The parts that document 01's three rules prescribe for the records with the change made."""
    lengths = [len(record) for record in records]
    if needs(lengths)[-1] <= size:
        return [records]
    left_needs, right_needs = needs(lengths), needs(lengths[::-1])
    total, left, fitting = sum(lengths), 0, []
    for cut in range(1, len(records)):
        left += lengths[cut - 1]
        if left_needs[cut] <= size and right_needs[len(records) - cut] <= size:
            fitting.append((abs(left - (total - left)), left, cut))
    if fitting:
        cut = min(fitting)[2]
        return [records[:cut], records[cut:]]
    return [records[:changed], records[changed:changed + 1], records[changed + 1:]]


def stored(area, m, index, place, parts):
    """The area with the parts of one entry's interval stored, or 6 or 7. Later parts take free numbers from the right, each cut
    has a new separator, and the last part keeps the old one."""
    separator, old = index.entries[place]
    taken = len(parts) - 1
    if taken > len(index.free):
        return Answer(6), area
    numbers = [old] + index.free[::-1][:taken]
    free = index.free[:len(index.free) - taken]
    separators = [cut_at(m.key_of(left[-1]), m.key_of(right[0])) for left, right in zip(parts, parts[1:])] + [separator]
    entries = index.entries[:place] + list(zip(separators, numbers)) + index.entries[place + 1:]
    stores = {named + 1: data_interval(part, m.size) for named, part in zip(numbers, parts)}
    if taken:
        if index_size(entries, free, width_for(len(free) + len(entries))) > m.size - 7:
            return Answer(7), area
        stores[0] = index_interval(entries, free, m.size, index.kept)
    after = with_stores(area, m.size, stores)
    numbers = written(area, after, m, index, old)
    return Answer(0, (len(numbers),) + numbers), after


def written(area, after, m, index, old):
    """L9: the intervals written, ascending, by their numbers in the buffer: the index record is 0, data interval k is k + 1. They are told by what
    was read before and is read after: the interval of the key, also where its bytes are the same, those that were free and no longer are, and
    the index record if the free list got shorter. No other interval may differ."""
    free = read_index(after[:m.size], m, len(area) // m.size - 1).free
    numbers = {old + 1} | {k + 1 for k in index.free if k not in free} | ({0} if len(free) < len(index.free) else set())
    assert numbers >= {at // m.size for at in range(0, len(area), m.size) if area[at:at + m.size] != after[at:at + m.size]}
    return tuple(sorted(numbers))


def with_stores(area, size, stores):
    parts = [stores.get(at // size, area[at:at + size]) for at in range(0, len(area), size)]
    return b"".join(parts)


# ---- any request by its letter

class Outcome(NamedTuple):
    answer: Answer
    area: bytes
    out: bytes


NAMES = {"C": "check", "G": "get", "R": "get at", "I": "insert", "U": "update", "E": "erase"}
CHANGES = {"I": insert, "U": update, "E": erase}


def asked(letter, area, m, content=b"", address=0, out=b""):
    """What a request comes to: its answer, and area and output afterwards. content: the key or the record."""
    if letter == "C":
        return Outcome(check(area, m), area, out)
    if letter in CHANGES:
        answer, after = CHANGES[letter](area, m, content)
        return Outcome(answer, after, out)
    answer, given = get(area, m, content, out) if letter == "G" else get_at(area, m, address, out)
    return Outcome(answer, area, given)
