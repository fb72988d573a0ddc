"""Areas and requests by chance, for outside.py and fuzz: sound areas as some lawful writer might leave them, damage in every field, requests
that meet every number. `r` is always a random.Random, so that a seed tells all."""
import model
from layout import (HEADER, area_of, cut_at, data_interval, groups_of, index_interval, index_size, kept_bytes, needs, old_index_interval, parts_of, rdf,
                    width_for, writers_sections)

ALPHABETS = [b"\x00\xff", b"ABC", b"0123456789", b"\x00\x01A\xfe\xff", bytes(range(256))]
HOSTILE = [0, 1, 3, 4, 7, 255, 256, 505, 506, 511, 512, 513, 32761, 32768, 65535, 65536, 2 ** 31, 2 ** 32 - 1, 2 ** 32, 2 ** 63, 2 ** 64 - 8, 2 ** 64 - 1]


def measures(r, size, keys=(1, 2, 3, 4, 8, 8, 9, 16, 60, 255)):
    """Measures that are in order."""
    key = r.choice(keys)
    offset = r.choice([0, 0, 0, 1, 7, 30])
    if offset + key > size - 7:
        offset, key = 0, 8
    most = r.choice([offset + key, offset + key + 1, offset + key + 60, (size - 7) // 2, size - 7, size - 7])
    return model.Measures(size, offset, key, min(max(most, offset + key), size - 7))


def hostile(r, m):
    """Measures of which one or two are anything."""
    numbers = list(m)
    for _ in range(r.choice([1, 1, 2])):
        place = r.randrange(4)
        near = numbers[place] + r.choice([-1, 1])
        numbers[place] = r.choice(HOSTILE + [near if 0 <= near < 2 ** 64 else 0] + list(model.SIZES[:3]))
    return model.Measures(*numbers)


def crowded(r):
    """An area whose long separators leave little room in the index record, though intervals are free."""
    m = measures(r, r.choice([512, 512, 1024]), (60, 100, 200, 255))
    return Made(r, m, r.randint(4, 14), r.randint(1, 3))


def spread(r, count):
    """Sections of so many entries as some lawful writer might make them, mostly our own; one alone has two entries at most."""
    share = r.choice([None, None, 0.1, 0.5, 0.9, 1])
    if share is None:
        return writers_sections(count)
    closing = [r.random() < share for _ in range(count - 1)]
    if count > 2 and not any(closing):
        closing[r.randrange(count - 1)] = True
    ends = [place for place, closes in enumerate(closing + [True], 1) if closes]
    return [end - before for before, end in zip([0] + ends, ends)]


class Made:
    """A sound area, and what requests are made up from. Where `spare` is given, so many intervals at least stay free, and separators are
    as long and as many as there is room for in the sections that it has."""

    def __init__(self, r, m, n, spare=None):
        self.r, self.m, self.n, self.spare = r, m, n, spare
        self.letters = r.choice(ALPHABETS)
        self.base = r.choice([0, 0, 4096, r.randrange(2 ** 32 - n * m.size + 1), 2 ** 32 - n * m.size])
        self.kept = kept_bytes(self.base, r.getrandbits(32), r.getrandbits(32), r.getrandbits(8))
        numbers = r.sample(range(n), n)
        self.entries = list(zip(self.separators() + [b""], numbers))
        self.free = numbers[len(self.entries):]
        self.data = self.records()
        self.area = self.laid()

    def key(self):
        return bytes(self.r.choices(self.letters, k=self.m.key))

    def separators(self):
        """At most n - 1, and as many as the index record has room for beside the free numbers; long ones sometimes, which fill it. Where most of
        them have a long front in common, much hangs on which of them close a section."""
        r, m = self.r, self.m
        longest = r.choice([1, 2, 3, m.key]) if self.spare is None else m.key
        stem = self.key()[:r.choice([0, 0, r.randrange(m.key)])]
        found = set()
        for _ in range(r.randrange(self.n) if self.spare is None else self.n - 1 - self.spare):
            front = stem if r.random() < 0.8 else b""
            separator = (front + self.key())[:min(len(front) + r.randint(1, longest), m.key)].rstrip(b"\xff")
            if separator:
                found.add(separator)
        found = sorted(found, key=m.bound_of)
        self.sections = spread(r, len(found) + 1)
        while not self.fits(found, self.sections):
            found.pop(r.randrange(len(found)))
            self.sections = spread(r, len(found) + 1)
        return found

    def fits(self, separators, sections, fronts=None):
        """Whether the index record has room for these and the last one, all others of its intervals being free."""
        entries = [(separator, 0) for separator in separators + [b""]]
        return index_size(entries, range(self.n - len(entries)), width_for(self.n), sections, fronts) <= self.m.size - 7

    def records(self):
        """The records of each interval in use: none, a few by chance and at the bounds, or as many as fit."""
        r, m, before, data = self.r, self.m, -1, {}
        for separator, number in self.entries:
            own = int.from_bytes(m.bound_of(separator), "big")
            keys = r.choice([self.no_keys, self.some_keys, self.many_keys])(before + 1, own)
            data[number] = self.fitting([key.to_bytes(m.key, "big") for key in sorted(keys)])
            before = own
        return data

    def no_keys(self, lowest, highest):
        return set()

    def some_keys(self, lowest, highest):
        """Keys by their alphabet, and at both ends of the range."""
        found = {int.from_bytes(self.key(), "big") for _ in range(12)} | {lowest, lowest + 1, highest - 1, highest}
        return {key for key in found if lowest <= key <= highest}

    def many_keys(self, lowest, highest):
        """Neighbours, so that a cut between them has a long separator, from anywhere in the range."""
        first = self.r.randint(lowest, highest)
        step = self.r.choice([1, 1, 2, 256])
        return {key for key in range(first, first + 300 * step, step) if key <= highest}

    def lengths(self):
        """A way to choose the length of each record by its place: all equal, two by chance, any, only short ones, or a few equal and then
        two short ones in turn (where the cut nearest the middle may not fit)."""
        r, m = self.r, self.m
        one, two, few = r.randint(m.least, m.most), r.randint(m.least, m.most), r.randint(2, 8)
        equal = min(m.least + m.size // 13, m.most)
        return r.choice([lambda i: one, lambda i: r.choice([one, two]), lambda i: r.randint(m.least, m.most),
                         lambda i: r.randint(m.least, min(m.least + 3, m.most)),
                         lambda i: equal if i < few else min(m.least + i % 2, m.most)])

    def fitting(self, keys):
        """As many of the keys as fit with such lengths."""
        length = self.lengths()
        records = [self.record(key, length(i)) for i, key in enumerate(keys)]
        fits = [count for count, need in enumerate(needs([len(record) for record in records])) if need <= self.m.size]
        return records[:max(fits)]

    def record(self, key, length):
        rest = bytes([self.r.randrange(256)])
        return (rest * self.m.offset + key + rest * length)[:length]

    # ---- the bytes, as some lawful writer might have left them

    def laid(self):
        found = {0: self.index()}
        for number in range(self.n):
            found[number + 1] = self.interval(self.data.get(number, []))
        return area_of(self.m.size, self.entries, self.free, {}, self.kept, found)

    def index(self):
        """The sections chosen, and Fs that are sometimes shorter than they could be, where there is room for it."""
        r = self.r
        fronts = [r.choice([part.front, part.front, r.randint(0, part.front)]) for part in parts_of(self.entries, self.sections)]
        if not self.fits([separator for separator, _ in self.entries[:-1]], self.sections, fronts):
            fronts = None
        return index_interval(self.entries, self.free, self.m.size, self.kept, self.sections, fronts, r.choice([0, 0, r.randrange(256)]))

    def interval(self, records):
        """Groups as far as possible, or runs split by chance where there is room for it."""
        r, groups = self.r, []
        for length, count in groups_of(records):
            while count and r.random() < 0.5:
                part = r.randint(1, count)
                groups.append((length, part))
                count -= part
            if count:
                groups.append((length, count))
        rdfs = sum(1 if count == 1 else 2 for _, count in groups)
        if r.random() < 0.5 or sum(map(len, records)) + 3 * rdfs + 4 > self.m.size:
            groups = None
        return data_interval(records, self.m.size, groups, r.choice([0, 0, r.randrange(256)]))


def beside(key, by):
    """The key as a number, one more or less."""
    return ((int.from_bytes(key, "big") + by) % 256 ** len(key)).to_bytes(len(key), "big")


class Even(Made):
    """An area whose intervals in use all have so many records, most of them of 60 bytes, with keys of 8 digits, as a load would leave it."""

    def __init__(self, r, n, used, each, size):
        self.used, self.each = used, each
        super().__init__(r, model.Measures(size, 0, 8, 60), n)

    def separators(self):
        self.letters = b"0123456789"
        keys = sorted(self.r.sample(range(10 ** 8), self.used * self.each))
        self.parts = [[b"%08d" % key for key in keys[at:at + self.each]] for at in range(0, len(keys), self.each)]
        self.sections = writers_sections(self.used)
        return [cut_at(left[-1], right[0]) for left, right in zip(self.parts, self.parts[1:])]

    def records(self):
        data = {}
        for part, (_, number) in zip(self.parts, self.entries):
            length = 60 if number % 5 else 59
            data[number] = [self.record(key, length) for key in part]
        return data


def key_like(r, m, separators, letters):
    """A key that begins as one of the separators does, and goes on by chance."""
    separator = r.choice(separators)
    return (separator[:r.randint(0, len(separator))] + bytes(r.choices(letters, k=m.key)))[:m.key]


class Edged(Made):
    """An area whose intervals in use have records at both ends of their range, beside them, and under keys that begin as some separator does, as many as
    fit: a search that leads to a neighbour finds none of them."""

    def records(self):
        r, m, lowest, data = self.r, self.m, 0, {}
        separators = [separator for separator, _ in self.entries]
        pool = [int.from_bytes(key_like(r, m, separators, self.letters), "big") for _ in range(8 * len(separators))]
        for separator, number in self.entries:
            own = int.from_bytes(m.bound_of(separator), "big")
            keys = [key for key in dict.fromkeys([lowest, own, lowest + 1, own - 1] + pool) if lowest <= key <= own]
            fits = sum(need <= m.size for need in needs([m.least] * len(keys))) - 1
            data[number] = [self.record(key.to_bytes(m.key, "big"), m.least) for key in sorted(keys[:fits])]
            lowest = own + 1
        return data


# ---- damage

def damaged(r, area, m):
    """The area with one to three of its bytes, fields or intervals changed, in any of its fields."""
    area = bytearray(area)
    for _ in range(r.choice([1, 1, 1, 2, 3])):
        kind = r.random()
        if kind < 0.05:
            exchange(r, area, m.size)
        elif kind < 0.08:
            area[m.size * r.randint(1, len(area) // m.size) - 2] ^= 0x80
        elif kind < 0.16:
            strange_group(r, area, m)
        elif kind < 0.22:
            strange_chain(r, area, m)
        elif kind < 0.44:
            shift_field(r, area, m)
        else:
            at = somewhere(r, area, m)
            area[at] = r.choice([area[at] ^ (1 << r.randrange(8)), (area[at] + r.choice([1, 3, 253, 255])) % 256, r.randrange(256), 0, 255])
    return bytes(area)


def exchange(r, area, size):
    """Two intervals change places."""
    a, b = (size * r.randrange(len(area) // size) for _ in range(2))
    area[a:a + size], area[b:b + size] = area[b:b + size], area[a:a + size]


def strange_group(r, area, m):
    """One more RDF or pair in a data interval, at the left of those there: a run of none, one or two, its count perhaps in the unused space."""
    end = m.size * r.randint(2, len(area) // m.size)
    d, u = (int.from_bytes(area[end - at:end - at + 2], "big") for at in (4, 2))
    left = end - 4 - (m.size - 4 - d - u) // 3 * 3
    count, length, fields = r.choice([0, 1, 2]), r.randint(m.least, min(m.least + 2, m.most)), r.choice([3, 6])
    if d + u > m.size - 4 or left - 6 < end - m.size + d + 2 * length or u < 2 * length + fields:
        return
    area[left - 6:left] = rdf(0x08, count) + rdf(0x40, length)
    area[end - m.size + d:end - m.size + d + 2 * length] = bytes([0xFE]) * length + bytes([0xFF]) * length
    area[end - 4:end] = (d + count * length).to_bytes(2, "big") + (u - count * length - fields).to_bytes(2, "big")


def field_places(area, m):
    """Where the fields of the index record's sections stand, from the first section on, as far as they lead."""
    places, control = [], model.number(area, 22)
    while HEADER <= control < m.size - 8:
        at = control - area[control + 1] - 2
        if at < HEADER:
            break
        places.append(at)
        if model.number(area, at) == 0:
            break
        control -= model.number(area, at)
    return places


def strange_chain(r, area, m):
    """One link of the sections' chain leads elsewhere: to the highest after the next, to the last entry, nowhere, out of the record, or to a place
    nearby."""
    links = [22] + field_places(area, m)
    place = r.randrange(len(links))
    at, control = links[place], model.number(area, 22) - sum(model.number(area, link) for link in links[1:place])
    old, after = model.number(area, at), model.number(area, links[place + 1]) if place + 1 < len(links) else 3
    last = model.number(area, 20)
    new = r.choice([old - after, last, 0] if place == 0 else [old + after, control - last, 0, old - 3, old + 3, control, 65535, r.randrange(m.size)])
    area[at:at + 2] = (new % 65536).to_bytes(2, "big")


def shift_field(r, area, m):
    """A number of two bytes goes up or down a little, and perhaps its neighbour the other way: d and u, two lengths, two displacements."""
    size = m.size
    end = size * r.randint(1, len(area) // size)
    places = [end - 4, end - 2, end - 6, end - 9, end - 12, 18, 20, 22, 0, size - 6] + field_places(area, m)[:3]
    first, by = r.choice(places), r.choice([-6, -3, -1, 1, 3, 6])
    second = r.choice([first, first + 2, first - 3, 20, 22])
    for at, change in ((first, by), (second, r.choice([0, -by, by]))):
        if 0 <= at <= len(area) - 2:
            area[at:at + 2] = ((int.from_bytes(area[at:at + 2], "big") + change) % 65536).to_bytes(2, "big")


def somewhere(r, area, m):
    """A place in one of the fields of the index record or of a data interval."""
    size = m.size
    unused = min(int.from_bytes(area[18:20], "big"), size - 1)
    last = min(int.from_bytes(area[20:22], "big"), size - 8)
    start = size * r.randint(1, len(area) // size - 1)
    d = min(int.from_bytes(area[start + size - 4:start + size - 2], "big"), size)
    return r.choice([r.randrange(24), r.choice([0, 1, 2, 3, 16, 18, 19, 20, 21, 22, 23]), r.randrange(24, max(unused, 25)), r.randrange(last, size - 7),
                     r.choice(field_places(area, m) + [max(last - 2, 0)]) + r.randrange(2),
                     r.randrange(max(last, size - 30), size - 7), r.randrange(size - 7, size), start + size - 1 - r.randrange(4),
                     start + size - 5 - r.randrange(12), start + size - 5 - r.randrange(30), start + r.randrange(max(d, 1)),
                     start + m.offset + r.randrange(m.key), r.randrange(len(area))])


def hurt_index(r, area, m):
    """The index record, damaged in any of its fields or exchanged for a data interval."""
    while True:
        hurt = damaged(r, area[:2 * m.size], m)[:m.size]
        if hurt != area[:m.size]:
            return hurt


def hurt_interval(r, area, m, k):
    """Data interval k, damaged in any way that a rule speaks of: flag, displacement, unused space, RDFs, keys, the bytes of another or of none. Seldom it is
    still sound."""
    size = m.size
    new = bytearray(area[size * (k + 1):size * (k + 2)])
    d, u = model.number(new, size - 4), model.number(new, size - 2)
    kind = r.randrange(9)
    if kind == 0:
        new[size - 2] ^= 0x80
    elif kind == 1:
        by = r.choice([-3, -1, 1, 3])
        new[size - 4:] = ((d + by) % 65536).to_bytes(2, "big") + ((u + r.choice([0, -by])) % 65536).to_bytes(2, "big")
    elif kind == 2:
        new[size - 4 - 3 * r.randint(1, max((size - 4 - d - u) // 3, 1))] = r.choice([0x00, 0x04, 0x08, 0x10, 0x20, 0x40, 0x48, 0x80])
    elif kind == 3:
        at = size - 3 * r.randint(2, 4)
        new[at:at + 2] = ((model.number(new, at) + r.choice([1, -1, 3, -3])) % 65536).to_bytes(2, "big")
    elif kind == 4:
        new[:] = r.choice([bytes(size), b"\xff" * size, r.randbytes(size)])
    elif kind == 5:
        at = size * r.randrange(len(area) // size)
        new[:] = area[at:at + size]
    else:
        at = min(m.offset + r.choice([0, m.key - 1, r.randrange(m.key)]) + r.choice([0, 0, m.least, max(d - m.least, 0)]), size - 1)
        new[at] = r.choice([0, 255, (new[at] + 1) % 256, (new[at] + 255) % 256])
    return bytes(new)


def overlapping(r):
    """An area, and its measures, that breaks one rule alone: its only free number, 0, is the first byte of the last section's field, with
    which the entries begin."""
    key = r.choice([60, 100, 200, 255])
    m = model.Measures(r.choice([512, 1024]), 0, key, r.choice([key, 505]))
    count = 2
    while (count - 1) * key < room_for_characters(m, count):
        count += 1
    rest, entries = room_for_characters(m, count), []
    for number in range(1, count):
        long = min(key, rest - (count - 1 - number))
        entries.append((bytes([64 + number]) * long, number))
        rest -= long
    index = index_interval(entries + [(b"", count)], [], m.size)
    assert index[18:22] == bytes([0, HEADER, 0, HEADER + 2])
    return index[:19] + bytes([HEADER + 1]) + index[20:] + data_interval([], m.size) * (count + 1), m


def room_for_characters(m, count):
    """The bytes that an index record with no free numbers has for the characters of so many entries in the writer's sections."""
    return m.size - 7 - HEADER - 3 * count - 2 * len(writers_sections(count))


def old_form(r):
    """An area, and its measures, in the form that had no sections. With one or two entries it may have the bytes of a sound one."""
    made = Made(r, measures(r, r.choice([512, 1024])), r.choice([1, 2, 2, 3, 4, 8, 40]))
    index = old_index_interval(made.entries, made.free, made.m.size, made.kept, r.choice([0, 0, 1, 255]))
    return index + made.area[made.m.size:], made.m


def no_entries(r):
    """An area, and its measures, with no entry: all intervals are free."""
    m, n = measures(r, r.choice([512, 1024])), r.randint(1, 40)
    return index_interval([], r.sample(range(n), n), m.size) + data_interval([], m.size) * n, m


def uneven(r):
    """A full interval of a few equal records and many short ones in turn, and a record to go between: the cut nearest the middle often
    does not fit, as the short ones have an RDF each (E2)."""
    m = model.Measures(r.choice([512, 1024]), 0, 4, 505)
    length = m.size * r.randint(33, 46) // 100 // 5
    records = [b"A%03d" % i + b"a" * (length - 4) for i in range(5)]
    records += [b"C%03d" % i + b"c" * (i % 2) for i in range(m.size // 4)]
    fits = [count for count, need in enumerate(needs([len(record) for record in records])) if need <= m.size]
    long = min(5 * length + r.randint(-10, m.size // 5), m.most)
    area = area_of(m.size, [(b"", 0)], [2, 1], {0: records[:max(fits)]})
    return area, m, b"B000" + b"b" * (long - 4)


# ---- requests

def request(made):
    """A request by chance: letter, content, address, output."""
    r, m = made.r, made.m
    letter = r.choice("CGGRRIIIIIUUUUEE")
    records = made.data.get(r.choice(made.entries)[1], [])
    record = r.choice(records) if records else made.record(made.key(), m.least)
    key = r.choice([m.key_of(record), m.key_of(record), made.key(), beside(m.key_of(record), r.choice([1, -1])), near_bound(made)])
    out = bytes([0xEE]) * r.choice([0, len(record), max(len(record) - 1, 0), m.least, min(m.most + 5, 40000)])
    if letter in "CR":
        return letter, b"", address(made) if letter == "R" else 0, out if letter == "R" else b""
    if letter in "GE":
        searched = r.choice([key] * 30 + [key + b"A", key[:-1]])
        return letter, searched, 0, out if letter == "G" else b""
    length = r.choice([len(record), len(record), len(record) + r.choice([-9, -2, -1, 1, 2]), r.randint(m.least, m.most), m.most, m.least])
    if r.random() < 0.9:
        length = min(max(length, m.least), m.most)
    return letter, made.record(key, max(length, 0)), 0, b""


def lookup(made, area):
    """A get by key on a copy of the sound area that there is by now, with damage that counts for this key or does not: in the index record, in the interval that
    the key leads to, in one other, in some or in all. Gives the copy, the key and the output."""
    r, m = made.r, made.m
    if isinstance(model.opened(area, m), model.Answer):
        area = made.area   # a change under other measures has left it unsound under these
    index = model.opened_index(area, m)
    parts = [area[at:at + m.size] for at in range(0, len(area), m.size)]
    records = model.read_interval(parts[r.choice(index.entries)[1] + 1], m)
    record = r.choice(records) if records else made.record(near_bound(made), m.least)
    key = r.choice([m.key_of(record)] * 4 + [beside(m.key_of(record), r.choice([1, -1])), made.key(), near_bound(made)])
    own = index.entries[index.entry_of(key)][1]
    others = [k for k in range(len(parts) - 1) if k != own]
    kind = r.random()
    if kind < 0.15:
        parts[0] = hurt_index(r, area, m)
    if 0.1 < kind < 0.45:
        parts[own + 1] = hurt_interval(r, area, m, own)
    if 0.4 < kind:
        for k in r.sample(others, min(len(others), r.choice([1, 3, 40]))):
            parts[k + 1] = hurt_interval(r, area, m, k)
    out = bytes([0xEE]) * r.choice([len(record), len(record), m.most, max(len(record) - 1, 0), 0])
    return b"".join(parts), r.choice([key] * 12 + [key + b"A", key[:-1], b""]), out


def near_bound(made):
    separator = made.r.choice(made.entries)[0]
    bound = made.m.bound_of(separator)
    return made.r.choice([bound, beside(bound, 1), separator.ljust(made.m.key, b"\0")])


def address(made):
    """Mostly one where a record may begin, seldom one far off."""
    r, m = made.r, made.m
    number = r.randrange(made.n)
    records = made.data.get(number, [])
    start = sum(map(len, records[:r.randint(0, len(records))]))
    found = made.base + number * m.size + start + r.choice([0, 0, 0, 0, 1, -1])
    return max(r.choice([found] * 8 + [made.base - 1, made.base + made.n * m.size, found + 2 ** 32, 2 ** 64 - 1, r.getrandbits(64)]), 0)
