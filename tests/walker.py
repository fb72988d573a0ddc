"""Walks through C (crate `exports`), and held side by side with model.walk, single steps with steps.py.

`Walking` does the comparing: it counts into a program.Comparing, and what differs goes to its list.
"""
import random
import struct

import model
import program
import random_areas
import steps
import trial_walks
from layout import area_of
from steps import Place


class Walker:
    """The four functions of `exports` that walk."""

    def __init__(self, library):
        self.library = library

    def begun(self, lent, m, forward, given=None):
        """The place that a walk begins with, or the answer that refuses it."""
        content = program.Lent(self.library, b"" if given is None else given)
        numbers = program.Numbers(self.library, [program.UNSTORED] * len(Place._fields))
        words = lent.words() + list(m) + [int(forward)] + ([] if given is None else content.words()) + numbers.words()
        told = self.library.call("belquita_walk_end" if given is None else "belquita_walk_from", words)
        assert content.content() == (given or b"") and content.beside() == 2 * program.GUARD
        place = Place(*numbers.now())
        if told == 0:
            return place
        assert place[1:] == (0,) * 6
        return model.Answer(told, (place.entry,) if told == 2 else ())

    def next(self, lent, size, forward, place):
        """The next place, and the length of the record there."""
        numbers = program.Numbers(self.library, place)
        long = self.library.call("belquita_walk_next", lent.words() + [size, int(forward)] + numbers.words())
        return Place(*numbers.now()), long

    def added(self, lent, m, forward):
        """The lengths of all records of a walk from an end, added up; 0 where it is refused."""
        return self.library.call("belquita_walk", lent.words() + list(m) + [int(forward)])


class Walking:
    def __init__(self, comparing):
        self.comparing, self.walker = comparing, Walker(comparing.program.library)

    def says(self, should, found, what, m, area):
        """One comparison."""
        self.comparing.compared += 1
        if should != found:
            at = next((i for i in range(min(len(should), len(found))) if should[i] != found[i]), min(len(should), len(found)))
            self.comparing.differences.append("%s %s, %d bytes: from place %d on model %s, program %s" % (
                what, tuple(m), len(area), at, should[at:at + 3], found[at:at + 3]))

    def walk(self, area, m, forward, given=None, most=None):
        """A walk, or its first so many records, step by step; then, if it was whole, the end, twice. Gives what the model says."""
        should, lent = model.walk(area, m, forward, given), program.Lent(self.walker.library, area)
        found = self.walker.begun(lent, m, forward, given)
        number = should.number if isinstance(should, model.Answer) else 0
        self.comparing.numbers[number] = self.comparing.numbers.get(number, 0) + 1
        if not isinstance(should, model.Answer) and not isinstance(found, model.Answer):
            entries = {named: place for place, (_, named) in enumerate(model.opened(area, m).index.entries)}
            told = [(entries[start // m.size - 1], start, len(record)) for start, record in should[:most]]
            ends = [] if most is not None and most <= len(should) else [(0, 0, 0)] * 2
            found = self.stepped(lent, m.size, forward, found, len(told) + len(ends))
            should = should if isinstance(should, model.Answer) else told + ends
        self.says(should, found, "walk %s from %s" % ("forward" if forward else "backward", "an end" if given is None else given.hex()), m, area)
        if given is None:
            came = model.walk(area, m, forward)
            total = 0 if isinstance(came, model.Answer) else sum(len(record) for _, record in came)
            self.says([total], [self.walker.added(lent, m, forward)], "lengths of a walk", m, area)
        if lent.content() != area or lent.beside() != 2 * program.GUARD:
            self.comparing.differences.append("a walk changed the area")

    def stepped(self, lent, size, forward, place, count):
        """Entry, start and length of so many places of a walk."""
        out, long = [], place.length
        for _ in range(count):
            out.append((place.entry, place.start, long) if long == place.length else (place, long))
            place, long = self.walker.next(lent, size, forward, place)
        return out

    def both(self, area, m, given=None, most=None):
        for forward in (True, False):
            self.walk(area, m, forward, given, most)

    def steps(self, area, size, forward, place, count):
        """Steps from any place on any bytes."""
        lent, should, found, at = program.Lent(self.walker.library, area), [], [], place
        for _ in range(count):
            at = steps.next_place(area, size, forward, at)
            should.append((at, len(steps.record_at(area, at))))
        for _ in range(count):
            place, long = self.walker.next(lent, size, forward, place)
            found.append((place, long))
        self.says(should, found, "steps", (size, forward), area)

    def line(self, letter, area, m, content, out):
        """What trial prints for a walk or for steps, by what C tells; the record of a step's first place is not asked for."""
        lent = program.Lent(self.walker.library, area)
        if letter in "NP":
            place = Place(*struct.unpack(">7Q", content))
            places = [(place, len(steps.record_at(area, place)))]
            for _ in range(out):
                places.append(self.walker.next(lent, m.size, letter == trial_walks.NEXT, places[-1][0]))
            return trial_walks.steps_line(letter, places)
        forward = letter in "FL"
        came = self.walker.begun(lent, m, forward, content if letter in "FB" else None)
        if isinstance(came, model.Answer):
            return trial_walks.walk_line(letter, came, out)
        records, place, long = [], came, came.length
        while place.length:
            records.append((place.start, area[place.start:place.start + long]))
            place, long = self.walker.next(lent, m.size, forward, place)
        if long or self.walker.next(lent, m.size, forward, place) != (place, 0):
            return "a walk without an end"
        return trial_walks.walk_line(letter, records, out)


# ---- by chance

def given_bytes(made):
    """Bytes to begin with: keys that are there and keys that are not, mostly some first bytes of them; seldom none, or too many."""
    r, m = made.r, made.m
    records = made.data.get(r.choice(made.entries)[1], [])
    key = m.key_of(r.choice(records)) if records and r.random() < 0.6 else r.choice([made.key(), random_areas.near_bound(made), bytes(m.key), b"\xff" * m.key])
    key = r.choice([key, key, random_areas.beside(key, r.choice([1, -1]))])
    return r.choice([key, key[:r.randint(1, m.key)], key[:r.randint(1, m.key)], key[:r.randint(1, m.key)], r.choice([b"", key + b"A", key[:1]])])


def any_place(made, area):
    """A place that some walk gives, with numbers changed by chance; or all numbers by chance."""
    r, m = made.r, made.m
    numbers = [0, 1, 2, m.size - 4, m.size - 7, m.size - 10, m.size - 1, m.size, r.randrange(m.size), r.randrange(len(area) + 1), len(area) - 1, len(area), r.randrange(made.n + 1),
               2 ** 32, 2 ** 63, 2 ** 64 - 1]
    place = [r.choice(numbers) for _ in Place._fields]
    if r.random() < 0.9:
        number = r.randrange(made.n)
        records = made.data.get(number, [])
        ordinal = r.randint(0, len(records))
        start = (number + 1) * m.size + sum(map(len, records[:ordinal]))
        near = [r.randrange(len(made.entries)), start, len((records + [b"x"])[ordinal]), r.choice([0, 0, 1, 5]), m.size - 4 - 3 * r.randint(0, 4),
                r.choice([m.size - 7, r.randrange(m.size)]), model.number(area, 22)]
        place = [r.choice(numbers) if r.random() < 0.15 else each for each in near]
    return Place(*place)


def by_chance(walking, made, area, count, most=None):
    """Walks from both ends and from bytes of an area, with hostile measures now and then; on damaged copies; and steps from any place, on both."""
    r, m = made.r, made.m
    walking.both(area, m, None, most)
    for _ in range(count):
        asked = random_areas.hostile(r, m) if r.random() < 0.05 else m
        walking.walk(area, asked, r.random() < 0.5, given_bytes(made), most)
    for _ in range(count):
        hurt = random_areas.damaged(r, area, m)
        walking.walk(hurt, m, r.random() < 0.5, r.choice([None, given_bytes(made)]), most)
        for where in (area, hurt):
            walking.steps(where, r.choice([m.size] * 8 + random_areas.HOSTILE), r.random() < 0.5, any_place(made, where), 3)


# ---- for outside.py: the same cases each time

def each_size(walking):
    """Every size of intervals, few of them and many, in every lawful form."""
    for size in model.SIZES:
        for turn in range(6):
            r = random.Random("walk %d %d" % (size, turn))
            made = random_areas.Made(r, random_areas.measures(r, size), r.randint(1, 9))
            by_chance(walking, made, made.area, 12, 600)
    for turn in range(20):
        r = random.Random("walk many %d" % turn)
        size = r.choice([512, 1024, 1024, 2048])
        made = random_areas.Made(r, random_areas.measures(r, size, (2, 3, 4, 8)), r.choice([40, 100, 256, 256, 300 if size > 512 else 200]))
        by_chance(walking, made, made.area, 6, 600)


def every_key(walking):
    """Each key, each of its fronts, and what lies beside them, both ways."""
    for turn in range(40):
        r = random.Random("walk keys %d" % turn)
        made = random_areas.Made(r, random_areas.measures(r, 512, (1, 2, 3, 4)), r.randint(1, 6))
        keys = [made.m.key_of(record) for records in made.data.values() for record in records]
        for given in trial_walks.around(made.m, r.sample(keys, min(len(keys), 12))):
            walking.both(made.area, made.m, given, 20)


def large(walking):
    """Whole walks over registers of thousands of records."""
    for size, n, used, each in ((2048, 200, 190, 33), (32768, 256, 250, 545), (4096, 1000, 190, 66)):
        made = random_areas.Even(random.Random("walk large %d %d" % (size, n)), n, used, each, size)
        walking.both(made.area, made.m, None, None if size < 32768 else 3000)
        for _ in range(6):
            walking.both(made.area, made.m, given_bytes(made), 50)


def most(walking):
    """4,096 intervals, two of them in use, the other numbers free."""
    m = model.Measures(10240, 0, 8, 60)
    records = [b"1%07d" % (2 * i + 1) + b"." * (52 - i % 2) for i in range(100)]
    area = area_of(10240, [(b"2", 4000), (b"", 0)], [k for k in range(1, 4096) if k != 4000], {4000: records, 0: [b"30000000"]})
    walking.both(area, m)
    for given in (b"10000100", b"2", b"3"):
        walking.both(area, m, given)


def all_walks(comparing):
    walking = Walking(comparing)
    each_size(walking)
    every_key(walking)
    large(walking)
    most(walking)
