"""A step of a walk from any place on any bytes, as its contract defines it: `nextOf` and `recordOf` of crate walk, with the aids below them.

No paper says what a step does on an area that is not sound, or from a place that was made up: there the contract alone does, and this is a second
writing of it. What the papers say of walks is model.walk; that the steps give it from each begun place is tried in trial_walks.py and outside.py.
Numbers have 64 bits, and no sum of them may pass that: `sums` sees to it.
"""
from typing import NamedTuple

from layout import HEADER, width_for
from model import number


class Place(NamedTuple):
    """Where a walk stands: entry and start of its record, its length (0 is the end), and what makes steps quick."""
    entry: int
    start: int
    length: int
    left: int
    at: int
    right: int
    end: int


class Spot(NamedTuple):
    """A record of one interval: its start there, its length (0 is none), how many of its run are to come, where the run's RDFs end in the direction."""
    start: int
    length: int
    left: int
    at: int


class Edge(NamedTuple):
    """Where the next entry of the index record ends, and where its section's highest has its control information."""
    right: int
    end: int


END = Place(0, 0, 0, 0, 0, 0, 0)
NONE = Spot(0, 0, 0, 0)
HIGHEST = 2 ** 64 - 1


def sums(*numbers):
    total = sum(numbers)
    assert total <= HIGHEST, numbers
    return total


def record_at(area, p):
    """The part of the area that a place names; the empty one where it does not lie there."""
    return area[p.start:p.start + p.length] if p.start + p.length <= len(area) else b""


def next_place(area, size, forward, p):
    if p.length == 0:
        return p
    if p.left == 0:
        return leave(area, size, forward, p)
    if forward:
        return p._replace(start=sums(p.start, p.length), left=p.left - 1) if p.start + p.length <= len(area) else END
    return p._replace(start=p.start - p.length, left=p.left - 1) if p.length <= p.start else END


def leave(area, size, forward, p):
    """Past a run: to the next one of the interval, or to another interval."""
    n = count_of(area, size)
    if n <= p.entry or not 1 <= p.start // size <= n:
        return END
    base = p.start // size * size
    interval, spot, edge = area[base:base + size], Spot(p.start - base, p.length, p.left, p.at), Edge(p.right, p.end)
    found = after(interval, spot) if forward else before(interval, spot)
    if found.length:
        return placed(found, base, p.entry, edge)
    return ahead(area, size, p.entry + 1, edge) if forward else behind(area, size, p.entry)


def count_of(area, size):
    return 0 if size < 512 or len(area) < size else len(area) // size - 1


def placed(spot, base, entry, edge):
    return Place(entry, sums(base, spot.start), spot.length, spot.left, spot.at, edge.right, edge.end) if spot.length else END


# ---- to another interval

def first_place(area, size, forward, entries):
    """From an end: of so many entries in use."""
    return ahead(area, size, 0, start_edge(area[:size])) if forward else behind(area, size, entries)


def ahead(area, size, entry, edge):
    """The first record of the entries from this one on, which ends at the edge."""
    n = count_of(area, size)
    for i in range(entry, n):
        if edge.right == 0:
            return END
        passed = passing(area[:size], width_for(n), edge)
        if passed is None or n <= passed[0]:
            return END
        named, past, last = passed
        edge = Edge(0 if last else past.right, past.end)
        base = (named + 1) * size
        found = first(area[base:base + size])
        if found.length:
            return placed(found, base, i, edge)
    return END


def behind(area, size, entries):
    """The last record of the first so many entries: one pass over the index record, of which only d of each interval is asked."""
    n = count_of(area, size)
    edge, found = start_edge(area[:size]), None
    for i in range(entries):
        passed = passing(area[:size], width_for(n), edge)
        if passed is None or n <= passed[0]:
            break
        named, edge, _ = passed
        if number(area, (named + 2) * size - 4):
            found = i, named
    if found is None:
        return END
    base = (found[1] + 1) * size
    return placed(last(area[base:base + size]), base, found[0], Edge(0, 0))


def start_edge(index):
    return Edge(len(index) - 7, number(index, 22)) if HEADER <= len(index) else Edge(0, 0)


def passing(index, width, edge):
    """The entry that ends at the edge: its number, the edge past it, and whether it is the last. None where it would not lie in the record."""
    if len(index) < HEADER or len(index) < edge.right or edge.right < width + 2:
        return None
    control = edge.right - (width + 2)
    closes = control == edge.end
    start = control - index[control + 1] - (2 if closes else 0)
    if start < 0:
        return None
    end = max(edge.end - number(index, start), 0) if closes else edge.end
    return number(index, control + 2, width), Edge(start, end), control == number(index, 20)


# ---- within an interval

def rdfs_at(interval):
    """Where the RDFs begin, by the CIDF alone; its busy flag does not count."""
    return number(interval, len(interval) - 4) + (number(interval, len(interval) - 2) & 0x7FFF)


def first(interval):
    return left_group(interval, 0, len(interval) - 4)


def last(interval):
    return right_group(interval, number(interval, len(interval) - 4), rdfs_at(interval))


def after(interval, spot):
    if len(interval) < spot.start + spot.length:
        return NONE
    if len(interval) - 4 < spot.at:
        return NONE
    return left_group(interval, spot.start + spot.length, spot.at)


def before(interval, spot):
    return right_group(interval, spot.start, spot.at)


def left_group(interval, start, q):
    """The first record of the group whose RDFs end at place q."""
    rdfs = (q - rdfs_at(interval)) // 3
    if rdfs < 1:
        return NONE
    control, length = interval[q - 3], number(interval, q - 2)
    if length == 0 or control not in (0x00, 0x40):
        return NONE
    if control == 0x00:
        return Spot(start, length, 0, q - 3)
    if rdfs < 2 or interval[q - 6] != 0x08 or number(interval, q - 5) < 2:
        return NONE
    return Spot(start, length, number(interval, q - 5) - 1, q - 6)


def right_group(interval, end, q):
    """The last record of the group whose RDFs begin at place q."""
    room = len(interval) - 4 - q
    if room < 3:
        return NONE
    if interval[q] == 0x00:
        return end_of(end, number(interval, q + 1), 1, q + 3)
    if interval[q] == 0x08 and 6 <= room:
        return end_of(end, number(interval, q + 4), number(interval, q + 1), q + 6)
    return NONE


def end_of(end, length, count, q):
    return Spot(end - length, length, count - 1, q) if length <= end and count else NONE
