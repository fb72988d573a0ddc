#!/usr/bin/env python3
"""limits.py: how many intervals an index record can name, and how many of them could be in use, by layout.py's sizes.

Prints the table of README.md, then for the depot's keys how many intervals come into use before 7, with the sections of document 02 (L5) and in
the form that had none.
"""
from layout import HEADER, cut_at, index_size, width_for, writers_sections
from model import LIMIT, SIZES

OLD, NEW = "without sections", "in sections"


def named(size):
    """The most intervals of an area that can be sound: one entry, all others free."""
    return most_of(size, lambda n: index_size([(b"", 0)], range(n - 1), width_for(n)))


def in_use(size):
    """The most that could all be in use if keys took no room at all."""
    return most_of(size, lambda n: HEADER + (width_for(n) + 2) * n + 2 * len(writers_sections(n)))


def most_of(size, bytes_for):
    return max(n for n in range(1, LIMIT + 1) if bytes_for(n) <= size - 7)


def table():
    """Two sizes to a line, as long as the numbers are below the limit."""
    rows = [(size, named(size), in_use(size)) for size in SIZES]
    rows = [row for row in rows if row[1:] != (LIMIT, LIMIT)]
    half = (len(rows) + 1) // 2
    print("| S | sound up to n | all in use up to n | S | sound up to n | all in use up to n |\n|---|---|---|---|---|---|")
    for row in zip(rows[:half], rows[half:] + [("", "", "")] * (len(rows) % 2)):
        print("| " + " | ".join("{:,}".format(each) if each else "" for three in row for each in three) + " |")


def separators(count):
    """Those of so many intervals of eight records, with the depot's keys from A0000000 on; the last one is empty."""
    keys = [(b"A%07d" % (8 * i - 1), b"A%07d" % (8 * i)) for i in range(1, count)]
    return [cut_at(left, right) for left, right in keys] + [b""]


def size_in(form, entries, free):
    """Without sections, entries have the Fs that sections of one would give them, and no fields."""
    if form is NEW:
        return index_size(entries, free)
    return index_size(entries, free, sections=[1] * len(entries)) - 2 * len(entries)


def before_7(size, n, form):
    """How many of n intervals come into use, one division after another, before the first that finds no room in the index record."""
    for count in range(2, n + 1):
        entries = [(separator, 0) for separator in separators(count)]
        if size_in(form, entries, range(n - count)) > size - 7:
            return count - 1
    return n


def main():
    table()
    for n in (127, 200):
        print("S 512, %d intervals, keys from A0000000 on, eight records each: " % n
              + ", ".join("%d %s" % (before_7(512, n, form), form) for form in (OLD, NEW)))


if __name__ == "__main__":
    main()
