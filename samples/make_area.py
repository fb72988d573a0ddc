#!/usr/bin/env python3
"""make_area.py [LIST FILE]: certificates as a text list to a control area as the bureau would send it.

A line is one certificate of 8 to 60 characters, its first 8 the key. Blank lines and lines that
begin with # are passed over. Records are laid out in the order of their keys, each interval filled
to about two thirds so that new ones find room; the intervals left over are free. A bad line is told
with its number, and then nothing is written. With no names it goes from samples/certificates.txt to
samples/register/area.ci.
"""
import os
import sys

HERE = os.path.dirname(os.path.abspath(__file__))
sys.path.insert(0, os.path.join(HERE, "..", "tests"))
import layout  # noqa: E402
import texts  # noqa: E402

SIZE, KEY, MOST = 512, 8, 60
INTERVALS = 14
FILLED = 340


def wrong(text, found):
    """Why a line is no certificate beside those found, or nothing."""
    if not text.isascii():
        return "a character that is not ASCII"
    if not KEY <= len(text) <= MOST:
        return "a certificate of %d characters, not %d to %d" % (len(text), KEY, MOST)
    if text[:KEY] in found:
        return "key %s is there already" % text[:KEY]
    return ""


def certificates(path):
    """The records in the order of their keys; the first bad line ends the run."""
    found = {}
    for place, text in texts.lines(path):
        reason = wrong(text, found)
        if reason:
            sys.exit("%s:%d: %s" % (path, place, reason))
        found[text[:KEY]] = text.encode("ascii")
    return [found[key] for key in sorted(found)]


def spread(records):
    """The records in their order, cut into the contents of intervals."""
    parts = [[]]
    for record in records:
        if parts[-1] and sum(map(len, parts[-1])) + len(record) > FILLED:
            parts.append([])
        parts[-1].append(record)
    return parts


def separators(parts):
    """One for each interval: its last key, cut where the next interval's first key departs from it; none for the last."""
    out = []
    for left, right in zip(parts, parts[1:]):
        out.append(layout.cut_at(left[-1][:KEY], right[0][:KEY]))
    return out + [b""]


def main():
    own_list, own_file = os.path.join(HERE, "certificates.txt"), os.path.join(HERE, "register", "area.ci")
    path, file = texts.names(__doc__, own_list, own_file)
    parts = spread(certificates(path))
    if len(parts) > INTERVALS:
        sys.exit("%s: %d intervals are needed, and the area has %d" % (path, len(parts), INTERVALS))
    entries = [(separator, number) for number, separator in enumerate(separators(parts))]
    free = list(reversed(range(len(parts), INTERVALS)))
    texts.write(file, layout.area_of(SIZE, entries, free, dict(enumerate(parts))))


if __name__ == "__main__":
    main()
