#!/usr/bin/env python3
"""Writes the five areas that speed.c times requests on, two more for stack.c, two with few and with many intervals, and the three of get.c:
make_areas.py FOLDER.

Records of 60 bytes, keys of 8 decimal digits at the front; in c6 records of 6 bytes, all of them key, so that an interval has thousands. The intervals in use are filled evenly but for the middle one, which is
full, so that one record more divides it; in the areas of get.c all are full. NAME.ci is the area; NAME.txt has S, n, the number of entries, a key that is there, one right
behind it that is not, and a key that divides.
"""
import os
import sys

sys.path.insert(0, os.path.join(os.path.dirname(os.path.abspath(__file__)), ".."))
import layout  # noqa: E402

#        name    S      n    free  records  their length, the key's
AREAS = [("a20", 512, 20, 2, 100, 60, 8),
         ("a127", 512, 127, 37, 400, 60, 8),
         ("a200", 2048, 200, 4, 4378, 60, 8),
         ("e200", 2048, 204, 4, 4468, 60, 8),
         ("s4096", 4096, 20, 2, 1100, 60, 8),
         ("b20", 32768, 20, 2, 8825, 60, 8),
         ("c6", 32768, 6, 2, 20459, 6, 6),
         ("m256", 10240, 256, 236, 3000, 60, 8),
         ("m4096", 10240, 4096, 3776, 48000, 60, 8),
         ("g50", 2048, 54, 4, 50 * 33, 60, 8),
         ("g100", 2048, 104, 4, 100 * 33, 60, 8),
         ("g200", 2048, 204, 4, 200 * 33, 60, 8)]


def main(folder):
    for name, size, n, free, count, long, key in AREAS:
        used = n - free
        full = (size - 10) // long
        counts = [(count - full) // (used - 1)] * used
        for i in range((count - full) - counts[0] * (used - 1)):
            counts[i if i < used // 2 else i + 1] += 1
        counts[used // 2] = full
        assert sum(counts) == count and max(counts) <= full
        parts, number = [], 10
        for c in counts:
            parts.append([b"%0*d" % (key, number + 10 * k) + b"x" * (long - key) for k in range(c)])
            number += 10 * c
        entries = [(layout.cut_at(parts[i][-1][:key], parts[i + 1][0][:key]) if i + 1 < used else b"", i) for i in range(used)]
        area = layout.area_of(size, entries, list(range(n - 1, used - 1, -1)), dict(enumerate(parts)))
        assert len(area) == (n + 1) * size
        there = parts[used // 3][len(parts[used // 3]) // 2][:key]
        middle = int(parts[used // 2][full // 2][:key]) + 5
        with open(os.path.join(folder, name + ".ci"), "wb") as out:
            out.write(area)
        with open(os.path.join(folder, name + ".txt"), "w") as out:
            out.write("%d %d %d %s %0*d %0*d\n" % (size, n, used, there.decode(), key, int(there) + 5, key, middle))


main(sys.argv[1])
