#!/usr/bin/env python3
"""Runs ./speed over and over, with each build as the first of the two in turn: turns.py TIMES FOLDER BEFORE.so AFTER.so FOLDER_AFTER.

A line for each area and request: the best time of both builds, their ratio, and the ratios within the runs: least, median, greatest. Where a
build's area lies in memory counts too, and so a single order says less.
"""
import re
import statistics
import subprocess
import sys


def run(first, second):
    out = subprocess.run(["./speed", first[1], first[0], second[0], second[1]], capture_output=True, text=True, check=True).stdout
    area = ""
    for line in out.splitlines():
        if line.startswith("S "):
            area = line.split(":")[0]
        found = re.match(r"  (\S.*?)  +(\d+) ns.*? (\d+) ns", line)
        if found:
            yield (area, found[1]), (int(found[2]), int(found[3]))


def main(times, folder, before, after, folder_after):
    old, new = (before, folder), (after, folder_after)
    seen = {}
    for _ in range(times):
        for what, pair in run(old, new):
            seen.setdefault(what, []).append(pair)
        for what, pair in run(new, old):
            seen[what].append(pair[::-1])
    for (area, request), pairs in seen.items():
        best = [min(p[k] for p in pairs) for k in (0, 1)]
        ratios = sorted(b / a for a, b in pairs)
        print(f"{area}  {request}: {best[0]} ns, {best[1]} ns, {best[1] / best[0]:.2f}; "
              f"{ratios[0]:.2f}, {statistics.median(ratios):.2f}, {ratios[-1]:.2f}")


if __name__ == "__main__":
    main(int(sys.argv[1]), *sys.argv[2:6])
