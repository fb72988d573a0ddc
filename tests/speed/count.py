#!/usr/bin/env python3
"""How many instructions a request takes, of two builds: count.py FOLDER BEFORE.so AFTER.so [REQUEST ..].

For machines on which no time means anything, since the programs run under an emulator there: that counts every instruction. FOLDER holds the areas that make_areas.py wrote,
./speed is speed.c as a program. A request is done twice and four times; half the difference is what one takes, with the copying back that undoes a change.
"""
import os
import subprocess
import sys
import tempfile

sys.path.insert(0, os.path.join(os.path.dirname(os.path.abspath(__file__)), ".."))
import calls  # noqa: E402

REQUESTS = ["check", "get by key", "update in place", "insert", "erase", "dividing insert", "index walk"]
AREAS = ["a20", "a127", "a200", "b20"]


def instructions(folder, build, area, request, times):
    emulator, *loader = calls.settled("on")
    with tempfile.NamedTemporaryFile() as log:
        words = ["./speed", folder, build, "loop", area, request, str(times)]
        subprocess.run([emulator, "-one-insn-per-tb", "-d", "exec,nochain", "-D", log.name, *loader, *words], check=True, capture_output=True)
        count = 0
        with open(log.name, "rb") as said:
            for part in iter(lambda: said.read(1 << 20), b""):
                count += part.count(b"\n")
        return count


def one(folder, build, area, request):
    return (instructions(folder, build, area, request, 4) - instructions(folder, build, area, request, 2)) // 2


if __name__ == "__main__":
    folder, before, after = sys.argv[1:4]
    for area in AREAS:
        for request in sys.argv[4:] or REQUESTS:
            old, new = one(folder, before, area, request), one(folder, after, area, request)
            print(f"{area}  {request}: {old} before, {new} after, {new / old:.3f}", flush=True)
