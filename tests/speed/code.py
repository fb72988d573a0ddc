#!/usr/bin/env python3
"""Which functions of two archives have another machine code: code.py BEFORE.a AFTER.a.

Each function's instructions are compared, addresses left aside. What is the same to the letter takes the same time, but for where it lies. Needs objdump for x86-64.
"""
import re
import shutil
import subprocess
import sys


def functions(archive):
    tool = shutil.which("x86_64-linux-gnu-objdump") or "objdump"
    said = subprocess.run([tool, "-d", "--no-show-raw-insn", archive], check=True, capture_output=True, text=True).stdout
    found, lines = {}, []
    for line in said.splitlines():
        head = re.match(r"[0-9a-f]+ <(.+)>:$", line)
        if head:
            lines = found.setdefault(head[1], [])
        elif "\t" in line:
            plain = re.sub(r"0x[0-9a-f]+\(%rip\)|#.*", "", line.split("\t", 1)[1])
            lines.append(re.sub(r"\b[0-9a-f]+ <([^>]+)>", r"<\1>", plain).strip())
    return found


before, after = functions(sys.argv[1]), functions(sys.argv[2])
for name in sorted(before.keys() | after.keys()):
    a, b = before.get(name), after.get(name)
    if a != b:
        print(f"{name}: {len(a) if a else 'none'} instructions before, {len(b) if b else 'none'} after")
print(f"{sum(before[name] == after.get(name) for name in before)} of {len(before)} functions have the same code")
