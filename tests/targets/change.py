#!/usr/bin/env python3
"""change.py MODULE OUT.ll [NUMBER]: the text of an LLVM module in which one constant is another: the most that an SREF's flags
can be, 15, is 14. With NUMBER, the constant of that comparison, counted from 0, is one more instead. It says which; with a
NUMBER past the last it ends with status 3."""
import os
import re
import subprocess
import sys

module, out = sys.argv[1:3]
tools = os.path.join(os.path.dirname(os.path.abspath(__file__)), "..", "..", "tools", "targets")
subprocess.run(["bash", os.path.join(tools, "module-text"), module, out], check=True)
with open(out, encoding="utf-8") as text:
    lines = text.readlines()

compared = re.compile(r"(.* = icmp \w+ i\d+ )(?:(-?\d+)(, %\w+)|(%\w+, )(-?\d+))(\n)")
places = [(i, m) for i, m in ((i, compared.fullmatch(line)) for i, line in enumerate(lines)) if m]


def value(m):
    return int(m[2] or m[5])


if len(sys.argv) > 3:
    number = int(sys.argv[3])
    if number >= len(places):
        sys.exit(3)
    at, by = number, 1
else:
    found = [n for n, (i, m) in enumerate(places) if value(m) == 15 and " i8 " in m[1]]
    if not found:
        sys.exit("change.py: no comparison with 15: choose another constant")
    at, by = found[0], -1
i, m = places[at]
lines[i] = m[1] + (f"{value(m) + by}{m[3]}" if m[2] else f"{m[4]}{value(m) + by}") + m[6]
name = next(re.search(r'@"?([\w:]+)', line)[1] for line in reversed(lines[:i]) if line.startswith("define "))
print(f"changed in {name}: {m[0].strip()}")
with open(out, "w", encoding="utf-8") as text:
    text.writelines(lines)
