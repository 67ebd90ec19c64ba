#!/usr/bin/env python3
"""wide.py MODULE OUT.ll: the text of an LLVM module in which the reading of a long has a product of 64 bits in it."""
import os
import re
import subprocess
import sys

module, out = sys.argv[1:3]
tools = os.path.join(os.path.dirname(os.path.abspath(__file__)), "..", "..", "tools", "targets")
subprocess.run(["bash", os.path.join(tools, "module-text"), module, out], check=True)
with open(out, encoding="utf-8") as text:
    whole = text.read()
start = whole.index('@"numbers::bits_of"(', whole.index("define internal noundef i32 @\"numbers::bits_of\"("))
end = whole.index("\n}\n", start)
body, count = re.subn(
    r"\n  ret i32 (%\w+)$",
    r"""
  %wide0 = zext i32 \1 to i64
  %wide1 = mul i64 %wide0, %wide0
  %wide2 = lshr i64 %wide1, 32
  %wide3 = trunc i64 %wide2 to i32
  ret i32 %wide3""",
    whole[start:end],
)
if count != 1:
    sys.exit("wide.py: numbers::bits_of does not end as this script knows")
with open(out, "w", encoding="utf-8") as text:
    text.write(whole[:start] + body + whole[end:])
