#!/usr/bin/env python3
"""lessons.py COMMAND...: runs every trace of docs/LESSONS.md through the trace program and compares with the column "right". Where the column
"wrong" differs from it, the first line that does, and no other, has the mark."""
import os
import re
import subprocess
import sys

page = os.path.join(os.path.dirname(os.path.abspath(__file__)), "..", "docs", "LESSONS.md")
with open(page, encoding="utf-8") as text:
    blocks = re.findall(r"```\n( +right +[^\n]*\n.*?)```", text.read(), re.S)
count = 0
for block in blocks:
    head, *rows = block.rstrip("\n").split("\n")
    at = head.index("right")
    lines = "".join(row[:at].rstrip() + "\n" for row in rows)
    right = [" ".join(row[at:].split()[:2]) for row in rows]
    said = subprocess.run(sys.argv[1:], input=lines, capture_output=True, text=True, check=True).stdout.splitlines()
    if said != right:
        sys.exit(f"docs/LESSONS.md: this trace is answered {said}, and the page says {right}:\n{lines}")
    if "wrong" in head.split():
        parted = [i for i, row in enumerate(rows) if " ".join(row[at:].split()[2:4]) != right[i]]
        if parted[:1] != [i for i, row in enumerate(rows) if row.endswith("<- here they part")]:
            sys.exit(f"docs/LESSONS.md: in this trace the mark is not where the columns part:\n{lines}")
    count += len(rows)
if len(blocks) < 10:
    sys.exit(f"docs/LESSONS.md: {len(blocks)} traces found, and there are at least ten")
print(f"lessons: {len(blocks)} traces of {count} lines, answered as the page says")
