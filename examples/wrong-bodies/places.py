#!/usr/bin/env python3
"""Which wrong bodies have lost their place: those whose `old:` text doesn't stand in its file exactly once, in the order of the pairs.
Takes no argument; status 1 where there are any."""
import glob
import os
import sys

top = os.path.join(os.path.dirname(os.path.abspath(__file__)), "..", "..")
lost = 0
for edit in sorted(glob.glob(f"{top}/examples/wrong-bodies/*/*.edit") + glob.glob(f"{top}/crates/*/must-fail/*.edit")):
    parts = os.path.relpath(edit, top).split(os.sep)
    crate = parts[2] if parts[0] == "examples" else parts[1]
    text, old = None, None
    for line in open(edit).read().split("\n"):
        if line.startswith("file: "):
            path = f"{top}/crates/{crate}/{line[6:].strip()}"
            text = open(path).read() if os.path.exists(path) else ""
        elif line.startswith("old: "):
            old = line[5:]
            if text.count(old) != 1:
                lost += 1
                print(os.path.relpath(edit, top), "-", text.count(old), "times:", old.strip())
        elif line.startswith("new: "):
            text = text.replace(old, line[5:])
print(lost, "lost their place")
sys.exit(1 if lost else 0)
