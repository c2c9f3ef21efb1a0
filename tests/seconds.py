#!/usr/bin/env python3
"""Puts before each line of rt ci the seconds since it began, and prints at the end when each crate was proved.

    rt ci | tests/seconds.py run LOG      passes the lines on, keeps them in LOG with their seconds before them
    tests/seconds.py LOG                  prints of such a log how much was proved in this run, and when the slowest crates ended

rt proves crates side by side and says no seconds of its own, so what is printed is when each crate's proof ended.
"""

import re
import sys
import time

PROVED = re.compile(r"^(\d+) rt: (\w+) (proved|NOT PROVED|is kept)")
EDITS = re.compile(r"^(\d+) rt: must-fail (\w+)/\S+: ")


def run(log):
    began = time.monotonic()
    with open(log, "w", encoding="utf-8") as kept:
        for line in sys.stdin:
            kept.write(f"{int(time.monotonic() - began)} {line}")
            kept.flush()
            sys.stdout.write(line)
            sys.stdout.flush()


def report(log):
    proved, kept, edits, last = {}, 0, 0, 0
    with open(log, encoding="utf-8", errors="replace") as lines:
        for line in lines:
            match = PROVED.match(line)
            if match:
                last = max(last, int(match[1]))
                kept += match[3] == "is kept"
                if match[3] != "is kept":
                    proved[match[2]] = int(match[1])
            edits += bool(EDITS.match(line))
    print(f"== {len(proved)} crates proved in this run, {kept} kept from earlier runs of the same files; {edits} edits; the last proof ended at {last} s")
    for name in sorted(proved, key=lambda n: (-proved[n], n))[:20]:
        print(f"{name:<20} {proved[name]:>6}")
    if not proved and not kept:
        sys.exit("no crate was found")


sys.stdin.reconfigure(encoding="utf-8", errors="replace")
if len(sys.argv) == 3 and sys.argv[1] == "run":
    run(sys.argv[2])
elif len(sys.argv) == 2:
    report(sys.argv[1])
else:
    sys.exit(__doc__)
