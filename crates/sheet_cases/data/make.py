#!/usr/bin/env python3
# make.py VECTORS: writes ../stdin (a case a line: its name, the sheet, the argument sheet) and ../stdout (what is expected) from a file of judged runs.
# A run that is refused 3, 4 or 5 has to be refused so here; one that ends, or is refused 6 or later, has a good sheet and good arguments.
# Runs refused 1 or 2 say nothing about their sheets and are left out.
import os, sys

here = os.path.join(os.path.dirname(os.path.abspath(__file__)), "..")
lines = open(sys.argv[1]).read().split("\n")
cases, expected = [], []
for title, run in zip(lines, lines[1:]):
    if not title.startswith("# "):
        continue
    name, words = title[2:].split(":")[0], run.split(" ")
    number = int(words[7]) if words[6] == "refused" else 0
    if number in (1, 2):
        continue
    cases.append(f"{name} {words[0]} {words[1]}\n")
    expected.append(f"{name} refused {number} at {words[8]}\n" if 3 <= number <= 5 else f"{name} accepted\n")
open(os.path.join(here, "stdin"), "w").write("".join(cases))
open(os.path.join(here, "stdout"), "w").write("".join(expected))
