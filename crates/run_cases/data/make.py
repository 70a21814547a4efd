#!/usr/bin/env python3
# make.py [VECTORS..]: writes ../stdin (a run a line) and ../stdout (what is expected) from files of judged runs, else from
# tests/vectors/named.txt; the lines on call graphs behind a run are left out.
# Behind them stand the deepest runs there are, judged by hand below: sheets near 512 records, each record inside the next.
import os, sys

here = os.path.dirname(os.path.abspath(__file__))
vectors = sys.argv[1:] or [os.path.join(here, "..", "..", "..", "tests", "vectors", "named.txt")]

TEXT, EMBEDDED, JOIN, EMPTY, FIELD, SPLIT = 1, 4, 5, 6, 7, 8
ASSIGN, SEQUENCE, NOT, IF, UTILITY, CALL, WHILE, FUNCTION, MAIN = 16, 18, 20, 21, 24, 25, 27, 32, 33


def two(n):
    return n.to_bytes(2, "little")


def sheet(*records):
    payloads = [(r[0], r[1] if r[0] == TEXT else b"".join(map(two, r[1:]))) for r in records]
    return b"".join(two(len(p)) + two(kind) + p for kind, p in payloads).hex()


# Function f is an instruction with 505 records around a call of f, all begun before the call, none of them a hold.
# Main calls f: 2 steps of main's own, the call and its empty list. In each call of f: 505 steps down to the call inside, then
# that call and its list, 507 in all. Ten calls are open when the eleventh record of the call is begun; it ends in Failure, which all
# the records around pass on: 10 * 507 = 5070 (0x13ce) steps in f, 5072 (0x13d0) in all. No result is set, so it is true.
def calls(kind, parts):
    around = [(kind, *[r if p == "inside" else p for p in parts]) for r in range(2, 507)]
    return sheet((TEXT, b"f"), (EMPTY,), (CALL, 0, 1), *around, (FUNCTION, 0, 507), (MAIN, 2))


CALLS = (
    "0600 4000 03 01 d0130000"
    "0000 4100"
    "0e00 4300 0000 01000000 02000000 d0130000"
    "0e00 4300 0100 0a000000 ce130000 ce130000"
)


# Function f assigns 500 joins, the innermost with an embedded command on its left that calls f. Two holds a level, so five levels.
# In each call of f: assign, 500 joins, embedded command, call, empty list: 504 steps; 5 * 504 = 2520 (0x09d8), with main's two 2522 (0x09da).
# Under stack limit 5 the sixth call ends in Failure: the string is an error, no right side begins, x stays unset. Under 6 it is an eleventh hold.
def joins():
    around = [(JOIN, r, 4) for r in range(4, 504)]
    around[0] = (JOIN, 3, 4)
    return sheet((TEXT, b"f"), (EMPTY,), (CALL, 0, 1), (EMBEDDED, 2), (TEXT, b"x"), *around, (ASSIGN, 4, 504), (FUNCTION, 0, 505), (MAIN, 2))


JOINS = (
    "0600 4000 03 01 da090000"
    "0000 4100"
    "0e00 4300 0000 01000000 02000000 da090000"
    "0e00 4300 0100 05000000 d8090000 d8090000"
)


# Function f is a utility whose list has 500 splits of the empty text, which add nothing, and then a field with an embedded command that calls f.
# In each call of f: utility, 500 splits with a text each, field, embedded command, call, empty list: 1005 steps; 5 * 1005 = 5025 (0x13a1), with
# main's two 5027 (0x13a3). Under stack limit 5 the sixth call ends in Failure, and so do the lists around it.
def splits():
    around = [(SPLIT, 4, r) for r in range(5, 505)]
    return sheet((TEXT, b"f"), (EMPTY,), (CALL, 0, 1), (EMBEDDED, 2), (TEXT, b""), (FIELD, 3, 1), *around, (UTILITY, 0, 505), (FUNCTION, 0, 506), (MAIN, 2))


SPLITS = (
    "0600 4000 03 01 a3130000"
    "0000 4100"
    "0e00 4300 0000 01000000 02000000 a3130000"
    "0e00 4300 0100 05000000 a1130000 a1130000"
)

# sheet, loop limit, stack limit, budget, what is expected; the arguments are the text x, and there is no input
deep = [
    (calls(NOT, ["inside"]), 0, 10, 1000000, CALLS),
    (calls(SEQUENCE, ["inside", 2]), 0, 10, 1000000, CALLS),
    (calls(IF, ["inside", 2, 2]), 0, 10, 1000000, CALLS),
    (calls(WHILE, ["inside", 2]), 0, 10, 1000000, CALLS),
    (calls(NOT, ["inside"]), 0, 10, 5072, CALLS),
    (calls(NOT, ["inside"]), 0, 10, 5071, "refused 6 1"),
    (joins(), 0, 5, 1000000, JOINS),
    (joins(), 0, 6, 1000000, "refused 10 2"),
    (splits(), 0, 5, 1000000, SPLITS),
]

runs, expected = [], []
for path in vectors:
    for line in open(path).read().splitlines():
        if not line.startswith(("#", "edge ", "file ")):
            words = line.split(" ")
            runs.append(" ".join(words[:6]) + "\n")
            expected.append(" ".join(words[6:]) + "\n")
for s, loops, stack, budget, answer in deep:
    runs.append(f"{s} 0100010078 - {loops} {stack} {budget}\n")
    expected.append((answer if answer.startswith("refused") else answer.replace(" ", "")) + "\n")
open(os.path.join(here, "..", "stdin"), "w").write("".join(runs))
open(os.path.join(here, "..", "stdout"), "w").write("".join(expected))
print(len(runs), "runs")
