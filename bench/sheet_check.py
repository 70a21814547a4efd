#!/usr/bin/env python3
"""Counts the instructions that checking a sheet takes, over sheets that grow, and fails if the cost of a record grows with their number.

Runs the program sheet_cases (tools/program makes it where it is not there) on one sheet at a time, under callgrind. What reading and decoding the
line costs is taken off by a second run on as many bytes that are refused at record 0.
"""
import os, re, struct, subprocess, sys

ROOT = os.path.join(os.path.dirname(os.path.abspath(__file__)), "..")
PROGRAM = subprocess.run([os.path.join(ROOT, "tools", "program"), "sheet_cases"], stdout=subprocess.PIPE, check=True, text=True).stdout.strip()


def rec(kind, *numbers):
    return struct.pack("<HH", 2 * len(numbers), kind) + b"".join(struct.pack("<H", n) for n in numbers)


def text(b):
    return struct.pack("<HH", len(b), 1) + b


def name(i):
    return bytes([97 + i // 26, 97 + i % 26])


def shifts(n):
    """n records that refer to nothing, and main"""
    return [rec(30, 0)] * (n - 1) + [rec(33, 0)]


def sequences(n):
    """each refers to the two before it"""
    return [rec(30, 0), rec(30, 0)] + [rec(18, i - 2, i - 1) for i in range(2, n - 1)] + [rec(33, n - 2)]


def named(kind, names, n):
    """names, one record of the kind for each, then as many more as fit, all naming the last"""
    head = [rec(6)] + [text(name(i)) for i in range(names)]
    if kind == 2:
        body = [rec(2, 1 + i) for i in range(names)] + [rec(2, names)] * (n - 2 * names - 3)
        return head + body + [rec(30, 0), rec(33, n - 2)]
    body = [rec(30, 0)] + [rec(32, 1 + i, 1 + names) for i in range(names)] + [rec(25, names, 0)] * (n - 2 * names - 3)
    return head + body + [rec(33, 1 + names)]


def counted(line):
    """what the program writes, and how many instructions it runs"""
    p = subprocess.run(["valgrind", "--tool=callgrind", "--callgrind-out-file=/dev/null", PROGRAM], input=line, capture_output=True)
    return p.stdout, int(re.search(rb"Collected : (\d+)", p.stderr).group(1))


def instructions(sheet):
    out, n = counted(f"x {sheet.hex()} 01000100{ord('x'):02x}\n".encode())
    return out.decode().strip(), n


def cost(records):
    sheet = b"".join(records)
    got, full = instructions(sheet)
    bad, base = instructions(b"\xff\xff" + sheet[2:])
    if got != "x accepted" or bad != "x refused 4 at 0":
        sys.exit(f"unexpected answers: {got}, {bad}")
    return full - base, len(sheet)


def table(title, make, sizes, per):
    print(title)
    rates = []
    for n in sizes:
        c, size = cost(make(n))
        rates.append(c / per(n, size))
        print(f"  {n:4} {size:5} bytes {c:8} instructions {rates[-1]:8.1f} for each unit")
    return rates


def main():
    sizes = [64, 128, 256, 512]
    failed = False
    families = [
        ("records without references, a unit is a record", shifts, lambda n, size: n),
        ("records with two references, a unit is a record", sequences, lambda n, size: n),
        ("16 variables, then one named again, a unit is a record", lambda n: named(2, 16, n), lambda n, size: n),
        ("32 functions and calls of the last, a unit is a record", lambda n: named(25, 32, n), lambda n, size: n),
    ]
    for title, make, per in families:
        r = table(title, make, [n for n in sizes if n >= 128 or make in (shifts, sequences)], per)
        # with the square of the records, eight times the records would cost eight times as much each
        if r[-1] > 2 * r[0]:
            failed = True
            print("  grows")
    t = lambda n: [text(b"a" * 63)] * n + [rec(30, 0), rec(33, n)]
    r = table("texts of 63 bytes, a unit is a byte", t, [15, 30, 60, 120], lambda n, size: size)
    failed |= r[-1] > 2 * r[0]
    print("failed" if failed else "passed: the cost of a record does not grow with the number of records")
    sys.exit(failed)


main()
