#!/usr/bin/env python3
"""Writes a listing in which all pairs are met that there can be: main and 32 functions, each of them calling all 32.

pairs.py LISTING

One instruction is the script and the body of every function: `if test [-n, $1] then (f1 [$2]; ..; f32 [$2]) else true`; the run is given `a` and `b`. So main
calls every function with `b`, each of these calls every function with nothing, and those end. Names have 63 bytes, the most a name may have.

A round of calls makes 166 steps of its own: the if, 6 for the test, 31 sequences, 4 for each call and its list. A call without arguments makes 9: the if, 6 for the
test, 2 for `true`. A function is called once by main and is then 166 + 32 * 9 = 454 steps long; by every function, itself too, it is called once, for 9 steps.
So its own count is 166 + 32 * 9 = 454 as well, and the whole is 166 + 32 * 454 = 14,694. The listing tells these figures in lines that begin with `#:`.
"""
import sys

COUNT = 32
NAMES = ['f%d_' % n + 'x' * (63 - len('f%d_' % n)) for n in range(1, COUNT + 1)]
ROUND, LAST = 166, 9
WHOLE = ROUND + COUNT * LAST


def figures():
    yield 'own (main) %d' % ROUND
    for name in NAMES:
        yield 'own %s %d' % (name, WHOLE)
        yield 'edge (main) %s 1 %d' % (name, WHOLE)
        for caller in NAMES:
            yield 'edge %s %s 1 %d' % (caller, name, LAST)


def records():
    """The records, each by its kind and its parts; a name's number is its place in NAMES."""
    found = ['text ' + name for name in NAMES]

    def add(words):
        found.append(words)
        return len(found) - 1

    option, test, true = add('text -n'), add('text test'), add('text true')
    first, second, empty = add('argument 1'), add('argument 2'), add('empty')
    tested = add('utility %d %d' % (test, add('field %d %d' % (option, add('field %d %d' % (first, empty))))))
    given = add('field %d %d' % (second, empty))
    calls = [add('call %d %d' % (name, given)) for name in range(COUNT)]
    all_calls = calls[-1]
    for call in reversed(calls[:-1]):
        all_calls = add('sequence %d %d' % (call, all_calls))
    body = add('if %d %d %d' % (tested, all_calls, add('utility %d %d' % (true, empty))))
    for name in range(COUNT):
        add('function %d %d' % (name, body))
    add('main %d' % body)
    return found


def main():
    with open(sys.argv[1], 'w', encoding='ascii') as f:
        f.writelines('#: %s\n' % figure for figure in figures())
        f.write('limits 0 2 14694\ngiven x\ngiven a\ngiven b\n')
        f.writelines('%d %s\n' % numbered for numbered in enumerate(records()))


if __name__ == '__main__':
    main()
