#!/usr/bin/env python3
"""Has Valgrind's own reader read a call graph file, and holds what it prints to the file.

annotated.py FILE

callgrind_annotate has to read it without a warning; the counts it prints have to be the own counts of the file, and the calls it prints the pairs of the file.
Every fault is a line; the status is 1 where there is one.
"""
import re
import subprocess
import sys

from callgrind import Fault, read

COUNT = r'\s*([\d,]+)(?: \([ \d.]+%\))?\s+'
TOTALS = re.compile(COUNT + 'PROGRAM TOTALS')
OWN = re.compile(COUNT + r'\?\?\?:(\S+)')
TREE = re.compile(COUNT + r'([<*>])\s+\?\?\?:(\S+)(?: \(([\d,]+)x\) \[\])?')


def annotated(file, *words):
    """What is printed, and the faults of the reading itself."""
    ran = subprocess.run(['callgrind_annotate', '--threshold=100', *words, file], capture_output=True, text=True)
    found = []
    if ran.returncode != 0:
        found.append('callgrind_annotate ends with %d' % ran.returncode)
    for line in ran.stderr.splitlines():
        found.append('callgrind_annotate says: ' + line)
    for line in ran.stdout.splitlines():
        if re.search('warning|uninitialized|could not be found', line, re.I):
            found.append('callgrind_annotate prints: ' + line)
    return ran.stdout.splitlines(), found


def number(text):
    return int(text.replace(',', ''))


def same(what, found, wanted):
    if sorted(found) != sorted(wanted):
        yield 'callgrind_annotate shows other %s: %s' % (what, sorted(set(found) ^ set(wanted))[:3] or 'one of them twice')


def own_faults(file, graph):
    lines, found = annotated(file)
    yield from found
    totals = [number(m[1]) for m in map(TOTALS.fullmatch, lines) if m]
    yield from same('totals', totals, [sum(graph.own.values())])
    own = [(m[2], number(m[1])) for m in map(OWN.fullmatch, lines) if m]
    yield from same('own counts', own, [(graph.names[key], count) for key, count in graph.own.items()])


def tree(lines):
    """The blocks of a tree: (name, own), and the pairs, seen from the callee and seen from the caller."""
    own, callers, callees, before = [], [], [], []
    for m in filter(None, map(TREE.fullmatch, lines)):
        if m[2] == '<':
            before.append((m[3], number(m[4]), number(m[1])))
        elif m[2] == '*':
            own.append((m[3], number(m[1])))
            callers += [(caller, m[3], calls, steps) for caller, calls, steps in before]
            before = []
        else:
            callees.append((own[-1][0], m[3], number(m[4]), number(m[1])))
    return own, callers, callees


def tree_faults(file, graph, which):
    lines, found = annotated(file, '--tree=' + which)
    yield from found
    own, callers, callees = tree(lines)
    edges = [(graph.names[a], graph.names[b], calls, steps) for (a, b), (calls, steps) in graph.edges.items()]
    yield from same('own counts', own, [(graph.names[key], count) for key, count in graph.own.items()])
    yield from same('callees', callees, edges)
    yield from same('callers', callers, edges if which == 'both' else [])


def faults(file):
    try:
        graph = read(file)
    except Fault as fault:
        return annotated(file)[1] + [str(fault)]
    return [*own_faults(file, graph), *tree_faults(file, graph, 'both'), *tree_faults(file, graph, 'calling')]


def main():
    found = faults(sys.argv[1])
    for fault in found:
        print(fault)
    return 1 if found else 0


if __name__ == '__main__':
    sys.exit(main())
