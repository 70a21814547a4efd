#!/usr/bin/env python3
"""Holds a call graph file to the profile of the same run, to the laws of its figures, and to figures that were judged.

figures.py FILE PROFILE [LISTING]

PROFILE is what the print program prints. In LISTING the lines that begin with `#:` are the judged figures, all of them: `own NAME STEPS`, `edge CALLER CALLEE CALLS
STEPS`. Every fault is a line; the status is 1 where there is one.

A group is two functions or more that reach each other over calls that were made. The viewer shows it as one thing and gives a member its own steps and the edges
that leave the group; a function in no group gets the edges that enter it, but for its self edge. What it shows so may not pass the steps of the run.
"""
import sys

from callgrind import Fault, read

MAIN = '(main)'


class Profile:
    """The lines of a profile, by ids: entered, own, inclusive; and the steps."""

    def __init__(self, path):
        with open(path, encoding='ascii') as f:
            end, *lines = f.read().splitlines()
        self.steps = int(end.split()[3])
        self.names, self.entered, self.own, self.inclusive = {}, {}, {}, {}
        for line in lines:
            _, number, entered, own, inclusive, name = line.split()
            key = int(number) + 1
            self.names[key] = MAIN if name == '-' else name
            self.entered[key], self.own[key], self.inclusive[key] = int(entered), int(own), int(inclusive)


def groups(graph):
    """For every id the ids that it reaches and that reach it, itself among them."""
    reached = {a: {a} for a in graph.names}
    changed = True
    while changed:
        changed = False
        for a, b in graph.edges:
            for known in reached.values():
                if a in known and b not in known:
                    known.add(b)
                    changed = True
    return {a: frozenset(b for b in reached[a] if a in reached[b]) for a in reached}


def crossing(graph, inside, incoming):
    """The steps of the edges that enter a set of functions, or that leave it, added up."""
    return sum(steps for (a, b), (_, steps) in graph.edges.items() if (b if incoming else a) in inside and (a if incoming else b) not in inside)


def names_faults(graph, profile):
    if graph.names != profile.names:
        yield 'the names are not those of the profile'
    if any(name <= graph.names[1] for key, name in graph.names.items() if key != 1):
        yield 'main does not sort before every other name: the viewer would miss groups'
    if len(set(graph.names.values())) != len(graph.names):
        yield 'two functions have one name: readers would merge them'
    if set(graph.own) != set(graph.names):
        yield 'not every function has a block'


def sums_faults(graph, profile):
    if graph.summary != profile.steps:
        yield 'the summary is %d, and %d steps were made' % (graph.summary, profile.steps)
    if graph.totals != profile.steps:
        yield 'the totals are %d, and %d steps were made' % (graph.totals, profile.steps)
    if sum(graph.own.values()) != profile.steps:
        yield 'own steps add up to %d, and %d were made' % (sum(graph.own.values()), profile.steps)
    for key, own in graph.own.items():
        if own != profile.own.get(key):
            yield '%s has %d own steps, and not those of the profile' % (graph.names[key], own)
    for key, entered in profile.entered.items():
        calls = sum(n for (_, b), (n, _) in graph.edges.items() if b == key)
        if calls != (0 if key == 1 else entered):
            yield '%s is called %d times, and not as often as it was entered' % (profile.names[key], calls)


def edge_faults(graph, profile):
    for (a, b), (calls, steps) in graph.edges.items():
        pair = '%s to %s' % (graph.names[a], graph.names[b])
        if not 1 <= calls <= steps:
            yield '%s: %d calls in %d steps' % (pair, calls, steps)
        if steps > min(profile.steps, profile.inclusive[a], profile.inclusive[b]):
            yield '%s: %d steps are more than the run, the caller or the callee has' % (pair, steps)


def shown_faults(graph, profile):
    """What the viewer makes of the edges."""
    for key, group in groups(graph).items():
        name = graph.names[key]
        entering = crossing(graph, group, True)
        inside = sum(graph.own[k] for k in group) + crossing(graph, group, False)
        alone = graph.own[key] + sum(steps for (a, b), (_, steps) in graph.edges.items() if a == key and b not in group)
        if entering > profile.steps:
            yield '%s: the edges that enter it, or its group, add up to %d, and fewer steps were made' % (name, entering)
        if key != 1 and entering != inside:
            yield '%s: %d steps enter it, or its group, and %d are made inside' % (name, entering, inside)
        if alone > profile.inclusive[key] or len(group) == 1 and alone < profile.inclusive[key]:
            yield '%s: own steps and what it calls are %d, and its inclusive count is %d' % (name, alone, profile.inclusive[key])


def judged_faults(graph, path):
    with open(path, encoding='ascii') as f:
        wanted = sorted(line[2:].split() for line in f if line.startswith('#:'))
    name = graph.names
    found = [['own', name[k], str(own)] for k, own in graph.own.items()]
    found += [['edge', name[a], name[b], str(calls), str(steps)] for (a, b), (calls, steps) in graph.edges.items()]
    for words in wanted:
        if words not in found:
            yield 'judged, and not so: ' + ' '.join(words)
    for words in found:
        if words not in wanted:
            yield 'so, and not judged: ' + ' '.join(words)


def faults(file, profile, listing=None):
    try:
        graph = read(file)
    except Fault as fault:
        return [str(fault)]
    profile = Profile(profile)
    found = list(names_faults(graph, profile))
    # the laws are about functions that the profile has
    if not found:
        found += list(sums_faults(graph, profile)) + list(edge_faults(graph, profile)) + list(shown_faults(graph, profile))
    return found + (list(judged_faults(graph, listing)) if listing else [])


def main():
    found = faults(*sys.argv[1:])
    for fault in found:
        print(fault)
    return 1 if found else 0


if __name__ == '__main__':
    sys.exit(main())
