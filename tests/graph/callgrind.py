"""Reads the call graph file line by line, as docs/FORMATS.md has it, and takes nothing else.

A reader of the format would take much more. Here a line out of its place is a fault, an id is known only after its definition, and what was read, written out
again, has to be the same bytes.
"""
import re

HEAD = ['# callgrind format', 'version: 1', 'creator: colis-runner', 'positions: line', 'events: Steps']
LONGEST = 40033
NUMBER = '(0|[1-9][0-9]*)'


class Fault(Exception):
    pass


class Lines:
    """The lines of a file that are still to be read."""

    def __init__(self, text):
        if not text.endswith('\n'):
            raise Fault('the last line has no end')
        self.lines = text[:-1].split('\n')
        self.at = 0

    def peek(self, form, further=0):
        """What the next line holds of a form, or one further on; none where it has another."""
        at = self.at + further
        return re.fullmatch(form, self.lines[at]) if at < len(self.lines) else None

    def take(self, form, what):
        found = self.peek(form)
        if not found:
            line = repr(self.lines[self.at]) if self.at < len(self.lines) else 'the end'
            raise Fault('line %d is not %s: %s' % (self.at + 1, what, line))
        self.at += 1
        return found


class Graph:
    """The figures of a file: the names of ids 1 and on, `own` by id, `edges` (calls, steps) by the ids of caller and callee."""

    def __init__(self, text):
        lines = Lines(text)
        for line in HEAD:
            lines.take(re.escape(line), repr(line))
        self.summary = int(lines.take('summary: ' + NUMBER, 'the summary')[1])
        lines.take('', 'an empty line')
        lines.take(re.escape('fl=(1) ???'), 'the file')
        self.names = definitions(lines)
        self.own, self.edges = {}, {}
        while lines.peek('fn=.*', 1):
            self.block(lines)
        lines.take('', 'an empty line')
        self.totals = int(lines.take('totals: ' + NUMBER, 'the totals')[1])
        if lines.at != len(lines.lines):
            raise Fault('line %d: something stands behind the totals' % (lines.at + 1))
        if self.text() != text:
            raise Fault('the blocks or the pairs of a block are not in the order of their numbers')
        if len(text) > LONGEST:
            raise Fault('%d bytes are more than a file can have' % len(text))

    def known(self, found):
        number = int(found[1])
        if number not in self.names:
            raise Fault('id %d is used, and was not defined before' % number)
        return number

    def block(self, lines):
        lines.take('', 'an empty line')
        caller = self.known(lines.take(r'fn=\(%s\)' % NUMBER, 'a block'))
        if caller in self.own:
            raise Fault('id %d has a second block' % caller)
        self.own[caller] = int(lines.take('0 ' + NUMBER, 'own steps')[1])
        while lines.peek('cfn=.*'):
            callee = self.known(lines.take(r'cfn=\(%s\)' % NUMBER, 'a function that is called'))
            if (caller, callee) in self.edges:
                raise Fault('ids %d and %d are a pair twice' % (caller, callee))
            calls = int(lines.take('calls=%s 0' % NUMBER, 'a number of calls')[1])
            self.edges[caller, callee] = (calls, int(lines.take('0 ' + NUMBER, 'the steps of a pair')[1]))

    def text(self):
        """The bytes that these figures have."""
        lines = HEAD + ['summary: %d' % self.summary, '', 'fl=(1) ???'] + ['fn=(%d) %s' % pair for pair in self.names.items()]
        for caller in sorted(self.own):
            lines += ['', 'fn=(%d)' % caller, '0 %d' % self.own[caller]]
            for (first, callee), figures in sorted(self.edges.items()):
                if first == caller:
                    lines += ['cfn=(%d)' % callee, 'calls=%d 0' % figures[0], '0 %d' % figures[1]]
        return '\n'.join(lines + ['', 'totals: %d' % self.totals]) + '\n'


def definitions(lines):
    names = {}
    while lines.peek('fn=.*'):
        found = lines.take(r'fn=\(%s\) (\S.*)' % NUMBER, 'the definition of a name')
        if int(found[1]) != len(names) + 1:
            raise Fault('id %s is defined, where %d comes next' % (found[1], len(names) + 1))
        names[len(names) + 1] = found[2]
    return names


def read(path):
    with open(path, 'rb') as f:
        return Graph(f.read().decode('latin-1'))
