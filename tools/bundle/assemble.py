#!/usr/bin/env python3
"""Writes a bundle from a listing that a person can read.

assemble.py LISTING BUNDLE

A listing is lines of ASCII text; `#` begins a comment line, which may hold anything; blank lines are skipped:

    limits LOOP STACK BUDGET      the limits, once
    given TEXT                    one line for each argument, argument 0 first
    input TEXT                    standard input, at most once
    NUMBER KIND ...               a record: its number, its kind, its texts, numbers or references

A text is the rest of its line after one space, with the blanks at its end; it may be empty. \\n, \\t, \\\\ and \\xHH stand for bytes: what is not
ASCII is refused, so that no encoding is guessed, and written as \\xHH. A number is digits. Lines may end as on Windows.

Nothing is judged here but the listing's form, and its length (1,000,000 bytes, and 16,384 for its bundle): a wrong reference or an odd limit is
written as it stands, and the print program refuses it.
"""
import re
import sys

# kind number, and how many 2-byte numbers follow
KINDS = {
    'variable': (2, 1), 'argument': (3, 1), 'embedded': (4, 1), 'join': (5, 2),
    'empty': (6, 0), 'field': (7, 2), 'split': (8, 2),
    'assign': (16, 2), 'export': (17, 1), 'sequence': (18, 2), 'subshell': (19, 1), 'not': (20, 1),
    'if': (21, 3), 'nooutput': (22, 1), 'pipe': (23, 2), 'utility': (24, 2), 'call': (25, 2),
    'for': (26, 3), 'while': (27, 2), 'exit': (28, 1), 'return': (29, 1), 'shift': (30, 1),
    'function': (32, 2), 'main': (33, 1),
}
CODES = {'success': '0', 'failure': '1', 'previous': '2'}
LONGEST_LISTING = 1_000_000
LONGEST_BUNDLE = 16_384


class Fault(Exception):
    pass


def digits(word):
    """The number that a word of digits stands for; None for any other word, and above ten digits."""
    match = re.fullmatch('0*([0-9]{1,10})', word)
    return int(match.group(1)) if match else None


def number(word, size):
    value = digits(word)
    if value is None or value >= 256 ** size:
        raise Fault(f'{word!r} is not a number of {size} bytes')
    return value.to_bytes(size, 'little')


def text(words):
    def byte(match):
        code = match.group(1)
        if not code:
            raise Fault('a backslash begins \\n, \\t, \\\\ or \\xHH')
        if code[0] == 'x':
            return chr(int(code[1:], 16))
        return {'n': '\n', 't': '\t', '\\': '\\'}[code]
    return re.sub(r'\\(n|t|\\|x[0-9a-fA-F]{2}|)', byte, words).encode('latin-1')


def record(kind, payload):
    if len(payload) > 65535:
        raise Fault('a record holds at most 65,535 bytes')
    return len(payload).to_bytes(2, 'little') + kind.to_bytes(2, 'little') + payload


def sheet_record(kind, rest):
    if kind == 'text':
        return record(1, text(rest))
    if kind not in KINDS:
        raise Fault(f'no kind is called {kind!r}')
    code, many = KINDS[kind]
    words = rest.split()
    if kind in ('exit', 'return'):
        words = [CODES.get(word, word) for word in words]
    if len(words) != many:
        raise Fault(f'{kind} takes {many} numbers, not {len(words)}')
    return record(code, b''.join(number(word, 2) for word in words))


class Listing:
    def __init__(self):
        self.limits = None
        self.sheet = self.arguments = b''
        self.records = 0
        self.input = None

    def line(self, line):
        if not line.isascii():
            raise Fault('a listing is ASCII: in a text write \\xHH for every other byte')
        word, _, rest = line.partition(' ')
        if word == 'limits':
            self.take_limits(rest.split())
        elif word == 'given':
            self.arguments += record(1, text(rest))
        elif word == 'input':
            if self.input is not None:
                raise Fault('a second input')
            self.input = text(rest)
        elif word.isdigit():
            if digits(word) != self.records:
                raise Fault(f'record {word} where {self.records} comes next')
            kind, _, rest = rest.partition(' ')
            self.sheet += sheet_record(kind, rest)
            self.records += 1
        else:
            raise Fault(f'{word!r} begins no line of a listing')

    def take_limits(self, words):
        if self.limits is not None or len(words) != 3:
            raise Fault('the limits are three numbers, once')
        loop, stack, budget = words
        self.limits = number(loop, 4) + number(stack, 2) + number(budget, 4)

    def bundle(self):
        if self.limits is None:
            raise Fault('no limits')
        parts = ((80, self.limits), (81, self.sheet), (82, self.arguments), (83, self.input or b''))
        size = sum(4 + len(payload) for _, payload in parts)
        if size > LONGEST_BUNDLE:
            raise Fault(f'too long: its bundle would have {size:,} bytes, where {LONGEST_BUNDLE:,} are the most')
        return b''.join(record(kind, payload) for kind, payload in parts)


def read(name):
    """The lines of a listing. Bytes that are no text become a character that is not ASCII, which only a comment may hold."""
    with open(name, 'rb') as source:
        listing = source.read(LONGEST_LISTING + 1)
    if len(listing) > LONGEST_LISTING:
        raise Fault(f'too long: a listing has at most {LONGEST_LISTING:,} bytes')
    return listing.decode('utf-8-sig', 'replace').replace('\r\n', '\n').split('\n')


def write(name, bundle):
    with open(name, 'wb') as out:
        out.write(bundle)


def assemble(lines):
    listing = Listing()
    for place, line in enumerate(lines, 1):
        line = line.rstrip('\n')
        if line.strip() and not line.startswith('#'):
            try:
                listing.line(line)
            except Fault as fault:
                raise Fault(f'line {place}: {fault}')
    return listing.bundle()


def main():
    if len(sys.argv) != 3:
        sys.exit(__doc__)
    name = sys.argv[1]
    try:
        bundle = assemble(read(name))
        name = sys.argv[2]
        write(name, bundle)
    except OSError as fault:
        sys.exit(f'{name}: {fault.strerror}')
    except Fault as fault:
        sys.exit(f'{name}: {fault}')


if __name__ == '__main__':
    main()
