#!/usr/bin/env python3
"""printed.py PROGRAM: judged bundles through the print program. tests/vectors/printed.txt has `BUNDLE PRINTED`, both in hex, a line each; - is no bytes.

The last line is 'N passed, M failed'.
"""
import os
import subprocess
import sys

ROOT = os.path.dirname(os.path.dirname(os.path.dirname(os.path.abspath(__file__))))


def bytes_of(word):
    return b'' if word == '-' else bytes.fromhex(word)


def main():
    command = sys.argv[1:]
    passed = failed = 0
    name = ''
    with open(os.path.join(ROOT, 'tests', 'vectors', 'printed.txt'), encoding='utf-8') as lines:
        for line in lines:
            if line.startswith('#'):
                name = line[1:].strip()
                continue
            bundle, wanted = map(bytes_of, line.split())
            got = subprocess.run(command, input=bundle, stdout=subprocess.PIPE, check=False).stdout
            if got == wanted:
                passed += 1
            else:
                failed += 1
                print('%s: printed %r' % (name, got))
    print('%d passed, %d failed' % (passed, failed))
    return 1 if failed or not passed else 0


if __name__ == '__main__':
    sys.exit(main())
