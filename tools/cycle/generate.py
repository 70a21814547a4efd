#!/usr/bin/env python3
"""Writes the answers of the evaluators' cycle from the short ones of each member.

generate.py OUT

OUT is crates/engine/proofs/+evaluators/Answers.antt, made of answers/MEMBER.ans: blocks apart by a blank line, `use` lines first; then the
goal's name on a line, perhaps `unfolding ..`, and the term. Lines `$name = term` in a block of their own say a term once for the answers
below it. A goal without an answer is left to the prover's search. `rt fmt` lays the file out.
"""
import glob
import os
import re
import sys

HERE = os.path.join(os.path.dirname(os.path.abspath(__file__)), 'answers')
HEAD = '-- What the evaluators leave to show, member by member: made of tools/cycle/answers by tools/cycle/generate.py.\n'
GOALS = 'use Rattle.engine.proofs.+evaluators.Goals as goal\n'


def member(path):
    """A file's name in dashes is the member's path."""
    return os.path.basename(path)[:-len('.ans')].replace('-', '::')


def read(path, uses):
    """The answers of one member as text; what it imports goes into uses."""
    name, terms, out = member(path), {}, []
    with open(path, encoding='utf-8') as f:
        blocks = re.split(r'\n\n+', f.read().strip())

    def filled(text):
        return re.sub(r'\$[\w-]+', lambda m: terms[m.group()], text)

    for block in blocks:
        lines = block.split('\n')
        if lines[0].startswith('use '):
            for line in lines:
                module, words = re.fullmatch(r'use (\S+)\.\{(.*)\}', line).groups()
                uses.setdefault(module, set()).update(words.split(', '))
        elif lines[0].startswith('$'):
            for line in lines:
                short, _, term = line.partition(' = ')
                terms[short] = filled(term)
        else:
            goal, rest = name + '-' + lines[0], lines[1:]
            unfolding = [rest.pop(0)] if rest[0].startswith('unfolding ') else []
            term = [filled(line) for line in rest]
            body = ' ' + term[0] if len(term) == 1 else ''.join('\n    ' + line for line in term)
            out.append('\n'.join(['pub %s : goal.%s' % (goal, goal)] + unfolding + ['%s t c =%s' % (goal, body)]) + '\n')
    return '\n'.join(out)


def main():
    uses, parts = {}, []
    for path in sorted(glob.glob(os.path.join(HERE, '*.ans'))):
        parts.append('\n-- %s\n\n%s' % (member(path), read(path, uses)))
    imports = ''.join('use %s.{%s}\n' % (module, ', '.join(sorted(words))) for module, words in sorted(uses.items()))
    with open(sys.argv[1], 'w', encoding='utf-8') as f:
        f.write(HEAD + imports + GOALS + ''.join(parts))


if __name__ == '__main__':
    main()
