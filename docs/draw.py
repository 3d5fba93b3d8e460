#!/usr/bin/env python3
"""Draws public functions and definitions at random, for somebody who hasn't seen them: docs/draw.py SEED [COUNT]

Each is to be clear within a minute, by its file and with READING.md and GLOSSARY.md at hand: what it is, what its arguments
mean, what comes out, and what it is for. A seed draws the same of the same text; without COUNT there are 20. A function stands in src/ of
a crate, a definition in specs/.
"""
import glob
import os
import random
import re
import sys

ROOT = os.path.dirname(os.path.dirname(os.path.abspath(__file__)))
FUNCTION = re.compile(r'\s*pub (?:const |unsafe )*fn (\w+)')
DEFINITION = re.compile(r'\s*(?:(?:abbrev|unfoldable) (?!mutual$)(?:pub )?|(?:pub )?(?:record|data) (?!{))(\S+)')
MUTUAL = re.compile(r'(?:abbrev|unfoldable) mutual$')
MEMBER = re.compile(r'  pub (\S+) :')


def functions(lines):
    """The public functions of a file of src/, each with the number of its line."""
    for number, line in enumerate(lines, 1):
        found = FUNCTION.match(line)
        if found:
            yield number, found.group(1)


def definitions(lines):
    """The definitions of a file of specs/, those that name each other among them."""
    is_mutual = False
    for number, line in enumerate(lines, 1):
        if line.strip() and not line.startswith(' '):
            is_mutual = MUTUAL.match(line.rstrip())
        found = DEFINITION.match(line.rstrip('\n')) or (is_mutual and MEMBER.match(line))
        if found:
            yield number, found.group(1)


def items():
    """All that may be drawn: a path, the number of a line, and a name."""
    for pattern, found_in in (('src/**/*.rt', functions), ('specs/**/*.antt', definitions)):
        for path in sorted(glob.glob(os.path.join(ROOT, 'crates/*', pattern), recursive=True)):
            with open(path, encoding='utf-8') as file:
                for number, name in found_in(file):
                    yield os.path.relpath(path, ROOT), number, name


def main():
    if not 2 <= len(sys.argv) <= 3 or not all(word.isdigit() for word in sys.argv[1:]):
        sys.exit(__doc__)
    seed, count = int(sys.argv[1]), int((sys.argv[2:] or ['20'])[0])
    for path, number, name in random.Random(seed).sample(list(items()), count):
        print(f'{path}:{number}: {name}')


if __name__ == '__main__':
    main()
