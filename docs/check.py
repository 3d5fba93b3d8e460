#!/usr/bin/env python3
"""Checks what can be counted of the repository: docs/check.py [--list]

- Each path and each name in backticks in README.md, docs/*.md and examples/*.md is there: a path from the root, from crates/ or from a
  crate's folder, a name as a word of a source. A file in a table is in the folder of the path before it. Words of the kit and of the
  system stand in docs/foreign_words.txt.
- The tables of crates in docs/ARCHITECTURE.md and README.md have those of crates.txt, which keeps the layers of docs/layers.py; docs/PROVED.md speaks
  of each crate once, in the order of the layers. What docs/READING.md quotes stands in the crates, and it explains the words of the kit that
  the definitions behind run name; docs/AUDIT.md has the list of docs/reading_list.py and trusts the kit's crates below the programs. README.md has at
  most 140 lines, and the commits of docs/MEASUREMENTS.md are some before this one.
- Files have under 500 lines, functions under 40 (clauses not counted) and at most six parameters, lines of src/ and specs/ under
  160 characters. No library but a crate of tests has tests, and no crate more than four edits.

docs/check_limits.txt has the number of today's exceptions to each rule of shape, which may only fall. --list prints them. Ends with
status 1 where something is amiss, each with a line.
"""
import glob
import os
import re
import subprocess
import sys

import layers
import reading_list

ROOT = os.path.dirname(os.path.dirname(os.path.abspath(__file__)))
WORD = re.compile(r"[A-Za-z_][A-Za-z0-9_']*")
NAME = re.compile(r"[A-Za-z_][A-Za-z0-9_'-]*(?:(?:\.|::)[A-Za-z_][A-Za-z0-9_'-]*)*\Z")
PATH = re.compile(r"[A-Za-z0-9_./+-]+\Z")
FUNCTION = re.compile(r'( *)(?:pub(?:\([a-z]+\))? )?(?:const |unsafe )*fn (\w+)')
MOST_FILE_LINES, MOST_FUNCTION_LINES, MOST_PARAMETERS, MOST_LINE, MOST_EDITS, MOST_README_LINES = 499, 39, 6, 159, 4, 140


def read(path):
    with open(os.path.join(ROOT, path), encoding='utf-8') as file:
        return file.read()


def files(*patterns):
    """The files of some patterns from the root, in order, none of them made by a build."""
    found = {path for pattern in patterns for path in glob.glob(os.path.join(ROOT, pattern), recursive=True)}
    return sorted(os.path.relpath(path, ROOT) for path in found if os.path.isfile(path) and '/out/' not in path)


def crates():
    """The lines of crates.txt: each crate with what it stands on."""
    table = {}
    for line in read('crates.txt').split('\n'):
        name, _, below = line.partition('#')[0].partition(':')
        if name.strip():
            table[name.split()[0]] = below.split()
    return table


# --- documents

def documents():
    return files('README.md', 'docs/*.md', 'examples/*.md')


def quoted(text):
    """The words in backticks outside blocks of code, with their lines."""
    inside = False
    for number, line in enumerate(text.split('\n'), 1):
        if line.lstrip().startswith('```'):
            inside = not inside
        elif not inside:
            for token in re.findall(r'`([^`]+)`', line):
                yield number, token


def known_words():
    words = set(WORD.findall(read('docs/foreign_words.txt')))
    for path in files('crates/*/src/**/*.rt', 'crates/*/specs/**/*.antt', 'crates/*/proofs/**/*.antt', 'bench/*', '.ci/*', 'examples/*',
                      'oracle/**/*.py', 'crates.txt', 'HANDLES', 'canton'):
        words.update(WORD.findall(read(path)))
        words.update(WORD.findall(path))
    return words


def is_there(path):
    path = path.rstrip('/')
    return any(glob.glob(os.path.join(ROOT, below, path)) for below in ('', 'docs', 'crates', 'crates/*', 'crates/*/src'))


def is_known(token, words, names):
    """Whether a token in backticks is no path and no name, or is there."""
    if '/' in token and PATH.match(token):
        parts = token.split('/')
        if any(part.isupper() and len(part) > 1 and part not in ('README', 'HANDLES') for part in parts) or 'out' in parts:
            return True
        return is_there(token)
    if not NAME.match(token):
        return True
    return token in names or all(part in words for part in WORD.findall(token))


def folder_faults():
    """Where a file that is named behind a path, as in `CRATE/specs/A.antt`, `B.antt`, isn't in the folder of that path."""
    for path in documents():
        for number, line in enumerate(read(path).split('\n'), 1):
            for cell in line.split('|') if line.startswith('|') else []:
                folder = None
                for token in re.findall(r'`([\w/]+\.(?:antt|rt))`', cell):
                    folder = os.path.dirname(token) or folder
                    if folder and not is_there(os.path.join(folder, os.path.basename(token))):
                        yield '%s:%d: `%s` is not in %s' % (path, number, token, folder)


def document_faults():
    words, names = known_words(), {os.path.basename(path) for path in files('*', 'docs/*', 'examples/*', 'crates/*/**/*')}
    for path in documents():
        for number, token in quoted(read(path)):
            if not is_known(token, words, names):
                yield '%s:%d: `%s` is nowhere' % (path, number, token)


def table_faults():
    """Where the table of docs/ARCHITECTURE.md and README.md have other crates than crates.txt, and where README.md is too long to be read."""
    rows = read('docs/ARCHITECTURE.md').partition('| Crate | Does |\n')[2].partition('\n\n')[0]
    named = {'docs/ARCHITECTURE.md': re.findall(r'(?m)^\| `(\w+)` \|', rows),
             'README.md': re.findall(r'`(\w+)`', ''.join(re.findall(r'(?m)^\| (.*) \| .* \|$', read('README.md').partition('## The crates')[2])))}
    for path, names in named.items():
        for name in sorted(set(names) ^ set(crates())) + sorted(name for name in set(names) if names.count(name) > 1):
            yield '%s: the table and crates.txt differ in `%s`' % (path, name)
    count = read('README.md').count('\n')
    if count > MOST_README_LINES:
        yield 'README.md has %d lines, and at most %d are read' % (count, MOST_README_LINES)


def layer_faults():
    """Where docs/layers.py isn't as crates.txt is, or docs/ARCHITECTURE.md or docs/PROVED.md have other layers."""
    text, proved = read('docs/ARCHITECTURE.md'), read('docs/PROVED.md')
    yield from layers.faults()
    yield from layers.proved_faults(proved)
    if layers.written(text) != text:
        yield 'docs/ARCHITECTURE.md: the layers are others; docs/layers.py --write writes them'
    if layers.in_order(proved) != proved:
        yield 'docs/PROVED.md: the crates stand in another order than the layers; docs/layers.py --write puts them in order'


def quote_faults():
    """Where a block of docs/READING.md is no part of a source: the first line that no file has, or else the block itself."""
    sources = [read(path) for path in files('crates/*/src/**/*.rt', 'crates/*/specs/**/*.antt')]
    for block in re.findall(r'```rust\n(.*?)```', read('docs/READING.md'), re.S):
        if not any(block in text for text in sources):
            yield 'docs/READING.md: no source has the block that begins with %s' % block.split('\n')[0].strip()


def word_faults():
    """Words of the kit that the definitions behind run name and docs/READING.md doesn't explain."""
    explained = {word for _, token in quoted(read('docs/READING.md')) for word in token.replace('\\|', '|').split()}
    for name in sorted({name for _, name in reading_list.kit_words()} - explained):
        yield 'docs/READING.md: definitions name `%s` of the kit, and it isn\'t explained' % name


def measured_faults():
    """Commits of docs/MEASUREMENTS.md that aren't among those before this one, where the repository has them at all."""
    git = ['git', '-C', ROOT, 'merge-base', '--is-ancestor']
    if subprocess.run(['git', '-C', ROOT, 'rev-parse', '--is-shallow-repository'], capture_output=True, text=True).stdout.strip() != 'false':
        return
    for commit in sorted(set(re.findall(r'\b(?=[0-9]*[a-f])(?=[a-f]*[0-9])[0-9a-f]{7,8}\b', read('docs/MEASUREMENTS.md')))):
        if subprocess.run(git + [commit, 'HEAD'], capture_output=True).returncode != 0:
            yield 'docs/MEASUREMENTS.md: %s is no commit before this one' % commit


def list_faults():
    """Where the reading list of docs/AUDIT.md isn't that of today."""
    text = read('docs/AUDIT.md')
    if reading_list.written(text) != text:
        yield 'docs/AUDIT.md: the reading list is another one; docs/reading_list.py --write writes it'


def trust_faults():
    """Where docs/AUDIT.md trusts other crates of the kit than those below the two programs."""
    table, below = crates(), ['canton_cli', 'canton_draw']
    for name in below:
        below += [other for other in table.get(name, []) if other not in below]
    row = re.search(r"\| the statements of the kit's crates used here \|(.*)\|", read('docs/AUDIT.md'))[1]
    amiss = set(re.findall(r'`(\w+)`', row)) ^ ({'std'} | {name for name in below if name not in table})
    if amiss:
        yield 'docs/AUDIT.md: other crates of the kit are trusted than those below the programs: %s' % ' '.join(sorted(amiss))


DOCUMENT_RULES = [document_faults, folder_faults, table_faults, layer_faults, quote_faults, word_faults, list_faults, trust_faults, measured_faults]


# --- shape

def functions(text):
    """Each function: its line, its name, how many lines it has without its clauses, and its parameters."""
    lines = text.split('\n')
    for at, line in enumerate(lines):
        found = FUNCTION.match(line)
        if not found:
            continue
        end = function_end(lines, at, found.group(1))
        yield at + 1, found.group(2), function_lines(lines[at:end + 1], found.group(1)), parameters('\n'.join(lines[at:end + 1]))


def function_end(lines, at, indent):
    """The last line of the function that begins at a line: its brace, or the end of a declaration."""
    is_open = False
    for end in range(at, len(lines)):
        line = lines[end].rstrip()
        if is_open and line.startswith(indent + '}') or not is_open and line.endswith((';', '{}')) or end == at and line.endswith('}'):
            return end
        is_open = is_open or line.endswith('{') and (end > at or line.endswith(' {'))
    return len(lines) - 1


def function_lines(lines, indent):
    """How many lines a function has: those between its signature and the brace of its body are clauses."""
    for at, line in enumerate(lines):
        if line == indent + '{':
            clauses = [l for l in lines[:at] if re.match(indent + r'    (?: |ensures|requires|decreases)', l)]
            signature = [l for l in clauses if re.match(indent + r'    \w+: |' + indent + r'    (?:&|mut )', l)]
            return len(lines) - len(clauses) + len(signature)
    return len(lines)


def parameters(text):
    """How many parameters a signature has, self not counted."""
    start = text.index('(', text.index('fn '))
    depth, angle, count, part = 0, 0, 0, ''
    for char in text[start:]:
        if char in '([{':
            depth += 1
        elif char in ')]}':
            depth -= 1
        angle += (char == '<') - (char == '>' and not part.endswith('-'))
        if depth == 0 or (depth == 1 and angle == 0 and char == ','):
            count += bool(part.strip()) and not re.match(r"(?:&(?:'\w+ )?)?(?:mut )?self\Z", part.strip())
            part = ''
        elif not (depth == 1 and char == '('):
            part += char
        if depth == 0:
            break
    return count


def long_files():
    for path in files('crates/*/src/**/*.rt', 'crates/*/specs/**/*.antt', 'crates/*/proofs/**/*.antt'):
        count = read(path).count('\n')
        if count > MOST_FILE_LINES:
            yield '%s has %d lines' % (path, count)


def long_lines():
    for path in files('crates/*/src/**/*.rt', 'crates/*/specs/**/*.antt'):
        for number, line in enumerate(read(path).split('\n'), 1):
            if len(line) > MOST_LINE:
                yield '%s:%d has %d characters' % (path, number, len(line))


def long_functions():
    for path in files('crates/*/src/**/*.rt'):
        for number, name, count, _ in functions(read(path)):
            if count > MOST_FUNCTION_LINES:
                yield '%s:%d: %s has %d lines' % (path, number, name, count)


def wide_functions():
    for path in files('crates/*/src/**/*.rt'):
        for number, name, _, count in functions(read(path)):
            if count > MOST_PARAMETERS:
                yield '%s:%d: %s has %d parameters' % (path, number, name, count)


def library_tests():
    for path in files('crates/*/src/**/*.rt'):
        crate = path.split('/')[1]
        if not crate.endswith('_tests') and '#[test]' in read(path) and files('crates/%s/src/lib.rt' % crate):
            yield '%s has tests' % path


def many_edits():
    for crate in crates():
        count = len(files('crates/%s/must-fail/*.edit' % crate))
        if count > MOST_EDITS:
            yield 'crates/%s has %d edits' % (crate, count)


RULES = {'long-files': long_files, 'long-lines': long_lines, 'long-functions': long_functions, 'wide-functions': wide_functions,
         'library-tests': library_tests, 'many-edits': many_edits}


def shape_faults(is_listed):
    """The rules that have more exceptions than docs/check_limits.txt says."""
    limits = dict(line.split() for line in read('docs/check_limits.txt').split('\n') if line and not line.startswith('#'))
    for rule, exceptions in RULES.items():
        found, limit = list(exceptions()), int(limits.get(rule, 0))
        if is_listed:
            print('%s: %d' % (rule, len(found)))
        if is_listed or len(found) > limit:
            print('\n'.join('  ' + line for line in found))
        if len(found) > limit:
            yield '%s: %d exceptions, and docs/check_limits.txt allows %d' % (rule, len(found), limit)
        elif len(found) < limit:
            print('docs/check_limits.txt can say %s %d' % (rule, len(found)))


def main():
    faults = [fault for rule in DOCUMENT_RULES for fault in rule()] + list(shape_faults('--list' in sys.argv[1:]))
    print('\n'.join(faults + ['%d faults in documents and shape' % len(faults)]))
    sys.exit(1 if faults else 0)


if __name__ == '__main__':
    main()
