#!/usr/bin/env python3
"""What has to be read to believe `run`: every definition that its clauses reach, and the code's types and constants that these name.

    docs/reading_list.py            the files in reading order, each with the lines of its definitions that are reached, and sums
    docs/reading_list.py --names    the same with the definitions themselves
    docs/reading_list.py --of NAME  why a definition is reached: the way from a clause of run to it
    docs/reading_list.py --kit      the words of the kit that they name, where each comes from, and how often; docs/READING.md explains them
    docs/reading_list.py --write    writes the list into docs/AUDIT.md, where docs/check.py compares it

A definition is reached where a clause of run, or a definition that is reached, has its name; what a name stands for is told by the `use` lines
of its file. Its lines are its own with the comment above it, and how many of them are comments is told too; blank lines, `use` lines and definitions
that aren't reached don't count. Of a type of code that has an `impl Model` what contracts see of it is reached, and of another one its public fields.
In reading order a file comes before those below it: each is defined in the words of later ones."""
import collections
import functools
import glob
import os
import re
import sys

ROOT = os.path.dirname(os.path.dirname(os.path.abspath(__file__)))
TOP = ('canton_run', 'src/top_call.rt', 'run')
WORD = re.compile(r"[^\s(){}\[\],;]+")
START = re.compile(r"(?:(?:abbrev|unfoldable|pub|private|record|data) )*([^\s:|(]+)")
DEFINES = re.compile(r"(?:abbrev |unfoldable )?(?:pub |private )?(?:record |data )|(?:abbrev |unfoldable |pub )+\S+ :|[^\s:]+ :")
ITEM = re.compile(r'\s*(?:pub(?:\([a-z]+\))? )?(?:struct|enum|trait|const|type) (\w+)')
GROUPS = ['meaning', 'audits', 'contract language', 'formats']
# which crates, or files of them, are about audits of written logs, about the contract language and about forms of texts and bytes; all else is meaning
AUDITS = {'audit_model', 'log_audit', 'log_judge'}
LANGUAGE = {'lang_eval', 'lang_check', 'native_choice', 'interpret/Language', 'interpret/Sizes', 'ledger_model/Language', 'ledger_model/Conformance',
            *('ledger_terms/' + name for name in ('Syntax', 'SyntaxCodes', 'SyntaxLists', 'Packages', 'package', 'template', 'choice', 'expr', 'stmt', 'kind',
                                                  'field_decl'))}
FORMATS = {'json_walk', 'lang_read', 'script_read', 'cli_words', 'load_gen', 'report_text', 'commitment_text', 'wire_form', 'message_bytes', 'log_dump',
           'hash_id', 'blind_tree', 'acs_commit', 'cn_io', 'log_audit/Lines', 'canton_model/ReasonNames', 'sealed_form/RangeTests', 'sealed_form/SealedTest',
           *('ledger_terms/' + name for name in ('Names', 'Pointers', 'Inside', 'NameBack', 'name', 'pointer', 'text', 'limits'))}

BEGIN, END = '<!-- docs/reading_list.py --write writes this -->', '<!-- its end -->'
Definition = collections.namedtuple('Definition', 'crate file name start end words')


def read(path):
    with open(os.path.join(ROOT, path), encoding='utf-8') as file:
        return file.read()


def sign_of(name):
    """What stands in a text for a name: of an operator between two operands its sign."""
    return name.strip('◌') if name.count('◌') == 2 else name


def without_comment(line):
    return line.partition(' --')[0] if not line.startswith('--') else ''


class Specs:
    """One file of specs/: its definitions by name, and what the names of others in it stand for."""

    def __init__(self, crate, path):
        self.crate, self.path = crate, path
        self.module = os.path.relpath(path, f'crates/{crate}/specs')[:-len('.antt')].replace('/', '.')
        self.names, self.modules, self.shown, self.definitions = {}, {}, {}, {}
        self.lines = read(path).split('\n')
        for line in self.lines:
            self.take_use(line)
        self.take_definitions()

    def take_use(self, line):
        found = re.match(r'(pub )?use ([\w.]+?)(?:\.\{(.*)\}| as (\w+))?$', line)
        if not found:
            return
        is_shown, module, items, alias = found.groups()
        for item in (items or '').split(','):
            name, _, other = item.strip().partition(' as ')
            self.names[sign_of(other or name)] = (module, name)
            if is_shown:
                self.shown[other or name] = (module, name)
        if items is None:
            self.modules[alias or module.split('.')[-1]] = module

    def take_definitions(self):
        """Parts the file at lines that begin a definition; comments right above belong to it."""
        starts = []
        indent = ''
        for at, line in enumerate(self.lines):
            if re.match(r'(abbrev |unfoldable )?mutual$|module .* where$', line):
                indent = '  '
            elif line and not line.startswith(' '):
                indent = ''
            text = line[len(indent):] if line.startswith(indent) else ''
            if text and text[0] not in ' -' and not text.startswith(('use ', 'pub use ', 'pub mod', 'mod ', 'infix')) and DEFINES.match(text):
                starts.append((at, START.match(text)[1]))
        for number, (at, name) in enumerate(starts):
            end = starts[number + 1][0] if number + 1 < len(starts) else len(self.lines)
            self.add(name, self.first_line(at), self.first_line(end) if end < len(self.lines) else end)

    def first_line(self, at):
        while at > 0 and self.lines[at - 1].strip().startswith(('-- ', 'infix', 'abbrev mutual', 'module ')) and '----' not in self.lines[at - 1]:
            at -= 1
        return at

    def add(self, name, start, end):
        text = [without_comment(line) for line in self.lines[start:end]]
        while end > start and not self.lines[end - 1].strip():
            end -= 1
        definition = Definition(self.crate, self.path, name, start, end, tuple(WORD.findall('\n'.join(text))))
        self.definitions.setdefault(sign_of(name), definition)
        if any(re.match(r'\s*(pub )?data ', line) for line in text):
            for line in text[1:]:
                found = re.match(r'\s+\|?\s*([^\s:|]+) ?(?::|$)', line)
                if found:
                    self.definitions.setdefault(found[1], definition)


@functools.lru_cache(None)
def specs_of(crate, module):
    """The file of a module, if there is one."""
    path = f'crates/{crate}/specs/{module.replace(".", "/")}.antt'
    return Specs(crate, path) if os.path.isfile(os.path.join(ROOT, path)) else None


def end_of(lines, at):
    """The line behind the item that begins at a line."""
    if not lines[at].rstrip().endswith('{'):
        return at + 1
    indent = lines[at][:len(lines[at]) - len(lines[at].lstrip())]
    return next(end for end in range(at + 1, len(lines)) if lines[end].startswith(indent + '}')) + 1


def code_item(crate, path, lines, at, name):
    """A type, trait or constant of code: what contracts see of it. That is what the view of its `impl Model` says, where it has one, and
    else its public fields or its variants."""
    model = next((row for row, line in enumerate(lines) if re.match(r'impl.* Model for %s\b' % name, line)), None)
    start, end = (at, end_of(lines, at)) if model is None else (model, end_of(lines, model))
    end = next((row for row in range(start, end) if model is not None and 'ghost invariant' in lines[row]), end)
    text = [line.partition('//')[0] for line in lines[start:end] if not re.match(r'\s+ghost (use|coded) ', line)]
    if model is None and re.search(r'\bstruct ', lines[at]):
        text = [line for line in text[1:] if line.strip().startswith('pub ')] + text[:1] * lines[at].rstrip().endswith(';')
    while model is None and lines[start - 1].strip().startswith(('///', '#[')):
        start -= 1
    return Definition(crate, path, name, start, end, tuple(WORD.findall('\n'.join(text))))


@functools.lru_cache(None)
def code_items(crate):
    """The types, traits and constants of a crate's code: name to definition."""
    found = {}
    for full in sorted(glob.glob(os.path.join(ROOT, f'crates/{crate}/src/**/*.rt'), recursive=True)):
        path = os.path.relpath(full, ROOT)
        lines = read(path).split('\n')
        for at, line in enumerate(lines):
            item = ITEM.match(line)
            if item:
                found.setdefault(item[1], code_item(crate, path, lines, at, item[1]))
    return found


@functools.lru_cache(None)
def crates():
    table = {}
    for line in read('crates.txt').split('\n'):
        name, _, below = line.partition('#')[0].partition(':')
        if name.strip():
            table[name.split()[0]] = below.split()
    return table


def item_of(module, name):
    """The definition that a name of a module is; nothing where it is the kit's or one of a proof."""
    parts = module.split('.')
    if parts[0] != 'Rattle' or len(parts) < 4 or parts[1] not in crates() or parts[2] != 'specs':
        return None
    crate, inner = parts[1], parts[3:]
    if inner[0] in ('declared', 'contracts'):
        parts = inner[1:inner.index('TheVariants')] if 'TheVariants' in inner else inner[1:] + [name]
        named = [part for part in parts if part in code_items(crate)]
        return code_items(crate)[named[-1]] if named else None
    specs = specs_of(crate, '.'.join(inner))
    if specs is None:
        return None
    if sign_of(name) in specs.definitions:
        return specs.definitions[sign_of(name)]
    return item_of(*specs.shown[name]) if name in specs.shown else None


def items_in(specs, words):
    """The definitions that words of a file name."""
    for word in words:
        first, _, rest = word.partition('.')
        if first in specs.definitions:
            yield specs.definitions[first]
        elif first in specs.names:
            yield item_of(*specs.names[first])
        elif rest and first in specs.modules:
            yield item_of(specs.modules[first], rest.split('.')[0])


def types_in(definition):
    """The types of the repository that a type names, the nearest below its crate."""
    for word in re.findall(r'\b[A-Z]\w+', ' '.join(definition.words)):
        for crate in [definition.crate] + crates().get(definition.crate, []):
            if crate in crates() and word in code_items(crate) and word != definition.name:
                yield code_items(crate)[word]
                break


class Code(Specs):
    """A file of src/, of which the names are those that its `ghost use` lines bring in."""

    def __init__(self, crate, path):
        self.crate, self.path, self.definitions = crate, path, {}
        self.names, self.modules, self.shown = {}, {}, {}
        self.lines = read(path).split('\n')
        for line in self.lines:
            self.take_use(re.sub(r'^\s*ghost (use .*);$', r'\1', line))


@functools.lru_cache(None)
def file_of(crate, path):
    if path.endswith('.rt'):
        return Code(crate, path)
    return specs_of(crate, os.path.relpath(path, f'crates/{crate}/specs')[:-len('.antt')].replace('/', '.'))


def named_in(definition):
    """The definitions that a definition names."""
    more = list(items_in(file_of(definition.crate, definition.file), definition.words))
    return [item for item in more + (list(types_in(definition)) if definition.file.endswith('.rt') else []) if item]


def clauses():
    """The clauses of the top call, with the bounds of its type parameters, as a definition."""
    crate, path, name = TOP
    lines = read(f'crates/{crate}/{path}').split('\n')
    start = next(at for at, line in enumerate(lines) if line.startswith(f'pub fn {name}<'))
    end = lines.index('{', start)
    return Definition(crate, f'crates/{crate}/{path}', name, start, end, tuple(WORD.findall('\n'.join(lines[start:end]))))


def reached():
    """All that is reached: each definition with the one from which it was reached first, in that order."""
    todo = [clauses()]
    found = {todo[0]: None}
    for item in todo:
        for other in named_in(item):
            if other not in found:
                found[other] = item
                todo.append(other)
    return found


def group_of(crate, file):
    key = f'{crate}/{os.path.basename(file).partition(".")[0]}'
    if {crate, key} & LANGUAGE:
        return 'contract language'
    if {crate, key} & FORMATS:
        return 'formats'
    return 'audits' if crate in AUDITS else 'meaning'


def uses_of(found):
    """Which files' definitions each file's definitions name, of those that are reached."""
    uses = collections.defaultdict(set)
    for item in found:
        uses[item.file] |= {other.file for other in named_in(item)} - {item.file}
    return uses


def in_reading_order(found):
    """The files of what is reached, each before those in whose words it is defined."""
    uses = uses_of(found)
    order, seen = [], set()

    def visit(file):
        if file in seen:
            return
        seen.add(file)
        for other in sorted(uses[file], key=first.get, reverse=True):
            visit(other)
        order.append(file)

    first = {}
    for number, item in enumerate(found):
        first.setdefault(item.file, number)
    for file in sorted(first, key=first.get, reverse=True):
        visit(file)
    return order[::-1]


def reading_list():
    """Of each group its rows in reading order: a file, the lines of what is reached in it, how many of them are comments, and the names."""
    found = reached()
    by_file = collections.defaultdict(list)
    for item in found:
        if item not in by_file[item.file]:
            by_file[item.file].append(item)
    rows = {group: [] for group in GROUPS}
    for file in in_reading_order(found):
        items = sorted(by_file[file], key=lambda item: item.start)
        text = read(file).split('\n')
        lines = {line for item in items for line in range(item.start, item.end)}
        comments = sum(text[line].lstrip().startswith(('--', '//')) for line in lines)
        rows[group_of(items[0].crate, file)].append((file, len(lines), comments, [item.name for item in items]))
    return rows


def depth_of(crate):
    """How many crates stand one on another below a crate."""
    return 1 + max((depth_of(below) for below in crates()[crate] if below in crates()), default=0)


def sums_of(rows):
    """How many lines are reached, how many of them are comments, and in how many files."""
    return sum(row[1] for row in rows), sum(row[2] for row in rows), len(rows)


def crate_rows(rows):
    """A row of a table for each crate: its files in reading order, with lines."""
    by_crate = collections.defaultdict(list)
    for file, lines, _, _ in rows:
        by_crate[file.split('/')[1]].append(f'`{os.path.splitext(os.path.basename(file))[0]}` {lines}')
    for crate in sorted(by_crate, key=depth_of, reverse=True):
        yield f'| `{crate}` | {", ".join(by_crate[crate])} |'


def block():
    """The list as docs/AUDIT.md has it."""
    listed = reading_list()
    all_specs = sums_of([row for rows in listed.values() for row in rows if row[0].endswith('.antt')])
    text = [BEGIN, f'{all_specs[0]:,} lines of definitions in {all_specs[2]} files of specs/ are reached, {all_specs[1]:,} of them comments, in four groups.', '']
    for group, rows in listed.items():
        specs, code = ([row for row in rows if row[0].endswith(ending)] for ending in ('.antt', '.rt'))
        text += ['**%s**: %s lines, %s of them comments, in %d files' % (group.capitalize(), *(f'{n:,}' if n > 999 else n for n in sums_of(specs))) +
                 ', and %d lines of types and constants, %d of them comments, in %d files of src/.' % sums_of(code), '',
                 '| Crate | Files of its specs/ in reading order, with lines |', '|---|---|', *crate_rows(specs), '']
    return '\n'.join(text + [END])


def written(text):
    """A document with the list of today in the place of the one that it has."""
    return text[:text.index(BEGIN)] + block() + text[text.index(END) + len(END):]


def kit_words():
    """How often what is reached names each word of the kit, with the module that it comes from."""
    found = collections.Counter()
    for definition in reached():
        file = file_of(definition.crate, definition.file)
        for word in definition.words:
            first, _, rest = word.partition('.')
            if first in file.definitions:
                continue
            module, name = file.names.get(first, (file.modules.get(first), rest.partition('.')[0]) if rest else (None, None))
            if module and module.startswith('Rattle.') and module.split('.')[1] not in crates() and '.specs.' in module:
                found[module, sign_of(name)] += 1
    return found


def way_to(name):
    found = reached()
    for item in found:
        if item.name == name:
            way = []
            while item:
                way.append(f'{item.name} ({item.file}:{item.start + 1})')
                item = found[item]
            print('\n  '.join(reversed(way)))


def main():
    if sys.argv[1:2] == ['--of']:
        return way_to(sys.argv[2])
    if sys.argv[1:] == ['--kit']:
        for (module, name), count in sorted(kit_words().items()):
            print(count, module, name)
        return None
    if sys.argv[1:] == ['--write']:
        text = written(read('docs/AUDIT.md'))
        with open(os.path.join(ROOT, 'docs/AUDIT.md'), 'w', encoding='utf-8') as file:
            file.write(text)
        return None
    for group, rows in reading_list().items():
        specs, code = ([row for row in rows if row[0].endswith(ending)] for ending in ('.antt', '.rt'))
        print('%s: %d lines (%d comments) of %d files of specs/, %d (%d) of %d of src/' % (group, *sums_of(specs), *sums_of(code)))
        for file, lines, comments, names in rows:
            print(f'  {file} {lines}, {comments} of them comments' + (': ' + ' '.join(names) if '--names' in sys.argv else ''))
    return None


if __name__ == '__main__':
    main()
