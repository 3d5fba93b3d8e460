#!/usr/bin/env python3
"""The layers of the crates, as docs/ARCHITECTURE.md and docs/PROVED.md have them.

    docs/layers.py             the layers, and what is amiss with them
    docs/layers.py --write     writes them into docs/ARCHITECTURE.md, and puts what docs/PROVED.md says of each crate in their order
    docs/layers.py --of CRATE  on which crates a crate stands, and where its text names each: in code, in contracts, in proofs

Each crate stands in one layer, and on crates of its own layer and those below it alone. docs/check.py asks whether that is so, and whether both
documents are as --write leaves them. After a merge of docs/PROVED.md it is enough to have each paragraph once, anywhere, and to write again."""
import glob
import os
import re
import sys

ROOT = os.path.dirname(os.path.dirname(os.path.abspath(__file__)))
BEGIN, END = '<!-- docs/layers.py --write writes this -->', '<!-- its end -->'
# from the top down: a layer, what it is, and its crates
LAYERS = [
    ('programs', 'what can be run', 'canton_cli canton_draw layer_cases fixtures'),
    ('pictures', 'a report or a script as SVG, a run as a page', 'page_text view_picture report_chart report_read svg_text'),
    ('run', 'from words and bytes to the text and the status', 'canton_run commitment_text report_text cli_words load_gen cn_io'),
    ('threads', 'a synchroniser that threads share', 'shared_rounds client_threads shared_world sync_shared lane_pool'),
    ('synchroniser', 'a world, and the calls that move it', 'world_restart world_play'),
    ('audit', 'whether a written log is genuine', 'log_audit log_judge'),
    ('participant', 'what one participant knows, owes and answers', 'page_data node_restart node_core node_inbox node_state snapshot_store log_bounds acs_commit'),
    ('log', 'the sequencer and the mediator', 'seq_log mediator log_row log_dump'),
    ('requests', 'transactions in blinded envelopes, made and read', 'prepare_request whole_request proto_model framed_form sealed_form blind_tree'),
    ('checks', 'contracts, holds and local verdicts', 'validate_job confirm_reply inbox_registry request_track contract_store'),
    ('transactions', 'commands as trees of actions, and their tests', 'interpret authorise project consist view_split'),
    ('triggers', 'rules that submit by themselves', 'trigger_loop trigger_model'),
    ('bytes', 'spellings and hashes', 'message_bytes wire_form hash_id'),
    ('scripts', 'packages and scripts from JSON, and their rules', 'script_read note_rule trigger_rules lang_read lang_check json_walk'),
    ('language', 'what packages mean', 'native_choice lang_eval'),
    ('rules', 'definitions and laws, without code that runs',
     'run_model threads_model world_model audit_model pruned_inbox canton_model ledger_model'),
    ('terms', 'names, values, actions, topologies', 'ledger_terms'),
]


def read(path):
    with open(os.path.join(ROOT, path), encoding='utf-8') as file:
        return file.read()


def crates():
    table = {}
    for line in read('crates.txt').split('\n'):
        name, _, below = line.partition('#')[0].partition(':')
        if name.strip():
            table[name.split()[0]] = below.split()
    return table


def faults():
    """Crates that stand in no layer or in two, and those that stand on one above them."""
    table, layer = crates(), {}
    for number, (name, _, members) in enumerate(LAYERS):
        for crate in members.split():
            if crate in layer or crate not in table:
                yield 'docs/layers.py: `%s` of layer %s is in no or two places' % (crate, name)
            layer[crate] = number
    for crate, below in table.items():
        if crate not in layer:
            yield 'docs/layers.py: `%s` is in no layer' % crate
        for other in below:
            if other in layer and layer[other] < layer.get(crate, 0):
                yield 'docs/layers.py: `%s` stands on `%s`, which is in a layer above' % (crate, other)


def block():
    """The layers as a picture in plain text, the uppermost first."""
    rows = ['%-13s| %-50s| %s' % (name, what, '  '.join(members.split())) for name, what, members in LAYERS]
    return '\n'.join([BEGIN, '```', *rows, '```', END])


def written(text):
    """A document with the layers of today in the place of those that it has."""
    return text[:text.index(BEGIN)] + block() + text[text.index(END) + len(END):]


# --- what is proved, in the order of the layers

def paragraphs(text):
    """What stands in docs/PROVED.md before the first crate, and then what it says of each, by the crate that is named first."""
    parts = re.split(r'(?m)^(?=\*\*`)', re.sub(r'(?m)^## .*\n+', '', text))
    return parts[0].strip(), {re.match(r'\*\*`(\w+)`', part)[1]: part.strip() for part in parts[1:]}


def in_order(text):
    """docs/PROVED.md with its paragraphs in the order of the layers from the terms up, each layer with a heading."""
    head, by_crate = paragraphs(text)
    pieces = [head]
    for name, what, members in reversed(LAYERS):
        found = [by_crate.pop(crate) for crate in reversed(members.split()) if crate in by_crate]
        if found:
            pieces += [f'## {name.capitalize()}: {what}', *found]
    return '\n\n'.join(pieces + list(by_crate.values())) + '\n'


def proved_faults(text):
    """Crates of which docs/PROVED.md says nothing, or more than once."""
    named = re.findall(r'\*\*`(\w+)`\*\*', text)
    for crate in crates():
        if named.count(crate) != 1:
            yield 'docs/PROVED.md: `%s` has %d paragraphs' % (crate, named.count(crate))


# --- what a crate uses of those below it

def uses(crate):
    """Of each crate on which one stands the parts of its text that name it: code, contracts (those of code, and definitions), proofs."""
    texts = {'code': '', 'contracts': '', 'proofs': ''}
    for path in sorted(glob.glob(os.path.join(ROOT, 'crates', crate, '*', '**', '*'), recursive=True)):
        part = os.path.relpath(path, os.path.join(ROOT, 'crates', crate)).split(os.sep)[0]
        if part == 'src' and path.endswith('.rt'):
            lines = read(path).split('\n')
            texts['code'] += '\n'.join(line for line in lines if not line.lstrip().startswith(('ghost ', '//')))
            texts['contracts'] += '\n'.join(line for line in lines if line.lstrip().startswith('ghost '))
        elif part in ('specs', 'proofs') and path.endswith('.antt'):
            texts['contracts' if part == 'specs' else 'proofs'] += read(path)
    for below in crates()[crate]:
        yield below, [part for part, text in texts.items() if re.search(r'\b%s\b' % below if part == 'code' else r'\bRattle\.%s\.' % below, text)]


def main():
    if sys.argv[1:2] == ['--of'] and sys.argv[2:]:
        for below, parts in uses(sys.argv[2]):
            print('%-16s %s' % (below, ', '.join(parts) or 'named nowhere'))
        return
    if sys.argv[1:] == ['--write']:
        for path, change in (('docs/ARCHITECTURE.md', written), ('docs/PROVED.md', in_order)):
            text = change(read(path))
            with open(os.path.join(ROOT, path), 'w', encoding='utf-8') as file:
                file.write(text)
    else:
        print(block())
    print('\n'.join([*faults(), *proved_faults(read('docs/PROVED.md'))]))


if __name__ == '__main__':
    main()
