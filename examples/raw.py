#!/usr/bin/env python3
"""Makes a script in which a sender lies: a submission's request is worked out by the rules, changed, and handed in as a raw one.

    examples/raw.py [CHANGE..] < SCRIPT > CHANGED

Takes a script, and writes it with the request of its last submission among its round's raw requests and without the submission. The request
is worked out by oracle/ over all contracts that the submissions before it create. A participant is given by its name, a view by its path,
such as 0.0, and a set as names with commas between them."""
import argparse
import json
import os
import sys

sys.path.insert(0, os.path.join(os.path.dirname(os.path.abspath(__file__)), '..', 'oracle'))

import lies

WIDTH = 103


def names(spelled):
    return sorted(set(filter(None, spelled.split(','))))


def roles(spelled):
    path, _, parties = spelled.partition('=')
    return [int(step) for step in path.split('.')], names(parties)


def options():
    parser = argparse.ArgumentParser(description=__doc__, formatter_class=argparse.RawDescriptionHelpFormatter)
    parser.add_argument('--command', metavar='COMMAND', help='the last submission of this command, in place of the last of all')
    told = parser.add_argument_group('what all trees say, with the envelopes and the confirming participants that this gives')
    told.add_argument('--sender', metavar='P', help='the sender is said to be P')
    told.add_argument('--requesters', metavar='SET', type=names, help='the requesters are said to be these')
    told.add_argument('--informees', metavar='VIEW=SET', type=roles, action='append', default=[], help='a view\'s informees are said to be these')
    told.add_argument('--confirmers', metavar='VIEW=SET', type=roles, action='append', default=[], help='its confirmers are said to be these')
    sent = parser.add_argument_group('what a participant is sent, in this order')
    sent.add_argument('--show', metavar=('P', 'FILE'), nargs=2, action='append', default=[],
                      help='what the request of the last submission of another script would send it')
    sent.add_argument('--damage', metavar='P', action='append', default=[], help='its envelope with another last byte')
    sent.add_argument('--drop', metavar='P', action='append', default=[], help='no envelope')
    return vars(parser.parse_args())


def read(path):
    with open(path) as file:
        return json.load(file)


def text(form, indent='', before=''):
    """A script as text, each list and object on one line where it has room there behind what stands before it."""
    short = json.dumps(form, ensure_ascii=False)
    if not isinstance(form, (dict, list)) or len(indent + before + short) <= WIDTH:
        return before + short
    inner = indent + '  '
    if isinstance(form, list):
        items, ends = [text(item, inner) for item in form], '[]'
    else:
        items, ends = [text(item, inner, json.dumps(key) + ': ') for key, item in form.items()], '{}'
    return before + ends[0] + '\n' + ',\n'.join(inner + item for item in items) + '\n' + indent + ends[1]


def main():
    words = options()
    words['show'] = [(name, read(path)) for name, path in words['show']]
    try:
        print(text(lies.handed_in(json.load(sys.stdin), **words)))
    except (IndexError, KeyError) as missing:
        sys.exit('raw.py: no such submission, view or envelope: %s' % missing)


if __name__ == '__main__':
    main()
