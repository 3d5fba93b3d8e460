#!/usr/bin/env python3
"""facts.py FOLDER: reads the pages of a folder and compares what each shows at each place with what oracle/page_facts.py works out of its script.
NAME.page.html is the page of NAME.json in examples/ or beside this file, and NAME.P3.page.html that of what P3 knows."""
import glob
import json
import os
import re
import sys
import xml.etree.ElementTree as ElementTree

HERE = os.path.dirname(os.path.abspath(__file__))
ROOT = os.path.dirname(os.path.dirname(HERE))
sys.dont_write_bytecode = True
sys.path.insert(0, os.path.join(ROOT, 'oracle'))
from page_facts import Facts  # noqa: E402

CAPACITY = 20480
REFUSALS = 'Requests that weren\'t approved'


def words(element):
    return ''.join(element.itertext()).strip()


def stands(element, place):
    """Whether an element is seen at a place: it says nothing of places, or this is one of its own."""
    return 'data-f' not in element.attrib or int(element.get('data-f')) <= place <= int(element.get('data-t'))


def tag(element):
    return element.tag.rpartition('}')[2]


def rows(section, head, place):
    """The cells of the rows that are seen at a place, of the table whose first column has this head."""
    for table in (e for e in section.iter() if tag(e) == 'table'):
        if words(next(e for e in table.iter() if tag(e) == 'th')) == head:
            for row in (e for e in table.iter() if tag(e) == 'tr' and 'data-f' in e.attrib):
                if stands(row, place):
                    yield list(row)


def seen(cell, place):
    """The words of a cell's parts that are seen at a place."""
    parts = [e for e in cell if 'data-f' in e.attrib]
    return ' '.join(words(e) for e in parts if stands(e, place)) if parts else words(cell)


def contract(cells):
    status = words(cells[1])
    return words(cells[0]), 'consumed' in status.split(';')[0], '; locked' in status, 'active' in status and 'no stakeholder' not in status


def request_place(cell):
    return int(re.match(r'place (\d+), from ', words(cell)).group(1))


def knowledge(section, place):
    """What the part of a participant shows at a place."""
    said = [words(e) for e in section.iter() if tag(e) == 'p' and 'data-f' in e.attrib and stands(e, place)]
    clean = re.match(r'Clean place (\d+), time (\d+)\.', said[0])
    requests = {request_place(cells[0]): cells for cells in rows(section, 'Request', place)}
    return {
        'one clean place': len(said) == 1,
        'clean': (int(clean.group(1)), int(clean.group(2))),
        'withheld': [int(k) for k in re.findall(r' (\d+)', said[0].partition('requests at')[2])],
        'contracts': sorted(contract(cells) for cells in rows(section, 'Contract', place)),
        'outcomes': {k: seen(cells[2], place).split(' ', 1)[1] for k, cells in requests.items()},
        'duties': {k: re.match(r'answered at place \d+|not answered|owes nothing|owes', seen(cells[3], place)).group(0) for k, cells in requests.items()},
    }


def expected(facts, name, place):
    return {
        'one clean place': True,
        'clean': facts.clean(name, place),
        'withheld': facts.withheld(name, place),
        'contracts': facts.contracts(name, place),
        'outcomes': facts.outcomes(name, place),
        'duties': facts.duties(name, place),
    }


def waiting(section, place):
    shown = {}
    for cells in rows(section, 'Request', place):
        missing = words(cells[2])
        shown[request_place(cells[0])] = int(words(cells[1])), [] if missing.startswith('nobody') else missing.split(', ')
    return shown


def decision(said):
    """What a request became, as a report says it."""
    if said.startswith('rejected by '):
        return re.sub(r'rejected by (\S+): view (\S+), (\S+)', r'rejected \1 \2 \3', said)
    return said.replace('timed out without ', 'timeout ').replace(', ', ' ')


def reason(said):
    """What shows the reason of a rejection: the number of an action, a view's path, and the action, each as far as it is told."""
    told = re.fullmatch(r'action (\d+) of view ([\d.]+)(?:: (.*))?', said, re.DOTALL)
    return (int(told.group(1)), told.group(2), told.group(3)) if told else said or None


def refusals(section, place):
    return {request_place(cells[0]): (decision(words(cells[1])), reason(words(cells[2]))) for cells in rows(section, 'Request', place)}


def script_of(name):
    """The script of a page's name."""
    paths = [os.path.join(folder, name + '.json') for folder in (os.path.join(ROOT, 'examples'), HERE)]
    with open(next(path for path in paths if os.path.exists(path)), encoding='utf-8') as file:
        return json.load(file)


def faults(path):
    """What a page shows otherwise, place by place."""
    name, _, reader = os.path.basename(path)[:-len('.page.html')].partition('.')
    facts = Facts(script_of(name), CAPACITY)
    sections = {words(next(iter(e))): e for e in ElementTree.parse(path).iter() if tag(e) == 'section' and e.get('class') == 'who'}
    tellers = [reader] if reader else [host['name'] for host in facts.hosts]
    others = {REFUSALS} | (set() if reader else {'Mediator'})
    if set(sections) != set(tellers) | others:
        yield '%s: has the parts %s' % (path, ', '.join(sections))
        return
    for place in range(len(facts.log) + 1):
        for teller in tellers:
            shown, wanted = knowledge(sections[teller], place), expected(facts, teller, place)
            for fact in wanted:
                if shown[fact] != wanted[fact]:
                    yield '%s: at place %d %s of %s: shown %s, expected %s' % (path, place, fact, teller, shown[fact], wanted[fact])
        if not reader and waiting(sections['Mediator'], place) != facts.waiting(place):
            yield '%s: at place %d: shown %s, expected %s' % (path, place, waiting(sections['Mediator'], place), facts.waiting(place))
        shown, wanted = refusals(sections[REFUSALS], place), facts.refusals(place, reader or None)
        if shown != wanted:
            yield '%s: at place %d refusals: shown %s, expected %s' % (path, place, shown, wanted)


def main():
    pages = sorted(glob.glob(os.path.join(sys.argv[1], '*.page.html')))
    found = [fault for path in pages for fault in faults(path)]
    print('\n'.join(found + ['%d pages, %d faults' % (len(pages), len(found))]))
    sys.exit(1 if found or not pages else 0)


main()
