#!/usr/bin/env python3
"""hostile.py PROGRAM..: makes pages of hostile scripts with the program, `./canton --quiet page` where none is given, and looks whether each is well
formed and has nothing of theirs: names at their greatest length, texts with markup, and raw requests of bytes that are no tree. Needs xmllint of Debian's
libxml2-utils. Prints what is amiss, and the number of faults. Not a part of the gate."""
import json
import os
import re
import subprocess
import sys
import tempfile
import xml.etree.ElementTree as ElementTree

ROOT = os.path.dirname(os.path.dirname(os.path.dirname(os.path.abspath(__file__))))
# what the program writes, and nothing else may stand in a page
TAGS = set('html head meta title style body header main section nav div p b a h1 h2 h3 h4 noscript button label input table thead tbody tr th td span code details '
           'summary script svg desc defs marker path rect line circle text g'.split())
ATTRIBUTES = set('lang charset name content class id for type min max value hidden title style tabindex role scope open href data-f data-t aria-label aria-labelledby '
                 'aria-live width height viewBox x y x1 y1 x2 y2 cx cy r rx d transform refX refY markerWidth markerHeight orient marker-end'.split())
# of texts that would do something in another page
EVIL = ['<script>alert(1)</script>', '</title></svg><img src=x onerror=alert(1)>', '"\'&amp;<!--', ']]>', '\0\x01\x7f\ufffe\u2028', '</details></table>' * 14,
        '\u202e' + '\U0001f600' * 60, 'javascript:alert(1)', '<' * 256]


def note(command, text):
    fields = [{'party': 'A' + 'a' * 31}, {'party': 'B' + '-' * 31}, text]
    return {'participant': 'P' + 'x' * 31, 'command': command, 'act_as': ['A' + 'a' * 31], 'commands': [{'create': {'template': 'Note.Note', 'fields': fields}}]}


def scripts():
    hosts = [{'name': 'P' + 'x' * 31, 'parties': ['A' + 'a' * 31]}, {'name': 'Q' + '-' * 31, 'parties': ['B' + '-' * 31], 'observing': ['svg']},
             {'name': 'script', 'parties': ['svg']}]
    yield 'texts', {'participants': hosts, 'rounds': [{'submits': [note('c' + 'y' * 29 + '%02d' % at, text)]} for at, text in enumerate(EVIL)]}
    raw = {'participant': 'script', 'command': 'onload', 'confirming': ['script'], 'mediator': b'<script>'.hex(), 'envelopes': [['script', b'</table>'.hex()]]}
    yield 'raws', {'participants': hosts, 'rounds': [{'raw': [raw], 'submits': [note('c1', EVIL[0])]}]}
    with open(os.path.join(ROOT, 'examples', 'left-out.json'), encoding='utf-8') as file:
        yield 'left out', json.load(file)
    many = [{'submits': [note('c%d' % at, 'n%d' % at)]} for at in range(200)]
    yield 'long', {'participants': hosts, 'rounds': many}


def faults(page):
    with tempfile.NamedTemporaryFile(suffix='.html') as file:
        file.write(page)
        file.flush()
        for words in (['xmllint', '--noout'], ['xmllint', '--html', '--noout']):
            said = subprocess.run(words + [file.name], stderr=subprocess.PIPE, check=False).stderr.decode(errors='replace')
            # libxml2 below 2.14 knows the elements of HTML 4 alone
            yield from (line for line in said.split('\n') if 'error' in line and not re.search(r'Tag (header|main|section|nav|svg|details|summary|desc|defs|marker|'
                                                                                             r'path|rect|line|circle|text|g) invalid', line))
    try:
        elements = list(ElementTree.fromstring(page).iter())
    except ElementTree.ParseError as error:
        yield str(error)
        return
    for element in elements:
        tag = element.tag.rpartition('}')[2]
        if tag not in TAGS or not set(element.attrib) <= ATTRIBUTES:
            yield 'has %s with %s' % (tag, ', '.join(element.attrib))
        if tag == 'a' and not element.get('href').startswith('../PROTOCOL.md#'):
            yield 'leads to %s' % element.get('href')
    if len([e for e in elements if e.tag.endswith('}script')]) != 1:
        yield 'has another script'
    if len(page) > 5_000_000:
        yield 'has %d bytes' % len(page)


def main():
    program = sys.argv[1:] or [os.path.join(ROOT, 'canton'), '--quiet', 'page']
    found, count = [], 0
    for name, script in scripts():
        for words in ([], ['--for', 'script' if name != 'left out' else 'P3']):
            done = subprocess.run(program + words, input=json.dumps(script).encode(), stdout=subprocess.PIPE, check=False)
            found += ['%s %s: %s' % (name, ' '.join(words), fault) for fault in faults(done.stdout)]
            count += 1
    print('\n'.join(found + ['%d pages, %d faults' % (count, len(found))]))
    sys.exit(1 if found else 0)


main()
