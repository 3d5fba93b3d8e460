#!/usr/bin/env python3
"""blinded.py PAGE P3S_PAGE: looks in P3's page of the worked transfer for each value that isn't opened to P3.

P3 hosts Carol. It receives the transfer and not the request that creates Alice's Iou. Of the transfer view 0.0 is opened to it, the
Create of Carol's Iou. Blinded are view 0, the exercise of Transfer by Alice on her Iou, and who requests it. The command of a
request is told to its sender alone. Each of these values has to stand in the page of all, or the search would find nothing anywhere.
"""
import re
import sys

BLINDED = ['Alice', 'Iou.Iou(Bank,Alice,10)', 'Transfer', 'consume', 'c1', 't1', 'P4']


def has(page, value):
    return re.search(r'(?<!\w)' + re.escape(value) + r'(?!\w)', page) is not None


def main():
    pages = []
    for path in sys.argv[1:3]:
        with open(path, encoding='utf-8') as file:
            pages.append(file.read())
    faults = ['%s stands in no page of all' % value for value in BLINDED if not has(pages[0], value)]
    faults += ["%s stands in P3's page" % value for value in BLINDED if has(pages[1], value)]
    print('\n'.join(faults + ['%d values, %d faults' % (len(BLINDED), len(faults))]))
    sys.exit(1 if faults else 0)


main()
