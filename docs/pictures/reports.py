#!/usr/bin/env python3
"""Reports on which the chart is tried: docs/pictures/reports.py FOLDER

Writes into the folder NAME.report, NAME.status with the status that is wanted, and NAME.line with the line that is wanted on
standard error. The reports are those of examples/ with one fault each, and reports that no script of examples/ gives: long ones,
and one with texts that XML has to escape.
"""
import os
import sys

ROOT = os.path.dirname(os.path.dirname(os.path.dirname(os.path.abspath(__file__))))
HASH = '#' + '0123456789abcdef' * 4


def example(name):
    with open(os.path.join(ROOT, 'examples', name + '.report'), encoding='utf-8') as file:
        return file.read()


def replaced(text, old, new):
    if text.count(old) != 1:
        sys.exit('reports.py: %r stands %d times' % (old, text.count(old)))
    return text.replace(old, new)


def number_of(text, line):
    """The number of a line that stands once."""
    return text[:text.index('\n' + line) + 1].count('\n') + 1


def broken():
    """Each report that is none, with the line that says so."""
    transfer = example('transfer')
    lines = transfer.split('\n')
    whole_line = 'the rest of the line and a line feed'
    participant = "one of the report's participants, of which there are at most 8"
    action = 'an action, at most one level below the one before'
    instance = 'a place and an instance'
    more = "a base, a withheld place, a commit, an active contract, a participant or 'end'"
    third = 'participant P3 clean 7 time 7\n'
    late = replaced(transfer, 'active 3 Iou.Iou(Bank,Carol,10)\nparticipant P4', 'withheld 3\nparticipant P4')
    first = number_of(transfer, '  create Iou.Iou(')
    yield 'nothing', '', 1, "'entries' and a number below 2^64"
    yield 'cut_in_a_line', '\n'.join(lines[:4]) + '\n' + lines[4][:9], 5, whole_line
    yield 'cut_at_a_line', '\n'.join(lines[:5]) + '\n', 6, 'an entry'
    yield 'cut_before_the_end', transfer[:-len('end\n')], len(lines) - 1, more
    yield 'cut_in_the_end', transfer[:-1], len(lines) - 1, whole_line
    yield 'foreign_word', transfer.replace('1 2 response', '1 2 reply'), 3, "'request', 'response', 'verdict' or 'tick'"
    yield 'long_number', transfer.replace('0 1 request', '0 ' + '1' * 30 + ' request'), 2, 'a time below 2^64'
    yield 'long_place', transfer.replace('for 0 0=approve', 'for ' + '9' * 30 + ' 0=approve'), 3, "'for' and the place of a request"
    yield 'leading_zero', transfer.replace('0 1 request', '0 01 request'), 2, 'a time below 2^64'
    yield 'wrong_place', transfer.replace('1 2 response', '2 2 response'), 3, "the entry's place, which is the next"
    yield 'wide_party', transfer.replace('Iou.Iou(Bank,Alice,10)', 'Iou.Iou(Bank,\uff21lice,10)', 1), first, action
    yield 'wide_participant', transfer.replace('request P1 c1', 'request \uff301 c1'), 2, participant
    yield 'unknown_participant', transfer.replace('to P1 P2 P3', 'to P1 P2 P9'), 5, participant
    yield 'unknown_reason', transfer.replace('0=approve', '0=Tired', 1), 3, "paths of views, each with '=' and a verdict"
    yield 'unknown_fault', example('lease').replace('refused Ensure', 'refused Tired'), number_of(example('lease'), 'result 0 P1 o1'), 'the name of a fault'
    yield 'deep_action', transfer.replace('\n  create', '\n    create', 1), first, action
    yield 'odd_blanks', transfer.replace('\n  create', '\n create', 1), first, action
    yield 'text_without_quote', example('one-note').replace('"hi")', '"hi)', 1), number_of(example('one-note'), '  create'), action
    yield 'bad_withheld', replaced(transfer, third, third + 'withheld x\n'), number_of(transfer, third) + 1, 'the place of a withheld request'
    late_base = replaced(transfer, third, third + 'withheld 3\npruned 3\n')
    yield 'bad_base', replaced(transfer, third, third + 'pruned x\n'), number_of(transfer, third) + 1, 'the place to which a participant is pruned'
    yield 'late_base', late_base, number_of(late_base, 'pruned 3'), more
    yield 'late_withheld', late, number_of(late, 'withheld 3'), more
    yield 'bad_active', transfer.replace('\nactive 3 ', '\nactive x ', 1), number_of(transfer, 'active 3 '), instance
    yield 'two_ends', transfer + 'end\n', len(lines), "nothing behind 'end'"
    yield 'no_utf8', transfer.replace('1 2 response', '1 2 \udcff'), 3, 'UTF-8'


def long_report(requests):
    """A log of requests of four participants in turn, each answered and approved at once."""
    names = ['P1', 'P2', 'P3', 'P4']
    lines = ['entries %d' % (3 * requests)]
    for at in range(requests):
        place, name = 3 * at, names[at % 4]
        lines.append('%d %d request %s c%d to %s' % (place, place + 1, name, at, name))
        lines.append('%d %d response %s for %d 0=approve' % (place + 1, place + 2, name, place))
        lines.append('%d %d verdict for %d approved' % (place + 2, place + 3, place))
    lines += ['result %d %s c%d sent %d' % (at, names[at % 4], at, 3 * at) for at in range(requests)]
    lines += ['outcome %d approved' % (3 * at) for at in range(requests)]
    for index, name in enumerate(names):
        own = [3 * at for at in range(index, requests, 4)]
        lines.append('participant %s clean %d time %d' % (name, 3 * requests, 3 * requests))
        for place in own:
            lines += ['commit %d' % place, '  create Note.Note(A%d,A%d,"n")' % (index, index)]
        lines += ['active %d Note.Note(A%d,A%d,"n")' % (place, index, index) for place in own]
    return '\n'.join(lines + ['end', ''])


def worded_report():
    """Each kind of value, action, fault, decision and outcome, eight participants with long names, and texts to escape."""
    names = ['Participant-%d-of-a-long-name' % at for at in range(1, 9)]
    first, last = names[0], names[-1]
    text = 'T.T(A,[],[A,B],-9223372036854775807,true,false,(),"<a href=\\x22x\\x22>&\'\\x0a\u6f22\u5b57\ufffe",%s)' % HASH
    views = '0=approve 0.0=NotConformant 0.1=RootMismatch 0.2=ViewMissing 0.3=WrongSender 0.4=WrongCommon'
    lines = ['entries 9', '0 1 request %s c1 to %s' % (first, ' '.join(names)), '1 2 response %s for 0 %s' % (first, views),
             '2 3 verdict for 0 rejected %s 0.0 NotConformant' % first, '3 4 request %s c2 to %s' % (last, last),
             '4 9999999999999999 tick', '5 10000000000000000 verdict for 3 timeout %s %s' % (first, last),
             '6 10000000000000001 request %s c3 to %s' % (last, last), '7 18446744073709551614 tick',
             '8 18446744073709551615 request %s c4 to %s' % (last, last)]
    lines += ['result 0 %s c1 sent 0' % first, 'result 0 %s c2 sent 3' % last, 'result 1 %s c3 sent 6' % last, 'result 2 %s c4 sent 8' % last]
    faults = ['Paused', 'NotHosted Bob', 'UnknownTemplate', 'UnknownChoice', 'BadArgs', 'ContractUnknown', 'Overflow', 'Assert', 'Ensure',
              'NoSignatory', 'TooLarge', 'TooDeep', 'TooMany', 'Unauthorised', 'TooBig', 'NoRoles', 'Duplicate 3', 'LogFull 9 30']
    lines += ['result 3 %s x%d refused %s' % (last, at, fault) for at, fault in enumerate(faults)]
    lines += ['outcome 0 rejected %s 0.0 NotConformant' % first, 'outcome 3 timeout %s %s' % (first, last), 'outcome 6 expired', 'outcome 8 undecided']
    for name in names:
        lines.append('participant %s clean 8 time 18446744073709551614' % name)
        lines += ['pruned 0', 'withheld 3', 'withheld 6', 'commit 0', '  create ' + text, '  consume %s Go() by A,B = ()' % text, '    exercise %s Go(1,"x") by A = [A]' % text,
                  '      fetch %s by A' % text, '  exercise T.T() Go() by A = "y"', 'active 0 ' + text]
    return '\n'.join(lines + ['end', ''])


def write(folder, name, text, status, line):
    with open(os.path.join(folder, name + '.report'), 'w', encoding='utf-8', errors='surrogateescape') as file:
        file.write(text)
    with open(os.path.join(folder, name + '.status'), 'w') as file:
        file.write('%d\n' % status)
    with open(os.path.join(folder, name + '.line'), 'w') as file:
        file.write(line)


def main():
    folder = sys.argv[1]
    os.makedirs(folder, exist_ok=True)
    for name, text, number, expected in broken():
        write(folder, name, text, 3, 'canton_chart: line %d: expected %s\n' % (number, expected))
    for name, text in (('requests_2048', long_report(2048)), ('requests_166', long_report(166)), ('worded', worded_report())):
        write(folder, name, text, 0, '')


main()
