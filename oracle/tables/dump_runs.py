"""Dumps, changed dumps, and what an audit says of them, worked out by hand from docs/FORMATS.md and docs/PROTOCOL.md."""
import json

from tables.runs import EMPTY, HI, TRANSFER, submission
from tables.trigger_runs import ALICE, rule

USAGE = (0, 0, 2, 'canton_cli: usage', '')


def script(*submits):
    return json.dumps({"participants": [ALICE], "rounds": [{"submits": [one]} for one in submits]}, separators=(',', ':'))


# --- changes of a log

def same(log):
    return log


def with_entry(place, **changes):
    """A log with another entry at a place."""
    def changed(log):
        entry = dict(zip(('time', 'kind', 'what'), log[place]), **changes)
        return log[:place] + [(entry['time'], entry['kind'], entry['what'])] + log[place + 1:]
    return changed


def asking(place, *confirming):
    """A log whose request at a place asks other participants."""
    return lambda log: with_entry(place, what=dict(log[place][2], confirming=list(confirming)))(log)


def again(place):
    """A log whose last entry brings again what stands at a place."""
    return lambda log: with_entry(len(log) - 1, kind=log[place][1], what=log[place][2])(log)


def late(log):
    """The first request, a Tick when it was to be decided long ago, and its response."""
    return [log[0], (100_000_000, 'tick', None), (100_000_001, 'response', log[1][2])]


def without_last(log):
    return log[:-1]


# a name, the script, how its log is changed, and the line of the audit
AUDITS = [
    ('audit-of-no-entry', EMPTY, same, 'yes entries 0 approved 0'),
    ('audit-of-the-transfer', TRANSFER, same, 'yes entries 7 approved 2'),
    ('audit-of-all-but-the-verdict', TRANSFER, without_last, 'yes entries 6 approved 1'),
    ('audit-of-a-time', TRANSFER, with_entry(4, time=6), 'no 4 Time'),
    ('audit-of-a-time-that-stands-still', TRANSFER, with_entry(4, time=4, kind='tick', what=None), 'no 4 Time'),
    ('audit-of-a-request-that-asks-nobody', TRANSFER, asking(3), 'no 3 Unframed'),
    ('audit-of-a-response-that-comes-twice', TRANSFER, again(4), 'no 6 Repeated'),
    ('audit-of-a-request-that-comes-twice', TRANSFER, again(0), 'no 6 Repeated'),
    ('audit-of-a-response-to-a-verdict', TRANSFER, with_entry(4, what=(0, 2, [([0], None)])), 'no 4 NoRequest'),
    ('audit-of-a-response-of-who-is-not-asked', TRANSFER, with_entry(1, what=(1, 0, [([0], None)])), 'no 1 NoRequest'),
    ('audit-of-a-response-that-comes-late', TRANSFER, late, 'no 2 TooLate'),
    ('audit-of-another-response', TRANSFER, with_entry(1, what=(0, 0, [([0], ('Locked', 0))])), 'no 1 WrongCheck'),
    ('audit-of-a-response-without-views', TRANSFER, with_entry(1, what=(0, 0, [])), 'no 1 WrongCheck'),
    ('audit-of-a-forged-verdict', TRANSFER, with_entry(6, what=(3, ('timeout', [0]))), 'no 6 WrongDecision'),
    ('audit-of-a-verdict-too-early', TRANSFER, with_entry(1, kind='verdict', what=(0, ('approved',))), 'no 1 WrongDecision'),
]

# The log is that of a script without rules, and stands behind a script with rules and no rounds: one whose own submissions have a rule's id
# is refused.
GO, FLASH = submission('go'), {"exercise": {"template": "Note.Note", "contract": "#P1:c1:0", "choice": "Flash", "args": []}}


def flash(command):
    return {"participant": "P1", "command": command, "act_as": ["Alice"], "commands": [FLASH]}


# a name, the submissions, the rules, and the line
WITH_RULES = [
    ('audit-of-a-flash-by-a-rule', [GO, flash('r-0')], [rule('r')], 'yes entries 6 approved 2'),
    ('audit-of-a-flash-by-no-rule', [GO, flash('r-0'), flash('r1')], [rule('r')], 'yes entries 9 approved 3'),
    ('audit-of-a-second-flash-of-one-rule', [GO, flash('r-0'), flash('r-1')], [rule('r')], 'no 6 WrongTrigger'),
    ('audit-of-flashes-of-two-rules', [GO, flash('r-0'), flash('s-0')], [rule('r'), rule('s')], 'yes entries 9 approved 3'),
    ('audit-of-a-note-by-a-rule', [submission('go', 'r-0')], [rule('r')], 'no 0 WrongTrigger'),
]

# a name, what the source gives, and the line
BYTES = [
    ('audit-of-nothing', b'', 'bad 0'),
    ('audit-of-zeros', bytes(4), 'bad 4'),
    ('audit-of-a-script', HI.encode(), 'bad 4'),
]

# a name, the script of the dump, the bytes that are taken off and put behind, and the line but for the length of the dump
ENDS = [
    ('audit-of-a-dump-without-its-last-byte', HI, 1, b'', -1),
    ('audit-of-a-dump-and-a-byte', HI, 0, b'\0', 0),
]

# a name, the words, and the script whose dump is written
DUMPS = [
    ('dump-of-a-note', 'dump', HI),
    ('dump-of-the-transfer', 'dump', TRANSFER),
    ('dump-of-a-note-with-workers', 'dump,--workers,2', HI),
]

# a name, the words, what the source gives, the calls at which source and sink fail, the status, the line for it, and the text
FAILING = [
    ('audit-with-workers', 'audit,--workers,2', EMPTY, *USAGE),
    ('audit-with-room', 'audit,--log,2', EMPTY, *USAGE),
    ('audit-of-a-word', 'audit,x', EMPTY, *USAGE),
    ('dump-of-no-room', 'dump,--log,0', EMPTY, *USAGE),
    ('dump-of-a-number', 'dump,1,7', EMPTY, *USAGE),
    ('dump-of-no-script', 'dump', '{', 0, 0, 3, 'canton_cli: script NotJson', ''),
    ('dump-that-is-not-read', 'dump', EMPTY, 1, 0, 4, 'canton_cli: read fault', ''),
    ('audit-that-is-not-read', 'audit', EMPTY, 1, 0, 4, 'canton_cli: read fault', ''),
    ('audit-that-is-not-written', 'audit', EMPTY, 0, 1, 5, 'canton_cli: write fault', ''),
]
