"""Whole runs: words and a source, with the status, the line and the text that was written, worked out by hand from docs/FORMATS.md."""
import json

from tables import script_faults
from tables.transactions import IOU, PARTICIPANTS, asked, create, does, exercise, iou, known, note, party, prepared, transfer

NOTE = '{"participants":[{"name":"P1","parties":["Alice"]}],"rounds":[%s]}'
EMPTY = '{"participants":[{"name":"P1","parties":["Alice"]}],"rounds":[]}'
HOSTS = PARTICIPANTS[:3]
MOST_PIECE = 16


def submission(text, command='c1', reader='Alice', template='Note.Note'):
    fields = [{"party": "Alice"}, {"party": reader}, text]
    return {"participant": "P1", "command": command, "act_as": ["Alice"], "commands": [{"create": {"template": template, "fields": fields}}]}


def script(*submissions):
    return NOTE % json.dumps({"submits": list(submissions)}, separators=(',', ':'), ensure_ascii=False)


def report(text, command='c1'):
    """The report of one note from Alice to herself, whose text is printed so."""
    return '''entries 3
0 1 request P1 %s to P1
1 2 response P1 for 0 0=approve
2 3 verdict for 0 approved
result 0 P1 %s sent 0
outcome 0 approved
participant P1 clean 3 time 3
commit 0
  create Note.Note(Alice,Alice,"%s")
active 0 Note.Note(Alice,Alice,"%s")
end
''' % (command, command, text, text)


NOTHING = 'entries 0\nparticipant P1 clean 0 time 0\nend\n'
HI = script(submission('hi'))
USAGE = 'canton_cli: usage'

TWO_NOTES = '''entries 6
0 1 request P1 c1 to P1
1 2 request P1 c2 to P1
2 3 response P1 for 0 0=approve
3 4 response P1 for 1 0=approve
4 5 verdict for 0 approved
5 6 verdict for 1 approved
result 0 P1 c1 sent 0
result 0 P1 c2 sent 1
outcome 0 approved
outcome 1 approved
participant P1 clean 6 time 6
commit 0
  create Note.Note(Alice,Alice,"a")
commit 1
  create Note.Note(Alice,Alice,"b")
active 0 Note.Note(Alice,Alice,"a")
active 1 Note.Note(Alice,Alice,"b")
end
'''

# the worked transfer of docs/PROTOCOL.md: a debt of Bank to Alice in a round, and its transfer to Carol in the next
TRANSFER = json.dumps(
    {"participants": HOSTS, "packages": [IOU], "rounds": [
        {"submits": [asked('P1', 'c1', ['Bank'], iou('Alice', 10))]},
        {"submits": [asked('P2', 't1', ['Alice'], transfer(of='c1'))]}]},
    separators=(',', ':'))
TRANSFERRED = '''entries 7
0 1 request P1 c1 to P1 P2
1 2 response P1 for 0 0=approve
2 3 verdict for 0 approved
3 4 request P2 t1 to P1 P2 P3
4 5 response P1 for 3 0=approve 0.0=approve
5 6 response P2 for 3 0=approve
6 7 verdict for 3 approved
result 0 P1 c1 sent 0
result 1 P2 t1 sent 3
outcome 0 approved
outcome 3 approved
participant P1 clean 7 time 7
commit 0
  create Iou.Iou(Bank,Alice,10)
commit 3
  consume Iou.Iou(Bank,Alice,10) Transfer(Carol) by Alice = ()
    create Iou.Iou(Bank,Carol,10)
active 3 Iou.Iou(Bank,Carol,10)
participant P2 clean 7 time 7
commit 0
  create Iou.Iou(Bank,Alice,10)
commit 3
  consume Iou.Iou(Bank,Alice,10) Transfer(Carol) by Alice = ()
    create Iou.Iou(Bank,Carol,10)
participant P3 clean 7 time 7
commit 3
  create Iou.Iou(Bank,Carol,10)
active 3 Iou.Iou(Bank,Carol,10)
end
'''

# the same transfer, where a fourth participant observes Alice: it is a recipient and keeps her part, and nobody asks it
WATCHING = HOSTS + [{"name": "P4", "parties": [], "observing": ["Alice"]}]
WATCHED = json.dumps(dict(json.loads(TRANSFER), participants=WATCHING), separators=(',', ':'))
SEEN_BY_FOUR = TRANSFERRED.replace('c1 to P1 P2\n', 'c1 to P1 P2 P4\n').replace('t1 to P1 P2 P3\n', 't1 to P1 P2 P3 P4\n').replace(
    'end\n', '''participant P4 clean 7 time 7
commit 0
  create Iou.Iou(Bank,Alice,10)
commit 3
  consume Iou.Iou(Bank,Alice,10) Transfer(Carol) by Alice = ()
    create Iou.Iou(Bank,Carol,10)
end
''')

# who observes a party doesn't submit for it, and who observes just the new owner sees the inner view alone
SUBMITTED_FOR = json.dumps(
    {"participants": HOSTS + [{"name": "P4", "parties": ["Dora"], "observing": ["Alice", "Carol"]}], "packages": [IOU], "rounds": [{"submits": [
        asked('P4', 'n1', ['Alice'], note('Alice', 'Alice', 'a')), asked('P4', 'n2', ['Dora', 'Carol'], note('Carol', 'Dora', 'b')),
        asked('P4', 'n3', ['Dora'], note('Dora', 'Carol', 'c'))]}]},
    separators=(',', ':'))
HAS_SUBMITTED = '''entries 3
0 1 request P4 n3 to P3 P4
1 2 response P4 for 0 0=approve
2 3 verdict for 0 approved
result 0 P4 n1 refused NotHosted Alice
result 0 P4 n2 refused NotHosted Carol
result 0 P4 n3 sent 0
outcome 0 approved
participant P1 clean 3 time 3
participant P2 clean 3 time 3
participant P3 clean 3 time 3
commit 0
  create Note.Note(Dora,Carol,"c")
active 0 Note.Note(Dora,Carol,"c")
participant P4 clean 3 time 3
commit 0
  create Note.Note(Dora,Carol,"c")
active 0 Note.Note(Dora,Carol,"c")
end
'''
INNER = json.dumps(
    dict(json.loads(TRANSFER), participants=HOSTS + [{"name": "P4", "parties": [], "observing": ["Carol"]}]), separators=(',', ':'))
SEEN_INSIDE = TRANSFERRED.replace('t1 to P1 P2 P3\n', 't1 to P1 P2 P3 P4\n').replace(
    'end\n', '''participant P4 clean 7 time 7
commit 3
  create Iou.Iou(Bank,Carol,10)
active 3 Iou.Iou(Bank,Carol,10)
end
''')

# Dora controls a choice on a debt that P4 only observes. P4 is asked for her, and by what it observes it knows that the debt is spent.
POKE = {"name": "Poke", "templates": [{
    "name": "Debt", "fields": [{"name": "owner", "type": "Party"}, {"name": "helper", "type": "Party"}],
    "signatories": ["set", ["var", "this.owner"]],
    "choices": [{"name": "Look", "consuming": False, "controllers": ["set", ["var", "this.helper"]]},
                {"name": "End", "consuming": True, "controllers": ["set", ["var", "this.owner"]]}]}]}
DEBT = known('#P2:d1:0')
POKED = json.dumps(
    {"participants": HOSTS[:2] + [{"name": "P4", "parties": ["Dora"], "observing": ["Alice"]}], "packages": [POKE], "rounds": [
        {"submits": [asked('P2', 'd1', ['Alice'], create('Poke.Debt', party('Alice'), party('Dora')))]},
        {"submits": [
            asked('P2', 'e1', ['Alice'], exercise('Poke.Debt', '#P2:d1:0', 'End')),
            prepared('P4', 'l1', ['Dora'], does(DEBT, 'Look', ['Dora'], consuming=False))]}]},
    separators=(',', ':'))
IS_POKED = '''entries 10
0 1 request P2 d1 to P2 P4
1 2 response P2 for 0 0=approve
2 3 verdict for 0 approved
3 4 request P2 e1 to P2 P4
4 5 request P4 l1 to P2 P4
5 6 response P2 for 3 0=approve
6 7 response P2 for 4 0=Locked
7 8 response P4 for 4 0=Locked
8 9 verdict for 3 approved
9 10 verdict for 4 rejected P2 0 Locked
result 0 P2 d1 sent 0
result 1 P2 e1 sent 3
result 1 P4 l1 sent 4
outcome 0 approved
outcome 3 approved
outcome 4 rejected P2 0 Locked
participant P1 clean 10 time 10
participant P2 clean 10 time 10
commit 0
  create Poke.Debt(Alice,Dora)
commit 3
  consume Poke.Debt(Alice,Dora) End() by Alice = ()
participant P4 clean 10 time 10
commit 0
  create Poke.Debt(Alice,Dora)
commit 3
  consume Poke.Debt(Alice,Dora) End() by Alice = ()
end
'''

# three notes in one round, of which each needs three places of the log
THREE_NOTES = script(*(submission('a', 'n%d' % at) for at in range(3)))
TWO_OF_THREE = '''entries 6
0 1 request P1 n0 to P1
1 2 request P1 n1 to P1
2 3 response P1 for 0 0=approve
3 4 response P1 for 1 0=approve
4 5 verdict for 0 approved
5 6 verdict for 1 approved
result 0 P1 n0 sent 0
result 0 P1 n1 sent 1
result 0 P1 n2 refused LogFull 6 3
outcome 0 approved
outcome 1 approved
participant P1 clean 6 time 6
commit 0
  create Note.Note(Alice,Alice,"a")
commit 1
  create Note.Note(Alice,Alice,"a")
active 0 Note.Note(Alice,Alice,"a")
active 1 Note.Note(Alice,Alice,"a")
end
'''
NONE_OF_THREE = '''entries 0
result 0 P1 n0 refused LogFull 0 3
result 0 P1 n1 refused LogFull 0 3
result 0 P1 n2 refused LogFull 0 3
participant P1 clean 0 time 0
end
'''

# the same debt, which Alice transfers to Carol twice in the second round
TWO_SPENDS = json.dumps(
    {"participants": HOSTS, "packages": [IOU], "rounds": [
        {"submits": [asked('P1', 'c1', ['Bank'], iou('Alice', 10))]},
        {"submits": [asked('P2', 't1', ['Alice'], transfer(of='c1')), asked('P2', 't2', ['Alice'], transfer(of='c1'))]}]},
    separators=(',', ':'))
SPENT_ONCE = '''entries 11
0 1 request P1 c1 to P1 P2
1 2 response P1 for 0 0=approve
2 3 verdict for 0 approved
3 4 request P2 t1 to P1 P2 P3
4 5 request P2 t2 to P1 P2 P3
5 6 response P1 for 3 0=approve 0.0=approve
6 7 response P1 for 4 0=Locked 0.0=approve
7 8 response P2 for 3 0=approve
8 9 response P2 for 4 0=Locked
9 10 verdict for 3 approved
10 11 verdict for 4 rejected P1 0 Locked
result 0 P1 c1 sent 0
result 1 P2 t1 sent 3
result 1 P2 t2 sent 4
outcome 0 approved
outcome 3 approved
outcome 4 rejected P1 0 Locked
participant P1 clean 11 time 11
commit 0
  create Iou.Iou(Bank,Alice,10)
commit 3
  consume Iou.Iou(Bank,Alice,10) Transfer(Carol) by Alice = ()
    create Iou.Iou(Bank,Carol,10)
active 3 Iou.Iou(Bank,Carol,10)
participant P2 clean 11 time 11
commit 0
  create Iou.Iou(Bank,Alice,10)
commit 3
  consume Iou.Iou(Bank,Alice,10) Transfer(Carol) by Alice = ()
    create Iou.Iou(Bank,Carol,10)
participant P3 clean 11 time 11
commit 3
  create Iou.Iou(Bank,Carol,10)
active 3 Iou.Iou(Bank,Carol,10)
end
'''

# two requests over a log of four places, of which the first needs all
FULL = json.dumps(
    {"participants": HOSTS, "packages": [IOU], "rounds": [{"submits": [
        prepared('P2', 'm1', ['Alice'], note('Alice', 'Alice', 'a'), iou('Alice', 5)),
        asked('P2', 'm2', ['Alice'], note('Alice', 'Alice', 'b'))]}]},
    separators=(',', ':'))
IS_FULL = '''entries 4
0 1 request P2 m1 to P1 P2
1 2 response P1 for 0 1=NotAuthorised
2 3 response P2 for 0 0=approve
3 4 verdict for 0 rejected P1 1 NotAuthorised
result 0 P2 m1 sent 0
result 0 P2 m2 refused LogFull 4 3
outcome 0 rejected P1 1 NotAuthorised
participant P1 clean 4 time 4
participant P2 clean 4 time 4
participant P3 clean 4 time 4
end
'''

# one generated debt and its transfer; the first amount of the seed 7 is 211
ONE_DEBT = '''requests 2
approved 2
rejected 0
timeout 0
expired 0
undecided 0
refused 0
active G1 1 amount 211
active G2 0 amount 0
active G3 1 amount 211
active G4 0 amount 0
end
'''

# the same of sixty-four debts
MANY_DEBTS = '''requests 128
approved 128
rejected 0
timeout 0
expired 0
undecided 0
refused 0
active G1 32 amount 13544
active G2 32 amount 16512
active G3 32 amount 13544
active G4 32 amount 16512
end
'''

# a participant that must answer is paused until the request's time is over
TIMEOUT = json.dumps(
    {"participants": HOSTS, "packages": [IOU], "rounds": [
        {"submits": [asked('P1', 'c1', ['Bank'], iou('Alice', 10))]},
        {"paused": ["P1"], "submits": [asked('P2', 't1', ['Alice'], transfer(of='c1'))]},
        {"paused": ["P1"], "advance": 30000005}]},
    separators=(',', ':'))
TIMED_OUT = '''entries 7
0 1 request P1 c1 to P1 P2
1 2 response P1 for 0 0=approve
2 3 verdict for 0 approved
3 4 request P2 t1 to P1 P2 P3
4 5 response P2 for 3 0=approve
5 30000005 tick
6 30000006 verdict for 3 timeout P1
result 0 P1 c1 sent 0
result 1 P2 t1 sent 3
outcome 0 approved
outcome 3 timeout P1
participant P1 clean 7 time 30000006
commit 0
  create Iou.Iou(Bank,Alice,10)
active 0 Iou.Iou(Bank,Alice,10)
participant P2 clean 7 time 30000006
commit 0
  create Iou.Iou(Bank,Alice,10)
active 0 Iou.Iou(Bank,Alice,10)
participant P3 clean 7 time 30000006
end
'''

# the same where its second round has two submissions, since lanes work beside no fewer
ASKED_TWICE = asked('P2', 't1', ['Alice'], transfer(of='c1'))
TIMEOUT_OF_TWO = json.dumps(
    {"participants": HOSTS, "packages": [IOU], "rounds": [
        {"submits": [asked('P1', 'c1', ['Bank'], iou('Alice', 10))]},
        {"paused": ["P1"], "submits": [ASKED_TWICE, ASKED_TWICE]},
        {"paused": ["P1"], "advance": 30000005}]},
    separators=(',', ':'))
TIMED_OUT_OF_TWO = TIMED_OUT.replace('t1 sent 3\n', 't1 sent 3\nresult 1 P2 t1 refused Duplicate 3\n')

# a round that holds its verdicts, and time that runs past the decision time
HELD = NOTE % (json.dumps({"hold_verdicts": True, "submits": [submission('hi'), submission('hi')]}, separators=(',', ':')) + ',{"advance":60000001}')
UNDECIDED = '''entries 3
0 1 request P1 c1 to P1
1 2 response P1 for 0 0=approve
2 60000001 tick
result 0 P1 c1 sent 0
result 0 P1 c1 refused Duplicate 0
outcome 0 undecided
participant P1 clean 0 time 0
end
'''

# two participants submit in turn, and are served by one thread in the order of the script
IN_TURN = json.dumps(
    {"participants": [{"name": "P1", "parties": ["Bank"]}, {"name": "P2", "parties": ["Alice"]}], "rounds": [{"submits": [
        asked('P2', 'b1', ['Alice'], note('Alice', 'Alice', 'hi')), asked('P1', 'a1', ['Bank'], note('Bank', 'Bank', 'hi')),
        asked('P2', 'b2', ['Alice'], note('Alice', 'Alice', 'hi')), asked('P1', 'a2', ['Bank'], note('Bank', 'Bank', 'hi'))]}]},
    separators=(',', ':'))
SERVED_IN_ORDER = '''entries 12
0 1 request P2 b1 to P2
1 2 request P1 a1 to P1
2 3 request P2 b2 to P2
3 4 request P1 a2 to P1
4 5 response P1 for 1 0=approve
5 6 response P1 for 3 0=approve
6 7 response P2 for 0 0=approve
7 8 response P2 for 2 0=approve
8 9 verdict for 0 approved
9 10 verdict for 1 approved
10 11 verdict for 2 approved
11 12 verdict for 3 approved
result 0 P2 b1 sent 0
result 0 P1 a1 sent 1
result 0 P2 b2 sent 2
result 0 P1 a2 sent 3
outcome 0 approved
outcome 1 approved
outcome 2 approved
outcome 3 approved
participant P1 clean 12 time 12
commit 1
  create Note.Note(Bank,Bank,"hi")
commit 3
  create Note.Note(Bank,Bank,"hi")
active 1 Note.Note(Bank,Bank,"hi")
active 3 Note.Note(Bank,Bank,"hi")
participant P2 clean 12 time 12
commit 0
  create Note.Note(Alice,Alice,"hi")
commit 2
  create Note.Note(Alice,Alice,"hi")
active 0 Note.Note(Alice,Alice,"hi")
active 2 Note.Note(Alice,Alice,"hi")
end
'''

# a name, the words, the source, the calls at which taking and putting fail, and then the status, the line and the text
RUNS = [
    ('empty', 'run', EMPTY, 0, 0, 0, None, NOTHING),
    ('empty-round', 'run', NOTE % '{}', 0, 0, 0, None, NOTHING),
    ('note', 'run', HI, 0, 0, 0, None, report('hi')),
    ('escaped', 'run', script(submission('a"\\\t')), 0, 0, 0, None, report('a\\x22\\x5c\\x09')),
    ('accented', 'run', script(submission('h\u00e9', 'c-2')), 0, 0, 0, None, report('h\u00e9', 'c-2')),
    ('long', 'run', script(submission('x' * 256)), 0, 0, 0, None, report('x' * 256)),
    ('too-long-text', 'run', script(submission('x' * 257)), 0, 0, 3,
     'canton_cli: script Limit /rounds/0/submits/0/commands/0/create/fields/2', ''),
    ('two-notes', 'run', script(submission('a'), submission('b', 'c2')), 0, 0, 0, None, TWO_NOTES),
    ('another-template', 'run', script(submission('a', template='Note.Other')), 0, 0, 0, None,
     'entries 0\nresult 0 P1 c1 refused UnknownTemplate\nparticipant P1 clean 0 time 0\nend\n'),
    ('two-participants', 'run', '{"participants":[{"name":"P1","parties":[]},{"name":"P2","parties":["A","B"]}],"skew":100000,"rounds":[]}',
     0, 0, 0, None, 'entries 0\nparticipant P1 clean 0 time 0\nparticipant P2 clean 0 time 0\nend\n'),
    ('transfer', 'run', TRANSFER, 0, 0, 0, None, TRANSFERRED),
    ('another-word', 'help', HI, 0, 0, 2, USAGE, ''),
    ('two-words', 'run,run', HI, 0, 0, 2, USAGE, ''),
    ('empty-word', '', HI, 0, 0, 2, USAGE, ''),
    ('longer-word', 'runs', HI, 0, 0, 2, USAGE, ''),
    ('two-workers', 'run,--workers=2', EMPTY, 0, 0, 0, None, NOTHING),
    ('nine-workers', 'run,--workers,9', EMPTY, 0, 0, 2, USAGE, ''),
    ('log-of-no-place', 'run,--log,0', EMPTY, 0, 0, 2, USAGE, ''),
    ('log-given-twice', 'run,--log,5,--log,5', EMPTY, 0, 0, 2, USAGE, ''),
    ('log-of-four-places', 'run,--log,4', FULL, 0, 0, 0, None, IS_FULL),
    ('log-of-two-places', 'run,--log,2', HI, 0, 0, 0, None,
     'entries 0\nresult 0 P1 c1 refused LogFull 0 3\nparticipant P1 clean 0 time 0\nend\n'),
    ('log-of-six-places', 'run,--log,6', THREE_NOTES, 0, 0, 0, None, TWO_OF_THREE),
    ('log-of-no-room', 'run,--log,2', THREE_NOTES, 0, 0, 0, None, NONE_OF_THREE),
    ('observing-host', 'run', WATCHED, 0, 0, 0, None, SEEN_BY_FOUR),
    ('observing-host-of-the-new-owner', 'run', INNER, 0, 0, 0, None, SEEN_INSIDE),
    ('requesters-only-observed', 'run', SUBMITTED_FOR, 0, 0, 0, None, HAS_SUBMITTED),
    ('locked-where-observed', 'run', POKED, 0, 0, 0, None, IS_POKED),
    ('one-debt', 'gen,1,7', '', 0, 0, 0, None, ONE_DEBT),
    # nothing is taken from the source
    ('one-debt-from-no-source', 'gen,--workers,1,1,7', HI, 1, 0, 0, None, ONE_DEBT),
    ('one-debt-half-written', 'gen,1,7', '', 0, 3, 5, 'canton_cli: write fault', ONE_DEBT[:2 * MOST_PIECE]),
    ('count-without-seed', 'gen,1', '', 0, 0, 2, USAGE, ''),
    ('log-of-a-generated-script', 'gen,1,7,--log,5', '', 0, 0, 2, USAGE, ''),
    ('first-take-fails', 'run', HI, 1, 0, 4, 'canton_cli: read fault', ''),
    ('third-take-fails', 'run', HI, 3, 0, 4, 'canton_cli: read fault', ''),
    ('first-put-fails', 'run', HI, 0, 1, 5, 'canton_cli: write fault', ''),
    ('second-put-fails', 'run', HI, 0, 2, 5, 'canton_cli: write fault', report('hi')[:MOST_PIECE]),
    ('fourth-put-fails', 'run', HI, 0, 4, 5, 'canton_cli: write fault', report('hi')[:3 * MOST_PIECE]),
    ('first-put-of-three-fails', 'run', EMPTY, 0, 1, 5, 'canton_cli: write fault', ''),
    ('second-put-of-three-fails', 'run', EMPTY, 0, 2, 5, 'canton_cli: write fault', NOTHING[:16]),
    ('last-put-of-three-fails', 'run', EMPTY, 0, 3, 5, 'canton_cli: write fault', NOTHING[:32]),
    ('put-after-the-last-would-fail', 'run', EMPTY, 0, 4, 0, None, NOTHING),
    ('put-of-a-fault', 'run', '{', 0, 1, 3, 'canton_cli: script NotJson', ''),
    ('nothing', 'run', '', 0, 0, 3, 'canton_cli: script NotJson', ''),
    ('served-in-order', 'run', IN_TURN, 0, 0, 0, None, SERVED_IN_ORDER),
    # what these write is the same in whatever order threads work: the first two have one client a round, and a summary tells no places
    ('timeout-with-workers', 'run,--workers,4', TIMEOUT_OF_TWO, 0, 0, 0, None, TIMED_OUT_OF_TWO),
    ('held-verdicts-with-workers', 'run,--workers,4', HELD, 0, 0, 0, None, UNDECIDED),
    ('one-debt-with-workers', 'gen,1,7,--workers,4', '', 0, 0, 0, None, ONE_DEBT),
    ('many-debts-with-workers', 'gen,64,7,--workers,4', '', 0, 0, 0, None, MANY_DEBTS)]

# a name, the source and the text, over a source that never fails and a sink with room for the text
SURE_RUNS = [
    ('empty-within-room', EMPTY, NOTHING),
    ('transfer-within-room', TRANSFER, TRANSFERRED),
    ('two-spends-within-room', TWO_SPENDS, SPENT_ONCE)]

# a name, the source and the line, over a source that never fails and a sink without room
RUNS_WITHOUT_ROOM = [('empty-without-room', EMPTY, 'canton_cli: write fault')]


def line_of(fault):
    """The line for the first fault of a script, without the numbers of a limit and the name that is unknown."""
    words, _, place = fault.rpartition(' ')
    word = words.split(' ')[0]
    if word == 'Package':
        return 'canton_cli: script %s %s' % (words, place)
    return 'canton_cli: script NotJson' if word == 'NotJson' else 'canton_cli: script %s %s' % (word, place)


def cases():
    yield from RUNS
    for at, (text, fault) in enumerate(script_faults.cases()):
        if fault is not None and len(text) < 400:
            yield 'fault-%d' % at, 'run', text, 0, 0, 3, line_of(fault), ''
