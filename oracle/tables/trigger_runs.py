"""Whole runs of scripts with rules, with the text that is written, worked out by hand from docs/FORMATS.md and docs/PROTOCOL.md."""
import json

from tables.runs import submission

ALICE = {"name": "P1", "parties": ["Alice"]}
BOB = {"name": "P2", "parties": ["Bob"]}
GOES, WAITS = submission('go'), submission('stay')


def rule(name, participant='P1', party='Alice'):
    return {"name": name, "participant": participant, "party": party}


def script(participants, rules, *rounds):
    return json.dumps({"participants": participants, "triggers": rules, "rounds": list(rounds)}, separators=(',', ':'))


FLASHED = '''  exercise Note.Note(Alice,Alice,"go") Flash() by Alice = ()
    create Note.Note(Alice,Alice,"flash")
    consume Note.Note(Alice,Alice,"flash") Archive() by Alice = ()
'''

# the rule fires on the note, once and for all
FIRES = '''entries 6
0 1 request P1 c1 to P1
1 2 response P1 for 0 0=approve
2 3 verdict for 0 approved
3 4 request P1 r-0 to P1
4 5 response P1 for 3 0=approve
5 6 verdict for 3 approved
result 0 P1 c1 sent 0
result 0 P1 r-0 sent 3
fired 0 r Note.Note(Alice,Alice,"go") as r-0
outcome 0 approved
outcome 3 approved
participant P1 clean 6 time 6
commit 0
  create Note.Note(Alice,Alice,"go")
commit 3
%sactive 0 Note.Note(Alice,Alice,"go")
end
''' % FLASHED

# in the second of its rounds, behind the Tick of that round, since the verdict comes then
LATER = '''entries 7
0 1 request P1 c1 to P1
1 2 response P1 for 0 0=approve
2 50 tick
3 51 verdict for 0 approved
4 52 request P1 r-0 to P1
5 53 response P1 for 4 0=approve
6 54 verdict for 4 approved
result 0 P1 c1 sent 0
result 1 P1 r-0 sent 4
fired 1 r Note.Note(Alice,Alice,"go") as r-0
outcome 0 approved
outcome 4 approved
participant P1 clean 7 time 54
commit 0
  create Note.Note(Alice,Alice,"go")
commit 4
%sactive 0 Note.Note(Alice,Alice,"go")
end
''' % FLASHED

# what it asks for is refused, and it doesn't fire again
REFUSED = '''entries 3
0 1 request P1 c1 to P1 P2
1 2 response P1 for 0 0=approve
2 3 verdict for 0 approved
result 0 P1 c1 sent 0
result 0 %s refused %s
fired 0 r Note.Note(Alice,Bob,"go") as r-0
outcome 0 approved
participant P1 clean 3 time 3
commit 0
  create Note.Note(Alice,Bob,"go")
active 0 Note.Note(Alice,Bob,"go")
participant P2 clean 3 time 3
commit 0
  create Note.Note(Alice,Bob,"go")
active 0 Note.Note(Alice,Bob,"go")
end
'''

# each of two rules fires on each of two notes: in the order of the rules, and of the notes
TWO_RULES = '''entries 15
0 1 request P1 c1 to P1
1 2 response P1 for 0 0=approve 1=approve
2 3 verdict for 0 approved
3 4 request P1 b-0 to P1
4 5 request P1 b-1 to P1
5 6 request P1 a-0 to P1
6 7 request P1 a-1 to P1
7 8 response P1 for 3 0=approve
8 9 response P1 for 4 0=approve
9 10 response P1 for 5 0=approve
10 11 response P1 for 6 0=approve
11 12 verdict for 3 approved
12 13 verdict for 4 approved
13 14 verdict for 5 approved
14 15 verdict for 6 approved
result 0 P1 c1 sent 0
result 0 P1 b-0 sent 3
result 0 P1 b-1 sent 4
result 0 P1 a-0 sent 5
result 0 P1 a-1 sent 6
fired 0 b Note.Note(Alice,Alice,"go") as b-0
fired 0 b Note.Note(Alice,Alice,"go") as b-1
fired 0 a Note.Note(Alice,Alice,"go") as a-0
fired 0 a Note.Note(Alice,Alice,"go") as a-1
outcome 0 approved
outcome 3 approved
outcome 4 approved
outcome 5 approved
outcome 6 approved
participant P1 clean 15 time 15
commit 0
  create Note.Note(Alice,Alice,"go")
  create Note.Note(Alice,Alice,"go")
commit 3
%scommit 4
%scommit 5
%scommit 6
%sactive 0 Note.Note(Alice,Alice,"go")
active 0 Note.Note(Alice,Alice,"go")
end
''' % (FLASHED, FLASHED, FLASHED, FLASHED)
TWICE = dict(GOES, commands=GOES['commands'] * 2)

# a note that says something else is left alone, and a command may be named nearly as those of a rule
LEFT_ALONE = '''entries 3
0 1 request P1 r-1x to P1
1 2 response P1 for 0 0=approve
2 3 verdict for 0 approved
result 0 P1 r-1x sent 0
outcome 0 approved
participant P1 clean 3 time 3
commit 0
  create Note.Note(Alice,Alice,"stay")
active 0 Note.Note(Alice,Alice,"stay")
end
'''

FOR_BOB = {"submits": [submission('go', reader='Bob')]}

# a name, the words, the source, and the text
RUNS = [
    ('a-rule-fires', 'run', script([ALICE], [rule('r')], {"submits": [GOES]}), FIRES),
    ('a-rule-fires-with-workers', 'run,--workers,4', script([ALICE], [rule('r')], {"submits": [GOES]}), FIRES),
    ('a-rule-fires-once', 'run', script([ALICE], [rule('r')], {"submits": [GOES]}, {}, {}, {}), FIRES),
    ('a-paused-rule', 'run', script([ALICE], [rule('r')], {"submits": [GOES]}, {"paused": ["P1"]}, {}), FIRES),
    ('a-rule-fires-later', 'run', script([ALICE], [rule('r')], {"submits": [GOES], "hold_verdicts": True}, {"advance": 50}), LATER),
    ('a-rule-of-a-reader', 'run', script([ALICE, BOB], [rule('r', 'P2', 'Bob')], FOR_BOB, {}), REFUSED % ('P2 r-0', 'Unauthorised')),
    ('a-rule-for-a-stranger', 'run', script([ALICE, BOB], [rule('r', 'P1', 'Bob')], FOR_BOB, {}), REFUSED % ('P1 r-0', 'NotHosted Bob')),
    ('two-rules', 'run', script([ALICE], [rule('b'), rule('a')], {"submits": [TWICE]}, {}), TWO_RULES),
    ('a-rule-does-not-fire', 'run', script([ALICE], [rule('r')], {"submits": [dict(WAITS, command='r-1x')]}), LEFT_ALONE)]

# a note and its rule with too little room in the log: the note needs three places
FULL = FIRES[:FIRES.index('3 4')].replace('entries 6', 'entries 3') + '''result 0 P1 c1 sent 0
result 0 P1 r-0 refused LogFull 3 3
fired 0 r Note.Note(Alice,Alice,"go") as r-0
outcome 0 approved
participant P1 clean 3 time 3
commit 0
  create Note.Note(Alice,Alice,"go")
active 0 Note.Note(Alice,Alice,"go")
end
'''
RUNS.append(('a-rule-without-room', 'run,--log,5', script([ALICE], [rule('r')], {"submits": [GOES]}), FULL))

# a name, the source, and the text, which has just the room that it needs
SURE = [('a-rule-within-room', script([ALICE], [rule('r')], {"submits": [GOES]}), FIRES)]
