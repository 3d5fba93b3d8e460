"""What whole runs do at their edges, and calls of sources, sinks and a log there, with what is answered, worked out by hand."""
import json

from tables.runs import FULL, HOSTS, TRANSFER, TWO_SPENDS, WATCHED
from tables.transactions import IOU, asked, exercise, iou, note, prepared


def script(*rounds):
    return json.dumps({"participants": HOSTS, "packages": [IOU], "rounds": list(rounds)}, separators=(',', ':'))


# --- what is the same of a run however its threads work: patterns of its lines, and how many lines fit each

def submitted_twice(text):
    """The script whose last round makes each submission twice, since lanes work beside no less than two."""
    form = json.loads(text)
    form['rounds'][-1]['submits'] *= 2
    return json.dumps(form, separators=(',', ':'))


COUNTS = [
    # the second spend is refused where the first was settled before, and else rejected
    ('two-spends-with-workers', 'run,--workers,4', TWO_SPENDS, [
        ('3 4 request P2 t1 to P1 P2 P3', 1), ('result 1 P2 t1 sent 3', 1), ('outcome 3 approved', 1),
        ('result 1 P2 t2 refused ContractUnknown|outcome * Locked|outcome * Inactive', 1),
        ('commit 3', 3), ('active 3 Iou.Iou(Bank,Carol,10)', 2)]),
    # who observes is told with the others, and answers nothing
    ('observing-host-with-workers', 'run,--workers,4', submitted_twice(WATCHED), [
        ('result 1 P2 t1 sent 3', 1), ('result 1 P2 t1 refused Duplicate 3', 1), ('0 1 request P1 c1 to P1 P2 P4', 1), ('3 4 request P2 t1 to P1 P2 P3 P4', 1), ('entries 7', 1), ('outcome 3 approved', 1),
        ('participant P4 clean 7 time 7', 1), ('commit 0', 3), ('commit 3', 4), ('active 3 Iou.Iou(Bank,Carol,10)', 2)])]

# --- scripts of which each beginning is tried

CUTS = [('worked-transfer', TRANSFER)]


# --- what comes to a gate: who is held there for how long, and what it noted

# P1 and P3, which confirm one view each, stand on two lanes in a round of which each submission is refused
HELD = prepared('P2', 'w1', ['Alice'], iou('Alice', 5), note('Carol', 'Carol', 'c'))
TWO_LANES = script({"paused": ["P1", "P3"], "submits": [HELD]}, {"submits": [HELD, HELD]})
# one lane checks the second request's three views for P1, and then the first request's for P3
THREE_NOTES = prepared('P2', 'w1', ['Alice'], *(note('Carol', 'Carol', text) for text in 'abc'))
ONE_LANE = script(
    {"paused": ["P1", "P3"], "submits": [THREE_NOTES, prepared('P2', 'w2', ['Alice'], *(iou('Alice', amount) for amount in (5, 6, 7)))]},
    {"submits": [THREE_NOTES, THREE_NOTES]})

GATES = [
    ('two-lanes', 'run,--workers,3', TWO_LANES, 50_000_000, '2 came, the first to 0 0, the last to 0 0, two met'),
    ('one-lane', 'run,--workers,1', ONE_LANE, 0, '6 came, the first to 1 0, the last to 0 2, none met')]


# --- natives of Flash: one with its own text is asked, one with another text isn't, and neither changes the report

FLASH = script(
    {"submits": [asked('P2', 'n1', ['Alice'], note('Alice', 'Carol', 'a'))]},
    {"submits": [asked('P2', 'n2', ['Alice'], exercise('Note.Note', '#P2:n1:0', 'Flash'))]})
FLASHED = '''entries 6
0 1 request P2 n1 to P2 P3
1 2 response P2 for 0 0=approve
2 3 verdict for 0 approved
3 4 request P2 n2 to P2 P3
4 5 response P2 for 3 0=approve 0.0=approve 0.1=approve
5 6 verdict for 3 approved
result 0 P2 n1 sent 0
result 1 P2 n2 sent 3
outcome 0 approved
outcome 3 approved
participant P1 clean 6 time 6
participant P2 clean 6 time 6
commit 0
  create Note.Note(Alice,Carol,"a")
commit 3
  exercise Note.Note(Alice,Carol,"a") Flash() by Alice = ()
    create Note.Note(Alice,Carol,"flash")
    consume Note.Note(Alice,Carol,"flash") Archive() by Alice = ()
active 0 Note.Note(Alice,Carol,"a")
participant P3 clean 6 time 6
commit 0
  create Note.Note(Alice,Carol,"a")
commit 3
  create Note.Note(Alice,Carol,"flash")
  consume Note.Note(Alice,Carol,"flash") Archive() by Alice = ()
active 0 Note.Note(Alice,Carol,"a")
end
'''

NATIVES = [('native-of-its-own-text', 'own', FLASH, FLASHED, 'asked'), ('native-of-another-text', 'another', FLASH, FLASHED, 'not asked')]


# --- calls: a line, and the lines that answer it

LETTERS = '0123456789abcdefghijklmnopqrstuvwxyz'
LONG = 'x' * 100

# Logs: a name, how many places the requests may need, the script whose requests are appended, what is changed in each of them, and what the
# log says to each. A request needs two places and one for each participant that confirms it.
ASKED_LESS, ASKED_MORE, ASKED_OTHERWISE = {"confirming": ["P1"]}, {"confirming": ["P1", "P2", "P3"]}, {"confirming": ["P2", "P1"]}
AGAIN, OTHER = {}, {"command": "t2"}
LOGS = [
    ('second-has-no-room', 4, FULL, [(0, {}), (1, {})], ['appended', 'LogFull 4 3', '1 entries']),
    ('both-have-room', 7, FULL, [(0, {}), (1, {})], ['appended', 'appended', '2 entries']),
    ('worked-transfer', 20, TRANSFER, [(0, {}), (1, {}), (1, AGAIN), (1, dict(ASKED_LESS)), (1, dict(OTHER, **ASKED_LESS))],
     ['appended', 'appended', 'Already 1', 'Already 1', 'Unframed', '2 entries']),
    ('others-are-asked', 20, TRANSFER, [(1, ASKED_LESS), (1, ASKED_MORE), (1, ASKED_OTHERWISE), (1, {"confirming": []}), (1, {"participant": "P3"})],
     ['Unframed', 'Unframed', 'Unframed', 'Unframed', 'appended', '1 entries']),
    # what isn't framed isn't counted, and room is tried behind that
    ('no-room-for-what-is-not-framed', 3, TRANSFER, [(1, ASKED_LESS), (1, {}), (0, {}), (0, {"command": "c2", "mediator": b''}), (0, {"command": "c2"})],
     ['Unframed', 'LogFull 0 4', 'appended', 'Unframed', 'LogFull 3 3', '1 entries']),
    # who observes is no confirming participant, and envelopes may be fewer, or to others
    ('observing-host-is-not-asked', 20, WATCHED, [(0, {"confirming": ["P1", "P4"]}), (0, {"envelopes": []}), (1, {"envelopes": [("P4", b'\7')]})],
     ['Unframed', 'appended', 'appended', '2 entries'])]
SOURCES = [
    ('mem-source 4 2 10,6 0123456789', ['source within 10,6', 'failed', '|456789']),
    # one byte past the limit is taken
    ('sure-source 5,4 0123456789', ['source within 5,4', 'too long', '|6789']),
    ('reader 100,100', ['source within 100,100', 'failed', '|dD'])]
SINKS = [
    ('mem-sink 16 2 ' + LETTERS, ['sink that fails at call 2', 'failed ' + LETTERS, '|' + LETTERS[:16]]),
    ('mem-sink 16 2 %s,%s' % (LETTERS, LETTERS[16:]),
     ['sink that fails at call 2', 'failed ' + LETTERS, 'taken ' + LETTERS[16:], '|' + LETTERS]),
    ('sure-sink 4 a abcd,%s' % LONG, ['sink with room 4', 'failed a', 'taken abcd', 'failed ' + LONG, '|abcd']),
    ('writer abcd,cd,cd,e', ['sink over a writer', 'failed abcd', 'failed cd', 'taken cd', 'failed e', '|abcd'])]
