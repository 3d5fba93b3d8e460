"""Whole runs of scripts with raw requests, with the text that is written, worked out by hand from docs/PROTOCOL.md."""
import json

from tables.runs import EMPTY, NOTHING, TRANSFER, TRANSFERRED, TWO_NOTES, report, submission

ROUND = '{"participants":[{"name":"P1","parties":["Alice"]}],"rounds":%s}'
UNFRAMED = ROUND % '[{"raw":[{"participant":"P1","command":"z","confirming":[],"mediator":"","envelopes":[]}]}]'

# the worked transfer of docs/PROTOCOL.md, whose second request is a raw one: who gets it, what P1 and P2 answer, and what the mediator decides
REJECTED = '''entries 7
0 1 request P1 c1 to P1 P2
1 2 response P1 for 0 0=approve
2 3 verdict for 0 approved
3 4 request P2 t1 to %(to)s
4 5 response P1 for 3 %(bank)s
5 6 response P2 for 3 %(alice)s
6 7 verdict for 3 %(decision)s
result 0 P1 c1 sent 0
outcome 0 approved
outcome 3 %(decision)s
participant P1 clean 7 time 7
commit 0
  create Iou.Iou(Bank,Alice,10)
active 0 Iou.Iou(Bank,Alice,10)
participant P2 clean 7 time 7
commit 0
  create Iou.Iou(Bank,Alice,10)
active 0 Iou.Iou(Bank,Alice,10)
participant P3 clean 7 time 7
end
'''
NO_RESULT = TRANSFERRED.replace('result 1 P2 t1 sent 3\n', '')
BLIND_TO_CAROL = NO_RESULT[:NO_RESULT.index('participant P3')] + 'participant P3 clean 7 time 7\nwithheld 3\nend\n'


def rejected(to, bank, alice, decision):
    return REJECTED % {'to': to, 'bank': bank, 'alice': alice, 'decision': decision}


# a name, the change of oracle/lies.py to the transfer's request, and the text
LIES = [
    ('no-envelope-to-the-bank', dict(drop=['P1']), rejected(
        'P1 P2 P3', '0=ViewMissing 0.0=ViewMissing', '0=approve', 'rejected P1 0 ViewMissing')),
    ('another-last-byte', dict(damage=['P1']), rejected(
        'P1 P2 P3', '0=RootMismatch 0.0=RootMismatch', '0=approve', 'rejected P1 0 RootMismatch')),
    ('in-the-name-of-another', dict(sender='P1'), rejected(
        'P1 P2 P3', '0=WrongSender 0.0=WrongSender', '0=WrongSender', 'rejected P1 0 WrongSender')),
    ('an-informee-is-not-told', dict(informees=[([0, 0], ['Bank'])]), rejected(
        'P1 P2', '0=approve 0.0=WrongCommon', '0=approve', 'rejected P1 0.0 WrongCommon')),
    ('no-envelope-to-carol', dict(drop=['P3']), BLIND_TO_CAROL)]


# --- raw requests beside submissions: c1 and c2 are Alice's notes, which one participant confirms, so that each needs three places of the log

A, B = submission('a'), submission('b', 'c2')
TWO = ROUND % json.dumps([{"submits": [A, B]}])


def handed(raws, submissions, *rounds):
    """A script whose first round hands in some of the two requests and then makes submissions."""
    return lambda spelled: ROUND % json.dumps([{"raw": [spelled[at] for at in raws], "submits": submissions}] + [
        {"raw": [spelled[at] for at in more]} for more in rounds], separators=(',', ':'))


REFUSED = 'result 0 P1 c1 refused Duplicate 0'
AGAIN = report('a').replace('result 0 P1 c1 sent 0', '\n'.join([REFUSED, REFUSED]))
# a name, the words, the script over the two raw requests, and the text
BESIDE = [
    # what stands is refused: the same raw request without a trace, and the submission of its command as a duplicate; so is the raw request of a command
    # that was submitted
    ('raw-request-twice', 'run', handed([0, 0], [A, B], [1, 0]), TWO_NOTES.replace('c1 sent 0', 'c1 refused Duplicate 0')),
    ('raw-request-submitted-again-with-workers', 'run,--workers,4', handed([0, 0], [A, A], [0]), AGAIN),
    # the second raw request has no room, and leaves no trace; the submission is told so
    ('raw-request-into-a-full-log', 'run,--log,5', handed([0, 1], [B]), report('a').replace(
        'result 0 P1 c1 sent 0', 'result 0 P1 c2 refused LogFull 3 3'))]

# a name, the words, the script and the text
UNREAD = [('unframed-raw-request', 'run', UNFRAMED, NOTHING), ('no-raw-request', 'run', EMPTY.replace('[]}', '[{"raw":[]}]}'), NOTHING)]

# what is the same of a run however its threads work: the change, and patterns of its lines with how many lines fit each
COUNTED = [
    ('no-envelope-to-carol-with-workers', dict(drop=['P3']), [
        ('3 4 request P2 t1 to P1 P2 P3', 1), ('outcome 3 approved', 1), ('participant P3 clean 7 time 7', 1), ('withheld 3', 1), ('withheld *', 1),
        ('commit 3', 2), ('result *', 1)])]

# a name, the change and the text, over a source that never fails and a sink with room for the text
SURE = [('no-envelope-to-carol-within-room', dict(drop=['P3']), BLIND_TO_CAROL)]
