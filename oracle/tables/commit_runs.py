"""Whole runs of which the commitments are written, worked out by hand: for each two participants the place at which they are compared, how many
contracts each knows that both have a part in, and whether these are the same or in which bucket they differ first.
"""
import json

from tables.runs import EMPTY, TRANSFER
from tables.transactions import IOU, asked, create, note, party, transfer
from tables.worlds import C1, THREE

ALONE = [{"name": "P1", "parties": ["Anna"]}, {"name": "P2", "parties": ["Ben"]}, {"name": "P3", "parties": ["Cleo"]}]
WITH_BEA = [ALONE[0], {"name": "P2", "parties": ["Ben", "Bea"]}, ALONE[2]]


def script(participants, *rounds):
    return json.dumps({"participants": participants, "packages": [IOU], "rounds": list(rounds)}, separators=(',', ':'))


def debt(participant, command, issuer, owner, amount):
    return asked(participant, command, [issuer], create("Iou.Iou", party(issuer), party(owner), amount))


# P1 is paused when the transfer is asked for, so that this stays undecided
BEHIND = script(
    THREE, {"submits": [C1]},
    {"submits": [asked("P2", "t1", ["Alice"], transfer(of='c1')), asked("P2", "n1", ["Alice"], note("Alice", "Alice", "n"))], "paused": ["P1"]})
TWO_DEBTS = script(ALONE, {"submits": [debt("P1", "c1", "Anna", "Ben", 3), debt("P2", "c2", "Ben", "Cleo", 4)]})
# what P1 is to confirm in the second round stays undecided, and each two are compared at the lesser of their clean places
LESSER = script(
    WITH_BEA, {"submits": [debt("P1", "c1", "Anna", "Ben", 3), debt("P3", "c2", "Cleo", "Anna", 5)]},
    {"submits": [asked("P2", "t1", ["Ben"], transfer("Bea", of='c1')), debt("P3", "c3", "Cleo", "Anna", 7)], "paused": ["P1"]})


def pairs(*told):
    """The text: places, counts and what is told of P1 and P2, of P1 and P3, and of P2 and P3."""
    names = ['P1 P2', 'P1 P3', 'P2 P3']
    return ''.join('pair %s at %s\n' % pair for pair in zip(names, told)) + 'end\n'


TRANSFERRED = pairs('7 count 0 0 equal', '7 count 1 1 equal', '7 count 0 0 equal')
USAGE = (0, 0, 2, 'canton_cli: usage', '')

# A name, the words, what the source gives, the calls at which source and sink fail, the status, the line for it, and the text.
RUNS = [
    ('commitments-of-one', 'commitments', EMPTY, 0, 0, 0, None, 'end\n'),
    ('commitments-of-the-transfer', 'commitments', TRANSFER, 0, 0, 0, None, TRANSFERRED),
    ('commitments-of-the-transfer-with-workers', 'commitments,--workers,4', TRANSFER, 0, 0, 0, None, TRANSFERRED),
    ('commitments-where-all-are-clean-behind', 'commitments', BEHIND, 0, 0, 0, None,
     pairs('3 count 1 1 equal', '3 count 0 0 equal', '3 count 0 0 equal')),
    ('commitments-of-two-debts', 'commitments', TWO_DEBTS, 0, 0, 0, None, pairs('6 count 1 1 equal', '6 count 0 0 equal', '6 count 1 1 equal')),
    ('commitments-at-the-lesser-clean-place', 'commitments', LESSER, 0, 0, 0, None,
     pairs('6 count 1 1 equal', '6 count 1 1 equal', '6 count 0 0 equal'))]

# the same of the transfer, whose second request is a raw one with changes
LIES = [('commitments-that-differ', {'drop': ['P3']}, pairs('7 count 0 0 equal', '7 count 1 0 differ 23', '7 count 0 0 equal'))]

FAILING = [
    ('commitments-of-another-word', 'commitments,x', EMPTY, *USAGE),
    ('commitments-of-a-number', 'commitments,1,7', EMPTY, *USAGE),
    ('commitments-with-nine-workers', 'commitments,--workers,9', EMPTY, *USAGE),
    ('commitments-of-a-faulty-script', 'commitments', '{"rounds":[}', 0, 0, 3, 'canton_cli: script NotJson', ''),
    ('commitments-first-take-fails', 'commitments', TRANSFER, 1, 0, 4, 'canton_cli: read fault', ''),
    ('commitments-first-put-fails', 'commitments', TRANSFER, 0, 1, 5, 'canton_cli: write fault', ''),
    ('commitments-third-put-fails', 'commitments', TRANSFER, 0, 3, 5, 'canton_cli: write fault', 'pair P1 P2 at 7 count 0 0 equal\n')]

# a name, the source, and the text, which has just the room that it needs
SURE = [('commitments-within-room', TRANSFER, TRANSFERRED)]
