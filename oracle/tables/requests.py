"""Scripts whose submissions become requests, and raw requests."""
from tables.transactions import IOU, PARTICIPANTS, asked, exercise, iou, note, script, transfer

# The sender hosts nobody who sees the note, and gets an envelope all the same.
UNSEEN = script(asked("P4", "n1", ["Alice"], note("Alice", "Carol", "hi")))

# Two roots of which each has its own views.
TWO = script(asked("P2", "n1", ["Alice"], note("Alice", "Bob", "a"), note("Alice", "Carol", "b")))

# P4 observes the debtor, P5 the new owner of the debt, whose view lies inside, and P6 confirms for Dora and observes the Bank.
OBSERVED = dict(
    script(asked("P1", "c1", ["Bank"], iou("Alice", 10)), asked("P2", "t1", ["Alice"], transfer(of='c1')),
           asked("P6", "n1", ["Dora"], note("Dora", "Carol", "hi")), asked("P6", "n2", ["Dora"], exercise("Note.Note", "#P6:n1:0", "Flash"))),
    packages=[IOU],
    participants=PARTICIPANTS[:3] + [
        {"name": "P4", "parties": [], "observing": ["Alice"]}, {"name": "P5", "parties": [], "observing": ["Carol"]},
        {"name": "P6", "parties": ["Dora"], "observing": ["Bank"]}])

NAMED = [('unseen', UNSEEN), ('two', TWO), ('observed', OBSERVED)]

# what was worked out by hand
WORKED = {
    'transfer': ['confirming P1 P2', 'sent P1', 'sent P2', 'sent P3', 'not sent P4', 'sent mediator'],
    'flash': ['confirming P2', 'not sent P1', 'sent P2', 'sent P3'],
    'unseen': ['confirming P2', 'not sent P1', 'sent P2', 'sent P3', 'sent P4', 'view 0 Alice,Carol on P2,P3', 'opened P4 P4 0 Alice'],
    'observed': [
        'confirming P1', 'confirming P1 P2', 'confirming P6', 'view 0 Alice,Bank on P1,P2,P4,P6', 'confirmed 0 Bank on P1',
        'confirmed 0 Alice,Bank on P1,P2', 'view 0.0 Bank,Carol on P1,P3,P5,P6', 'confirmed 0.0 Bank on P1', 'projection P4', 'projection P5',
        'sent P4', 'not sent P4', 'sent P5', 'not sent P5', 'sent P6', 'opened P5 P2 0 hidden', 'opens 0.0 Bank,Carol Bank', 'opened P4 P2 0 Alice'],
    'two': ['confirming P2', 'view 0 Alice,Bob on P2', 'view 1 Alice,Carol on P2,P3', 'sent P2', 'sent P3', 'opens 1 Alice,Carol Alice']}
