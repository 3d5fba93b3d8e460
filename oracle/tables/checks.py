"""Cases of a participant's own checks and stores.

A fact is the number of a contract among those that a script's transactions create, its status, and whether a request holds it.
"""
from tables.transactions import FLASH, IOU, OTHER, TRANSFER, asked, create, does, exercise, fetch, forged, iou, known, party, prepared, script

P1, P2, P3, P4 = range(4)
FREE, HELD = False, True

# --- views

# contracts 0 and 1 of the scripts that begin with these
DEBTS = [asked("P2", "k7", ["Alice"], create("K.Debt", party("Alice"), 7)), asked("P2", "k9", ["Alice"], create("K.Debt", party("Alice"), 9))]
K7, K9 = known("#P2:k7:0"), known("#P2:k9:0")
BOTH = [(0, 'active', FREE), (1, 'active', FREE)]


def look(*children):
    """The choice Look of contract 0, whose body fetches that contract, with other children."""
    return script(*DEBTS, prepared("P2", "look", ["Alice"], does(K7, "Look", ["Alice"], *children, consuming=False, result=8)))


# Ask looks, which fetches, and creates a note: actions 0 to 3 of one view; the note is contract 2.
ASK = script(*DEBTS, asked("P2", "ask", ["Alice"], exercise("K.Debt", "#P2:k7:0", "Ask", party("Carol"))))
OTHER_FETCHED = look(fetch(K9, ["Alice"]))


def vetting(script, at, packages):
    """The script where one participant has vetted these packages alone."""
    hosts = [dict(host, vetted=packages) if k == at else host for k, host in enumerate(script['participants'])]
    return dict(script, participants=hosts)


def watched(script):
    """The script where P4 observes Alice."""
    hosts = [dict(host, observing=["Alice"]) if k == P4 else host for k, host in enumerate(script['participants'])]
    return dict(script, participants=hosts)


def timed(time):
    """A look as the body has it, at a ledger time."""
    submission = prepared("P2", "look", ["Alice"], does(K7, "Look", ["Alice"], fetch(K7, ["Alice"]), consuming=False, result=8))
    return script(*DEBTS, dict(submission, ledger_time=time))


# Give creates a debt of somebody who has no part in it, and Outer gives.
GIFT = {"name": "Gift", "templates": [{
    "name": "Gift",
    "fields": [{"name": "owner", "type": "Party"}, {"name": "debtor", "type": "Party"}],
    "signatories": ["set", ["var", "this.owner"]],
    "choices": [
        {"name": "Give", "consuming": False, "controllers": ["set", ["var", "this.owner"]],
         "body": [{"create": {"bind": "x", "template": "Iou.Iou", "fields": [["var", "this.debtor"], ["var", "this.owner"], 5]}}]},
        {"name": "Outer", "consuming": False, "controllers": ["set", ["var", "this.owner"]],
         "body": [{"exercise": {"bind": "y", "template": "Gift.Gift", "contract": ["var", "self"], "choice": "Give", "args": []}}]}]}]}
THE_GIFT = known("#P2:g:0")
GIVEN = dict(script(
    asked("P2", "g", ["Alice"], create("Gift.Gift", party("Alice"), party("Bank"))),
    prepared("P2", "o", ["Alice"], does(
        THE_GIFT, "Outer", ["Alice"], does(THE_GIFT, "Give", ["Alice"], iou("Alice", 5), consuming=False), consuming=False))),
    packages=[IOU, OTHER, GIFT])

IOU_10 = known("#P1:c1:0")
BEGUN = [asked("P1", "c1", ["Bank"], iou("Alice", 10))]
WRONG_CHILD = script(*BEGUN, prepared("P2", "w1", ["Alice"], does(IOU_10, "Transfer", ["Alice"], iou("Carol", 11), args=[party("Carol")])))
FETCHED = script(*BEGUN, prepared("P2", "f1", ["Alice"], fetch(IOU_10, ["Alice"])))
STRANGER = script(*BEGUN, prepared("P2", "f1", ["Alice"], fetch(IOU_10, ["Carol"])))
NO_AUTHORITY = script(prepared("P2", "d1", ["Alice"], iou("Alice", 5)))
INVENTED = script(*BEGUN, prepared("P2", "f2", ["Alice"], fetch(forged("Iou.Iou", [party("Bank"), party("Alice"), 1000]), ["Alice"])))
FIRST = [(0, 'active', FREE)]

# name, script, who checks, the time of the entry, path, facts, and what was worked out of the verdict
VIEWS = [
    ('id', look(fetch(forged("K.Debt", [party("Alice"), 9], named="#P2:k7:0"), ["Alice"])), P2, 10, [0], BOTH, 'IdMismatch 1'),
    ('vetted', vetting(ASK, P2, ["Iou", "K"]), P2, 10, [0], BOTH, 'NotVetted 3'),
    ('skew', timed(60_000_011), P2, 10, [0], BOTH, 'TimeSkew 0'),
    ('locked', OTHER_FETCHED, P2, 10, [0], [(0, 'active', FREE), (1, 'active', HELD)], 'Locked 1'),
    ('inactive', OTHER_FETCHED, P2, 10, [0], [(0, 'active', FREE), (1, 'consumed', FREE)], 'Inactive 1'),
    ('fresh', ASK, P2, 10, [0], BOTH + [(2, 'active', FREE)], 'NotFresh 3'),
    ('order', look(does(K7, "Archive", ["Alice"]), fetch(K7, ["Alice"])), P2, 10, [0], BOTH, 'Unordered 2'),
    ('conform', OTHER_FETCHED, P2, 10, [0], BOTH, 'NotConformant 0'),
    ('authority', GIVEN, P2, 10, [0], FIRST, 'NotAuthorised 1'),
    ('approve', ASK, P2, 10, [0], BOTH, 'approve'),
    # the edges of the rules
    ('late-within', timed(60_000_010), P2, 10, [0], BOTH, 'approve'),
    ('early-within', timed(0), P2, 60_000_000, [0], BOTH, 'approve'),
    ('early', timed(0), P2, 60_000_001, [0], BOTH, 'TimeSkew 0'),
    ('vetted-else', vetting(ASK, P1, []), P2, 10, [0], BOTH, 'approve'),
    ('first-of-two', OTHER_FETCHED, P2, 10, [0], [(0, 'active', HELD), (1, 'consumed', HELD)], 'Locked 0'),
    ('locked-fetch', FETCHED, P1, 5, [0], [(0, 'active', HELD)], 'Locked 0'),
    ('transient', FLASH, P3, 4, [0, 1], [(0, 'active', FREE)], 'approve'),
    ('consumed-note', ASK, P2, 10, [0], BOTH + [(2, 'consumed', FREE)], 'NotFresh 3'),
    ('wrong-child', WRONG_CHILD, P1, 4, [0], FIRST, 'NotConformant 0'),
    ('wrong-child-below', WRONG_CHILD, P1, 4, [0, 0], FIRST, 'approve'),
    ('no-authority', NO_AUTHORITY, P1, 1, [0], [], 'NotAuthorised 0'),
    ('invented', INVENTED, P1, 8, [0], FIRST, 'Inactive 0'),
    ('below-alone', TRANSFER, P3, 4, [0, 0], FIRST, 'approve'),
    ('no-stakeholder', STRANGER, P3, 4, [0], [(0, 'consumed', HELD)], 'NotAuthorised 0'),
    ('stakeholder', STRANGER, P1, 4, [0], [(0, 'consumed', HELD)], 'Locked 0'),
    # by what is only observed
    ('locked-where-observed', watched(FETCHED), P4, 5, [0], [(0, 'active', HELD)], 'Locked 0'),
    ('inactive-where-observed', watched(INVENTED), P4, 8, [0], FIRST, 'Inactive 0'),
    ('fresh-where-observed', watched(ASK), P4, 10, [0], BOTH + [(2, 'active', FREE)], 'NotFresh 3'),
    ('order-where-observed', watched(look(does(K7, "Archive", ["Alice"]), fetch(K7, ["Alice"]))), P4, 10, [0], BOTH, 'Unordered 2'),
    ('approve-where-observed', watched(ASK), P4, 10, [0], BOTH, 'approve')]

# --- jobs: name, script, who checks, the place, the time, the paths, the facts, and what was worked out of the lines after the first
TWO_POLLS = ['place 3 left 2', 'pending, woken yes left 1', 'place 3 left 1', 'ready place 3']
JOBS = [
    ('transfer', TRANSFER, P1, 3, 4, [[0], [0, 0]], FIRST, TWO_POLLS + ['verdict 0 approve', 'verdict 0.0 approve']),
    ('wrong-child', WRONG_CHILD, P1, 3, 4, [[0], [0, 0]], FIRST, TWO_POLLS + ['verdict 0 NotConformant 0', 'verdict 0.0 approve']),
    ('one-view', WRONG_CHILD, P2, 3, 4, [[0]], FIRST, ['place 3 left 1', 'ready place 3', 'verdict 0 NotConformant 0'])]

# --- trackers and stores: the words of calls, with what was worked out of what they tell
TRACKERS = [
    ('new', None),
    ('begin 3 60000004', None),
    ('outcome 3', 'cursor 0 clean 0 outcome undecided'),
    ('advance 3', 'cursor 3 clean 3 outcome none'),
    ('advance 4', 'cursor 7 clean 3 outcome none'),
    ('settle 3 approved', 'cursor 7 clean 7 outcome approved'),
    ('new', None),
    ('begin 5 60000006', None),
    ('advance 9', 'cursor 9 clean 5 outcome none'),
    ('expire 60000005', None),
    ('expire 60000006', None),
    ('outcome 5', 'cursor 9 clean 5 outcome undecided'),
    ('expire 60000007', None),
    ('outcome 5', 'cursor 9 clean 9 outcome expired'),
    ('settle 6 approved', 'cursor 9 clean 9 outcome none'),
    ('begin 8 200', 'cursor 9 clean 8 outcome none'),
    ('begin 2 300', 'cursor 9 clean 2 outcome none'),
    ('begin 6 100', 'cursor 9 clean 2 outcome none'),
    ('settle 2 rejected', 'cursor 9 clean 6 outcome rejected'),
    ('expire 101', 'cursor 9 clean 8 outcome none'),
    ('outcome 6', 'cursor 9 clean 8 outcome expired'),
    ('outcome 8', 'cursor 9 clean 8 outcome undecided'),
    ('settle 8 timeout', 'cursor 9 clean 9 outcome timeout'),
    ('settle 2 undecided', 'cursor 9 clean 2 outcome undecided')]

# 1,000 contracts, of which 500 are consumed in another order, and three requests that aren't decided. Contract n is consumed by the
# call that has it at place (n - 3) * 143 of that order, where that is below 500 (7 * 143 is 1 beyond thousands).
STORES = (
    [('new', None), ('contract 0', 'unknown held no found no no')]
    + [('create %d 1 100 %d' % (100 * k, k), 'rows %d kept 0' % (100 * k + 100)) for k in range(10)]
    + [('consume %d 7 100 %d' % (3 + 700 * k, 20 + k), 'rows 1000 kept 0') for k in range(5)]
    + [('hold 0 1 5 30', 'rows 1000 kept 5'), ('hold 3 2 4 31', 'rows 1000 kept 9'), ('hold 999 1 1 32', 'rows 1000 kept 10'),
       ('contract 0', 'active held yes found yes yes'), ('contract 3', 'consumed held yes found no no'),
       ('contract 5', 'consumed held yes found no no'), ('contract 11', 'consumed held no found no no'),
       ('contract 999', 'consumed held yes found no no'), ('contract 10', 'consumed held no found no no'), ('row 0 0', 'yes created 0 consumed never'),
       ('row 3 3', 'yes created 0 consumed 20'), ('row 10 10', 'yes created 0 consumed 20'), ('row 999 999', 'yes created 9 consumed 24'),
       ('row 1000 0', 'none'), ('release 31', 'rows 1000 kept 10'), ('contract 3', 'consumed held yes found no no'), ('contract 9', 'active held no found yes yes'),
       ('release 30', 'rows 1000 kept 1'), ('contract 3', 'consumed held no found no no'), ('contract 999', None),
       ('release 33', 'rows 1000 kept 1'), ('release 32', 'rows 1000 kept 0'), ('contract 999', None),
       # consumed first, and created or consumed again
       ('new', None), ('consume 5 1 1 9', 'rows 1 kept 0'), ('contract 5', 'consumed held no found no no'),
       ('row 0 5', 'yes created never consumed 9'), ('create 5 1 1 4', 'rows 1 kept 0'), ('row 0 5', 'yes created 4 consumed 9'),
       ('create 5 1 1 2', None), ('create 5 1 1 3', None), ('consume 5 1 1 10', None), ('row 0 5', 'yes created 2 consumed 9'),
       ('create 6 1 1 8', 'rows 2 kept 0'), ('contract 6', 'active held no found yes yes'), ('row 1 6', 'yes created 8 consumed never')])

# 1,000 requests that create contracts, 500 that consume them in another order, and between these three that aren't decided: what is done,
# the first contract, what is added for the next, how many requests, what becomes of each. Each request has the next place.
REQUESTS = [
    ('new', None),
    ('create 0 1 1000 approved', 'rows 1000 holds 0 clean 1000 as plain lists yes'),
    ('consume 3 7 250 approved', 'rows 1000 holds 0 clean 1250 as plain lists yes'),
    ('consume 503 1 1 undecided', 'rows 1000 holds 1 clean 1250 as plain lists yes'),
    ('consume 753 7 249 approved', 'rows 1000 holds 1 clean 1250 as plain lists yes'),
    ('consume 510 1 1 undecided', 'rows 1000 holds 2 clean 1250 as plain lists yes'),
    ('consume 496 7 1 approved', 'rows 1000 holds 2 clean 1250 as plain lists yes'),
    ('consume 517 1 1 undecided', 'rows 1000 holds 3 clean 1250 as plain lists yes'),
    # what is rejected is held no more, and changes nothing
    ('consume 0 1 3 rejected', 'rows 1000 holds 3 clean 1250 as plain lists yes')]
