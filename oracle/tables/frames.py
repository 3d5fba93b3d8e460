"""Raw requests, and whether each is framed, worked out by hand from docs/PROTOCOL.md."""
from tables.bytes import BLIND, COMMON, CONTENTS, HOLED, REQUESTERS, leaf, tree, vertex
from tables.transactions import PARTICIPANTS

HOSTS = PARTICIPANTS + [{"name": "P5", "parties": [], "observing": ["Alice"]}]
SETS = {'': '0000', 'A': '000105416c696365', 'B': '00010442616e6b', 'AB': '000205416c6963650442616e6b', 'AZ': '000205416c696365035a6564'}


def roles(informees, confirmers, behind=''):
    return leaf(SETS[informees] + SETS[confirmers] + behind)


ALICE = vertex(roles('A', 'A'), BLIND)
BANK = vertex(roles('AB', 'B'), BLIND)


def told(*views, common=COMMON):
    """The tree that the mediator gets."""
    return tree(*views, common=common, requesters=BLIND)


def raw(mediator=told(ALICE), asked=('P2',), sender='P2', to=()):
    return {"participant": sender, "confirming": list(asked), "mediator": mediator, "envelopes": [[name, digits] for name, digits in to]}


# what is said of the mediator's tree and of the lists beside it
FRAMED = [
    raw(),
    raw(sender='P3'),
    raw(told(ALICE, BANK), ['P1', 'P2']),
    raw(told(vertex(roles('A', 'A'), BLIND, [BANK])), ['P1', 'P2']),
    raw(told(BANK), ['P1']),
    raw(to=[('P1', ''), ('P2', '07'), ('P3', told(ALICE)), ('P4', ''), ('P5', '')]),
    raw(to=[('P3', '')])]
NOT_FRAMED = [
    # the confirming list
    raw(asked=[]), raw(asked=['P1']), raw(asked=['P2', 'P5']), raw(asked=['P2', 'P2']), raw(asked=['P2', 'P3']),
    raw(told(ALICE, BANK), ['P2', 'P1']), raw(told(ALICE, BANK), ['P2']),
    # the order of envelopes
    raw(to=[('P1', ''), ('P1', '')]), raw(to=[('P2', ''), ('P1', '')]), raw(to=[('P1', ''), ('P3', ''), ('P2', '')]),
    # what the mediator's tree shows
    raw(told(), []), raw(tree(ALICE), ['P2']), raw(told(vertex(roles('A', 'A'), CONTENTS))), raw(told(BLIND), []), raw(told(ALICE, BLIND)),
    raw(told(vertex(BLIND, BLIND)), []), raw(told(vertex(BLIND, BLIND, [ALICE]))),
    raw(told(vertex(roles('A', 'A'), BLIND, [vertex(roles('A', 'A'), HOLED)]))),
    raw(told(ALICE, common=BLIND)), raw(told(ALICE, common=leaf('025031' + '00' * 9))), raw(told(ALICE, common=leaf('025031' + '00' * 7))),
    raw(told(vertex(roles('A', 'A', '00'), BLIND))), raw(told(vertex(REQUESTERS, BLIND))), raw(told(ALICE) + '00'), raw(told(ALICE)[:-2]), raw(''),
    # confirmers and informees
    raw(told(vertex(roles('A', ''), BLIND)), []), raw(told(ALICE, vertex(roles('A', ''), BLIND))), raw(told(vertex(roles('A', 'AB'), BLIND)), ['P1', 'P2']),
    raw(told(vertex(roles('A', 'B'), BLIND)), ['P1']), raw(told(vertex(roles('AZ', 'A'), BLIND))), raw(told(vertex(roles('', ''), BLIND)), [])]

ROWS = [(dict(row, command='k%d' % at), at < len(FRAMED)) for at, row in enumerate(FRAMED + NOT_FRAMED)]
SCRIPT = {"participants": HOSTS, "rounds": [{}, {"raw": [row for row, _ in ROWS]}]}
