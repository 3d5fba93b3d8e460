"""Bytes of envelopes with what they open to a participant that sees some views, worked out by hand from docs/PROTOCOL.md."""
from tables.bytes import BLIND, COMMON, CONTENTS, HOLED, REQUESTERS, ROLES, leaf, tree, vertex

MISMATCH, MISSING = ['mismatch'], ['missing']
INSIDE = vertex(contents=HOLED, below=[vertex()])
ABOVE = vertex(BLIND, BLIND, [vertex(), vertex()])


def opens(*paths, by='Alice', below=0):
    """That all of these views open, and so many below them, each with Alice as its informee and its confirmer."""
    return ['open P1 0 ' + by] + ['opens %s Alice Alice' % path for path in paths] + ['below Alice Alice'] * below


# the digits, the paths of the views, whether the requesters are asked for, and the lines
OF_ITS_ROOT = [
    (tree(vertex()), '0', True, opens('0')),
    (tree(vertex()), '0', False, opens('0', by='hidden')),
    (tree(vertex()), '-', True, opens()),
    (tree(vertex(), requesters=BLIND), '0', False, opens('0', by='hidden')),
    (tree(vertex(), requesters=BLIND), '0', True, MISSING),
    (tree(vertex(), requesters=leaf('000105416c69636500')), '0', True, MISSING),
    (tree(vertex(), requesters=leaf('000105416c69636500')), '0', False, opens('0', by='hidden')),
    (tree(vertex(), common=BLIND), '0', True, MISSING),
    (tree(vertex(), common=leaf('025031' + '00' * 9)), '0', False, MISSING),
    (tree(vertex(BLIND)), '0', True, MISSING),
    (tree(vertex(contents=BLIND)), '0', True, MISSING),
    (tree(vertex(BLIND, BLIND)), '-', True, opens()),
    (tree(vertex(informees=leaf('0001013100'))), '0', True, MISSING),
    (tree(vertex(contents=HOLED)), '0', True, MISSING),
    (tree(BLIND), '0', True, MISSING),
    (tree(), '0', True, MISSING),
    (tree(vertex()), '1', True, MISSING),
    (tree(vertex()), '0,1', True, MISSING),
    (tree(vertex()), '0,0.0', True, MISSING),
    # what isn't listed isn't looked at
    (tree(vertex(), vertex(REQUESTERS, REQUESTERS)), '0', True, opens('0')),
    (tree(vertex(), vertex()), '0,1', True, opens('0', '1')),
    (tree(vertex(), vertex()), '1', False, opens('1', by='hidden')),
    # what stands below a listed view is listed, and is shown
    (tree(INSIDE), '0,0.0', True, opens('0', below=1)),
    (tree(INSIDE), '0', True, MISSING),
    (tree(INSIDE), '0.0', False, opens('0.0', by='hidden')),
    (tree(vertex(contents=HOLED, below=[BLIND])), '0,0.0', True, MISSING),
    (tree(vertex(contents=HOLED, below=[BLIND])), '0', True, MISSING),
    (tree(vertex(contents=CONTENTS, below=[vertex()])), '0,0.0', True, MISSING),
    # below a view that isn't listed
    (tree(ABOVE), '0.0,0.1', False, opens('0.0', '0.1', by='hidden')),
    (tree(ABOVE), '0.1', False, opens('0.1', by='hidden')),
    (tree(ABOVE), '0.2', False, MISSING),
    (tree(ABOVE), '0,0.0,0.1', False, MISSING),
    (tree(BLIND, vertex()), '0.0,1', False, MISSING),
    (tree(BLIND, vertex()), '1', False, opens('1', by='hidden')),
    (tree(vertex(BLIND, BLIND, [BLIND, vertex(ROLES, HOLED, [vertex()])])), '0.1,0.1.0', False, opens('0.1', by='hidden', below=1))]
# bytes that spell no tree of that root
OF_ANOTHER_ROOT = [tree(vertex()), tree(), tree(BLIND)]
NO_TREES = ['', '02', COMMON, tree(vertex())[:-2], tree(vertex()) + '00', COMMON + REQUESTERS + '0041']

# of the worked transfer: whose envelope, the paths, whether the requesters are asked for, whether the root is that of the request, and the
# lines. P1 and P2 see both views, and P3 the inner one.
BOTH, INNER = '0,0.0', 'below Bank,Carol Bank'
TRANSFER = [
    ('P1', BOTH, True, True, ['open P2 0 Alice', 'opens 0 Alice,Bank Alice,Bank', INNER]),
    ('P1', BOTH, False, True, ['open P2 0 hidden', 'opens 0 Alice,Bank Alice,Bank', INNER]),
    ('P2', BOTH, True, True, ['open P2 0 Alice', 'opens 0 Alice,Bank Alice,Bank', INNER]),
    ('P3', '0.0', False, True, ['open P2 0 hidden', 'opens 0.0 Bank,Carol Bank']),
    ('P3', BOTH, True, True, MISSING), ('P3', BOTH, False, True, MISSING), ('P3', '0.0', True, True, MISSING),
    ('P1', '0', True, True, MISSING), ('P1', '0,0.0,0.1', True, True, MISSING),
    ('P1', BOTH, True, False, MISMATCH), ('P3', '0.0', False, False, MISMATCH)]
