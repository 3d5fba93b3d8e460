"""Bytes of terms with the place of the first field that can't be read, or None where they are read whole or with more behind them."""

ID, SALT = 'aa' * 32, 'bb' * 32
HI = '044e6f7465044e6f7465030405416c6963650405416c6963650300026869'
EMPTY = '044e6f7465044e6f746500'

VALUES = [
    ('00', None), ('01000000000000000a', None), ('01ffffffffffffffff', None), ('018000000000000000', None),
    ('017fffffffffffffff', None), ('0200', None), ('0201', None), ('05' + ID, None), ('030000', None), ('03000368c3a9', None),
    ('030005000a225c7f', None), ('0405416c696365', None), ('060000', None), ('06000201410142', None), ('0000', None),
    ('030100' + '61' * 256, None), ('0420' + '61' * 32, None), ('0401' + '5f', 1), ('0421' + '61' * 33, 1),
    ('', 0), ('07', 0), ('0202', 1), ('0100000000000000', 1), ('030101', 1), ('0400', 1), ('040131', 1), ('030002fffe', 3),
    ('06000201410141', 5), ('06000201420141', 5), ('060081', 1), ('03000268', 3), ('05' + '00' * 31, 1), ('0405416c69', 1)]

PARTIES = [('0000', None), ('000105416c696365', None), ('00020141014142', 4), ('00020141024142', None), ('00', 0), ('0081', 0)]

INSTANCES = [(HI, None), (EMPTY, None), (HI[:-2], 28), ('044e6f7465044e6f74650d', 10), ('044e6f746500', 5)]

EXERCISE = '02' + ID + SALT + HI + '05466c617368' + '01010000000000000007' + '000105416c696365'
ACTIONS = [
    ('01' + ID + HI, None), (EXERCISE + '01' + '06000201410142', None), (EXERCISE + '00' + '00', None),
    ('03' + ID + SALT + HI + '000205416c69636503426f62', None),
    ('00', 0), ('04', 0), ('01' + '00' * 31, 1), ('01' + ID + '044e6f7465044e6f74650d', 43), ('02' + ID + SALT[:-2], 33),
    ('02' + ID + SALT + EMPTY + '0158' + '00' + '00010141' + '02', 83), ('02' + ID + SALT + EMPTY + '0158' + '00' + '00010141' + '0107', 84),
    ('03' + ID + SALT + EMPTY + '000201420141', 80)]


def leaf(data, salt='cc'):
    return '01' + salt * 32 + '%08x' % (len(data) // 2) + data


COMMON = leaf('025031' + '00' * 8)
REQUESTERS = leaf('000105416c696365')
ROLES = leaf('000105416c696365' + '000105416c696365')
CONTENTS = leaf(SALT + '01' + ID + HI + '0000')
HOLED = leaf(SALT + '01' + ID + HI + '000101')
BLIND = '00' + 'dd' * 32


def vertex(informees=ROLES, contents=CONTENTS, below=()):
    return '01' + informees + contents + '%04x' % len(below) + ''.join(below)


def tree(*views, common=COMMON, requesters=REQUESTERS):
    return common + requesters + '%04x' % len(views) + ''.join(views)


def nested(levels):
    return vertex(below=[nested(levels - 1)] if levels > 1 else [], contents=HOLED if levels > 1 else CONTENTS)


# trees: the place of the fault of decoding, and then what is opened and what is told
TREES = [
    (tree(), None, '0 views', '0 views'),
    (tree(vertex()), None, '1 views', '1 views'),
    (tree(vertex(), BLIND), None, '1 views', 'bad at 0'),
    (tree(vertex(BLIND, BLIND)), None, '0 views', 'bad at 0'),
    (tree(vertex(ROLES, BLIND)), None, '0 views', '1 views'),
    (tree(vertex(BLIND, BLIND, [vertex(), vertex()])), None, '2 views', 'bad at 0'),
    (tree(vertex(contents=HOLED, below=[vertex()])), None, '1 views', '2 views'),
    (tree(vertex(contents=HOLED, below=[BLIND])), None, 'bad at 0', 'bad at 0'),
    (tree(vertex(contents=HOLED)), None, 'bad at %d' % (32 + 1 + 32 + 30 + 2 + 1), '1 views'),
    (tree(vertex(below=[vertex()])), None, 'bad at %d' % (32 + 1 + 32 + 30 + 2), '2 views'),
    (tree(common=BLIND), None, 'bad at 0', 'bad at 0'),
    (tree(vertex(), common=leaf('025031' + '00' * 9)), None, 'bad at 11', 'bad at 11'),
    (tree(vertex(), requesters=leaf('000105416c69636500')), None, 'bad at 8', '1 views'),
    (tree(vertex(), requesters=BLIND), None, '1 views', '1 views'),
    (tree(vertex(informees=leaf('0001013100'))), None, 'bad at 2', 'bad at 2'),
    (tree(nested(16)), None, '1 views', '16 views'),
    ('', 0, None, None),
    ('02', 0, None, None),
    (COMMON[:-2], 37 - 4 + 4, None, None),
    (COMMON + REQUESTERS + '0041', len(COMMON + REQUESTERS) // 2, None, None),
    (tree() + '00', len(tree()) // 2, None, None),
    (tree(vertex())[:-2], len(tree(vertex())) // 2 - 2, None, None),
    (tree('02'), len(tree()) // 2, None, None)]


def too_deep():
    """A tree of 17 levels, and the place of the count that announces the vertex on the last."""
    text = tree(nested(17))
    upper, last = len(vertex(contents=HOLED)) // 2, len(tree()) // 2
    return text, last + 16 * upper - 2


def core(levels):
    """A core of so many levels, each action with one below it."""
    node = SALT + '01' + ID + HI
    return node + ('0001' + '00' + core(levels - 1) if levels > 1 else '0000')


def cores():
    """Trees with a core of 16 levels and of 17, and the place in the second of the tag of the node that stands too deep."""
    node = len(SALT + '01' + ID + HI) // 2 + 3
    yield tree(vertex(contents=leaf(core(16)))), 'opened 1 views told 1 views'
    yield tree(vertex(contents=leaf(core(17)))), 'opened bad at %d told 1 views' % (16 * node - 1)


def within(front, rows):
    """Rows of a part of an action, as rows of actions that have it behind other parts. A fault stands as much later."""
    return [(front + digits, None if fault is None else len(front) // 2 + fault) for digits, fault in rows]


def action_rows():
    """Actions, and those in which a value is a result, parties are actors, and an instance is what is created."""
    yield from within(EXERCISE + '01', VALUES)
    yield from within('03' + ID + SALT + EMPTY, PARTIES)
    yield from within('01' + ID, INSTANCES)
    yield from ACTIONS


def cases():
    """The word of each case, its digits, and what was worked out by hand: the place of a fault, or what a tree opens and tells."""
    for digits, fault in action_rows():
        yield 'action', digits, fault, None
    for digits, fault, opened, told in TREES:
        yield 'tree', digits, fault, None if opened is None else 'opened %s told %s' % (opened, told)
    yield ('tree',) + too_deep() + (None,)
    for digits, worked in cores():
        yield 'tree', digits, None, worked
