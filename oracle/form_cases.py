"""What the layer form of crates/layer_cases has to write of the bytes of actions, of trees, of envelopes and of states."""
import commitments
import framed
import states
import terms
import trees
from tree_cases import parties_line


def bytes_line(word, data):
    reader = trees.TreeReader(data)
    try:
        if word == 'state':
            return state_line(states.read_state(data))
        return tree_line(reader.tree(), data) if word == 'tree' else action_line(reader)
    except terms.Bad as bad:
        return 'bad at %d' % bad.at


def action_line(reader):
    action = reader.action()
    data = terms.action_bytes(action)
    return '%s next %d length %d spelled %s' % (terms.action_text(action), reader.at, len(data), data.hex())


def state_line(state):
    many = tuple(len(state[part]) for part in ('active', 'gone', 'items', 'outbox', 'done'))
    told = 'active %d gone %d items %d responses %d done %d' % many
    return 'base %d time %d %s spelled %s' % (state['base'], state['base_time'], told, states.state_bytes(state).hex())


def calls_line(calls):
    """Whether each id is added or taken out, and the root after the last call."""
    ids, words = set(), []
    for call in calls:
        one = bytes.fromhex(call[1:])
        words.append('yes' if (one in ids) == (call[0] == '-') else 'no')
        ids = ids | {one} if call[0] == '+' else ids - {one}
    return ' '.join(words + [commitments.root(ids).hex()])


def difference_line(mine, theirs):
    bucket = commitments.first_difference(*(set(map(bytes.fromhex, ids)) for ids in (mine, theirs)))
    return 'equal' if bucket is None else 'differ %d' % bucket


def counted(call, tree):
    try:
        return '%d views' % call(tree)
    except terms.Bad as bad:
        return 'bad at %d' % bad.at


def tree_line(tree, data):
    return 'root %s opened %s told %s spelled %s' % (
        trees.read_tree_hash(tree).hex(), counted(trees.opened_views, tree), counted(trees.told_views, tree), data.hex())


def paths_of(word):
    return [] if word == '-' else [[int(step) for step in path.split('.')] for path in word.split(',')]


def opened_lines(root, paths, with_requesters, data):
    """What an envelope opens to who sees the views with these paths."""
    opened = framed.opened_for(data, root, paths_of(paths), with_requesters)
    if not isinstance(opened, tuple):
        yield opened
        return
    yield 'open %s %d %s' % (opened.name, opened.time, 'hidden' if opened.by is None else ','.join(opened.by))
    for view in opened.views:
        yield parties_line('opens', view)
    for view in opened.views:
        yield from below_lines(view['below'])


def below_lines(views):
    for view in views:
        yield 'below %s %s' % (','.join(view['informees']), ','.join(view['confirmers']))
        yield from below_lines(view['below'])
