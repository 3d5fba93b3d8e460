"""What is a framed request, and what is opened of the bytes of an envelope that anybody may have made."""
import collections

import trees
from hosting import confirmed, that_confirm
from terms import Bad

MOST_BYTES = 4_194_304


class Common(trees.LeafReader):
    """Reads who sends a request, and its ledger time."""

    def head(self):
        sender = self.name()
        time = int.from_bytes(self.take(8), 'big')
        self.end()
        return sender, time


class Roles(trees.LeafReader):
    """Reads the informees and the confirmers of a view."""

    def both(self):
        informees, confirmers = self.parties(), self.parties()
        self.end()
        return informees, confirmers


def read_raw(raw):
    """A request that a script spells, with bytes in place of digits."""
    return dict(raw, mediator=bytes.fromhex(raw['mediator']), envelopes=[(name, bytes.fromhex(digits)) for name, digits in raw['envelopes']])


def tree_of(data):
    return trees.TreeReader(data).tree()


def shown(leaf):
    """The bytes of a leaf that is plain."""
    if isinstance(leaf, bytes):
        raise Bad(0)
    return leaf[1]


def outline(vertices, above=()):
    """The path, the informees and the confirmers of each view of a tree that hides the contents of all."""
    for at, vertex in enumerate(vertices):
        path = list(above) + [at]
        if isinstance(vertex, bytes) or not isinstance(vertex[1], bytes):
            raise Bad(0)
        informees, confirmers = Roles(shown(vertex[0])).both()
        yield path, informees, confirmers
        yield from outline(vertex[2], path)


def views_told(data):
    """The sender's name and the views of a tree that is for the mediator."""
    common, requesters, vertices = tree_of(data)
    head = Common(shown(common)).head()
    if not isinstance(requesters, bytes) or not vertices:
        raise Bad(0)
    return head, list(outline(vertices))


def is_framed(script, request):
    """Whether a request is framed."""
    names = [h['name'] for h in script['participants']]
    parties = {party for h in script['participants'] for party in confirmed(h)}
    to = [names.index(name) for name, _ in request['envelopes']]
    if request['participant'] not in names or to != sorted(set(to)):
        return False
    if any(len(data) > MOST_BYTES for data in [request['mediator']] + [data for _, data in request['envelopes']]):
        return False
    try:
        _, views = views_told(request['mediator'])
    except Bad:
        return False
    asked = {party for _, _, confirmers in views for party in confirmers}
    return (all(confirmers and set(confirmers) <= set(informees) <= parties for _, informees, confirmers in views)
            and request['confirming'] == that_confirm(script, asked))


# --- envelopes

MISMATCH, MISSING = 'mismatch', 'missing'
Opened = collections.namedtuple('Opened', 'name time by views')  # the name is that of the common leaf; by is None where it isn't asked for


def opened_for(data, root, listed, with_requesters):
    """What the bytes of an envelope open of a tree with a root hash: the listed views, and the requesters where they are asked for."""
    try:
        tree = tree_of(data)
    except Bad:
        return MISMATCH
    if trees.read_tree_hash(tree) != root:
        return MISMATCH
    try:
        return opened(tree, listed, with_requesters)
    except Bad:
        return MISSING


def opened(tree, listed, with_requesters):
    common, requesters, vertices = tree
    if not all(stands(vertices, path) for path in listed):
        raise Bad(0)
    name, time = Common(shown(common)).head()
    by = whole(Roles(shown(requesters))) if with_requesters else None
    return Opened(name, time, by, list(topmost(vertices, listed)))


def whole(reader):
    """The parties that stand in a leaf, which ends with them."""
    parties = reader.parties()
    reader.end()
    return parties


def stands(vertices, path):
    """Whether a vertex stands at a path, blind or not."""
    for depth, step in enumerate(path):
        if step >= len(vertices):
            return False
        if depth + 1 < len(path):
            if isinstance(vertices[step], bytes):
                return False
            vertices = vertices[step][2]
    return bool(path)


def topmost(vertices, listed, above=()):
    """The topmost listed views. All below them have to be listed and shown."""
    for at, vertex in enumerate(vertices):
        path = list(above) + [at]
        if path in listed:
            yield shown_view(vertex, listed, path)
        elif not isinstance(vertex, bytes):
            yield from topmost(vertex[2], listed, path)


def shown_view(vertex, listed, path):
    """A view with those below it, as views of a transaction are."""
    if path not in listed or isinstance(vertex, bytes):
        raise Bad(0)
    informees, confirmers = Roles(shown(vertex[0])).both()
    core = trees.LeafReader(shown(vertex[1])).contents()
    if trees.holes(core) != len(vertex[2]):
        raise Bad(0)
    below, nodes = [shown_view(v, listed, path + [at]) for at, v in enumerate(vertex[2])], list(core_nodes(core))
    fill(core, iter(below))
    return {'path': path, 'informees': informees, 'confirmers': confirmers, 'below': below, 'nodes': nodes}


def core_nodes(core):
    """The actions of a core in pre-order."""
    yield core
    for child in core['children']:
        if child is not None:
            yield from core_nodes(child)


def fill(node, below):
    """Puts the first actions of the views below into the holes of a core."""
    node['children'] = [next(below)['nodes'][0] if child is None else fill(child, below) for child in node['children']]
    return node
