"""Changes at random of the bytes of trees: of the trees that they spell, and of the bytes themselves."""
import struct

import framed
import terms
import trees
from hosting import that_confirm

MOST_RAW_BYTES = 65_536


# --- trees that can be changed: a vertex is its hash, or a list of two leaves and the vertices below

def changeable(vertex):
    return vertex if isinstance(vertex, bytes) else [vertex[0], vertex[1], [changeable(v) for v in vertex[2]]]


def tree_in(data):
    common, requesters, vertices = framed.tree_of(data)
    return [common, requesters, [changeable(v) for v in vertices]]


def leaf_bytes(leaf):
    return b'\0' + leaf if isinstance(leaf, bytes) else b'\1' + leaf[0] + struct.pack('>I', len(leaf[1])) + leaf[1]


def vertices_bytes(vertices):
    return struct.pack('>H', len(vertices)) + b''.join(map(vertex_bytes, vertices))


def vertex_bytes(vertex):
    if isinstance(vertex, bytes):
        return b'\0' + vertex
    return b'\1' + leaf_bytes(vertex[0]) + leaf_bytes(vertex[1]) + vertices_bytes(vertex[2])


def tree_bytes(tree):
    return leaf_bytes(tree[0]) + leaf_bytes(tree[1]) + vertices_bytes(tree[2])


def inner(vertices):
    """Each vertex that shows more than its hash."""
    for vertex in vertices:
        if not isinstance(vertex, bytes):
            yield vertex
            yield from inner(vertex[2])


def sides(tree):
    """Each list of vertices that stand side by side."""
    return [tree[2]] + [vertex[2] for vertex in inner(tree[2])]


def paths(vertices, above=()):
    for at, vertex in enumerate(vertices):
        yield above + (at,)
        if not isinstance(vertex, bytes):
            yield from paths(vertex[2], above + (at,))


class Changes:
    """Changes at random. Each method whose name begins with tree_, leaf_ or bytes_ makes one."""

    def __init__(self, rng, envelopes):
        self.rng, self.envelopes = rng, envelopes
        self.of = {kind: [getattr(self, name) for name in sorted(dir(self)) if name.startswith(kind)] for kind in ('tree_', 'leaf_', 'bytes_')}

    def place(self, tree):
        """A list of vertices side by side, and a place in it, or None where no vertex stands."""
        side = self.rng.choice([side for side in sides(tree) if side] or [None])
        return side and (side, self.rng.randrange(len(side)))

    def changed(self, data):
        """Bytes after none or some changes to the tree that they spell, and then to them."""
        tree = tree_in(data)
        for _ in range(self.rng.choice([0, 1, 1, 2, 3])):
            self.tree(tree)
        data = tree_bytes(tree)
        for _ in range(self.rng.choice([0, 0, 0, 1, 2])):
            data = self.data(data)
        return data[:MOST_RAW_BYTES]

    def tree(self, tree):
        self.rng.choice(self.of['tree_'])(tree)

    def data(self, data):
        return self.rng.choice(self.of['bytes_'])(data)

    # what keeps the root hash

    def tree_hide_leaf(self, tree):
        vertex = self.rng.choice(list(inner(tree[2])) or [None])
        if vertex:
            at = self.rng.randrange(2)
            vertex[at] = trees.read_leaf_hash(3 + at, vertex[at])

    def tree_hide_vertex(self, tree):
        place = self.place(tree)
        if place:
            side, at = place
            side[at] = trees.read_vertex_hash(side[at])

    def tree_hide_head(self, tree):
        at = self.rng.randrange(2)
        tree[at] = trees.read_leaf_hash(1 + at, tree[at])

    # what changes it

    def tree_swap(self, tree):
        one, other = self.place(tree), self.place(tree)
        if one and not self.is_above(one, other) and not self.is_above(other, one):
            (side, at), (beside, to) = one, other
            side[at], beside[to] = beside[to], side[at]

    @staticmethod
    def is_above(one, other):
        """Whether the other list stands below a vertex."""
        vertex = one[0][one[1]]
        return not isinstance(vertex, bytes) and any(other[0] is v[2] for v in inner([vertex]))

    def tree_double(self, tree):
        place = self.place(tree)
        if place:
            side, at = place
            side[at:at] = [changeable(side[at]) for _ in range(self.rng.choice([1, 1, 2, 62, 63, 64]))]

    def tree_drop(self, tree):
        place = self.place(tree)
        if place:
            del place[0][place[1]]

    def tree_nest(self, tree):
        place = self.place(tree)
        if place:
            side, at = place
            for _ in range(self.rng.choice([1, 1, 2, 3, 14, 15, 16])):
                side[at] = [self.rng.choice([bytes(32), (bytes(32), b'\0\0\0\0')]), bytes(32), [side[at]]]

    def tree_graft(self, tree):
        place = self.place(tree)
        other = self.place(tree_in(self.rng.choice(self.envelopes)))
        if place and other:
            place[0][place[1]] = other[0][other[1]]

    def tree_leaf(self, tree):
        leaves = [(tree, 0), (tree, 1)] + [(vertex, at) for vertex in inner(tree[2]) for at in (0, 1)]
        holder, at = self.rng.choice(leaves)
        if not isinstance(holder[at], bytes):
            holder[at] = self.rng.choice(self.of['leaf_'])(holder[at], tree)

    def leaf_salt(self, leaf, tree):
        return self.rng.randbytes(32), leaf[1]

    def leaf_data(self, leaf, tree):
        return leaf[0], self.data(leaf[1])

    def leaf_other(self, leaf, tree):
        shown = [vertex[at] for vertex in inner(tree[2]) for at in (0, 1) if not isinstance(vertex[at], bytes)]
        return leaf[0], self.rng.choice(shown + [leaf])[1]

    def leaf_roles(self, leaf, tree):
        names = ['Alice', 'Bank', 'Bob', 'Carol', 'Zed']
        informees = sorted(self.rng.sample(names, self.rng.randrange(4)))
        confirmers = sorted(self.rng.sample(names, self.rng.randrange(3))) if self.rng.random() < 0.5 else informees[:1]
        return leaf[0], terms.set_bytes(informees) + terms.set_bytes(confirmers)

    # bytes

    def cut(self, data):
        return sorted((self.rng.randrange(len(data) + 1), self.rng.randrange(len(data) + 1)))

    def bytes_flip(self, data):
        at = self.rng.randrange(len(data) or 1)
        return data[:at] + bytes([(data + b'\0')[at] ^ 1 << self.rng.randrange(8)]) + data[at + 1:]

    def bytes_end(self, data):
        return data[:self.rng.randrange(len(data) + 1)]

    def bytes_more(self, data):
        return data + self.rng.randbytes(self.rng.randrange(1, 5))

    def bytes_double(self, data):
        low, high = self.cut(data)
        return data[:high] + data[low:]

    def bytes_drop(self, data):
        low, high = self.cut(data)
        return data[:low] + data[min(high, low + 40):]

    def bytes_count(self, data):
        at = self.rng.randrange(len(data) + 1)
        return data[:at] + struct.pack('>H', self.rng.choice([0, 1, 2, 63, 64, 65, 128, 129, 65_535])) + data[at + 2:]

    def bytes_turn(self, data):
        low, high = self.cut(data)
        return data[high:] + data[low:high] + data[:low]


def is_tree(data):
    """Whether bytes spell a tree."""
    try:
        framed.tree_of(data)
    except terms.Bad:
        return False
    return True


def asked(script, request):
    """Who is to be asked by what the mediator reads, or as before."""
    try:
        _, views = framed.views_told(request['mediator'])
    except terms.Bad:
        return request['confirming']
    return that_confirm(script, {party for _, _, confirmers in views for party in confirmers})
