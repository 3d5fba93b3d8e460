"""Views of a transaction, and the Merkle trees that its recipients get.

A leaf is a pair of a salt and bytes, and a tree shows of it either both or its hash alone.
"""
import struct

from ledger import NoRoles, roles, sha, union
from terms import Bad, Reader, action_bytes, name_bytes, set_bytes


class NoViews(Exception):
    def __init__(self, path):
        Exception.__init__(self, path)
        self.path = path


def split(packages, roots):
    """The views of a transaction: each with its path, informees, confirmers, core nodes and bytes, seed and the views below it."""
    return [view(packages, node, [at], [at]) for at, node in enumerate(roots)]


def view(packages, node, path, action_path):
    made = {'path': path, 'informees': roles_at(packages, node, action_path)[3], 'confirmers': [], 'below': [], 'nodes': [],
            'seed': node['seed']}
    made['core'] = core(packages, node, made, action_path)
    return made


def roles_at(packages, node, action_path):
    try:
        return roles(packages, node['action'])
    except NoRoles:
        raise NoViews(action_path)


def core(packages, node, made, action_path):
    """The bytes of a core from a node on; the views that start in it are put below the view."""
    signatories, _, actors, _ = roles_at(packages, node, action_path)
    made['confirmers'] = union(made['confirmers'], signatories, actors)
    made['nodes'].append(node)
    out = node['seed'] + action_bytes(node['action']) + struct.pack('>H', len(node['children']))
    for at, child in enumerate(node['children']):
        below = action_path + [at]
        if set(roles_at(packages, child, below)[3]) <= set(made['informees']):
            out += b'\0' + core(packages, child, made, below)
        else:
            made['below'].append(view(packages, child, made['path'] + [len(made['below'])], below))
            out += b'\1'
    return out


# --- leaves and hashes

def leaf(kind, seed, data):
    return (kind, sha(b'\7', bytes([kind]), seed), data)


def leaf_hash(made):
    kind, salt, data = made
    return sha(b'\4', bytes([kind]), salt, data)


def common_leaf(sender, time, seed):
    return leaf(1, seed, name_bytes(sender) + struct.pack('>Q', time))


def requesters_leaf(requesters, seed):
    return leaf(2, seed, set_bytes(requesters))


def informees_leaf(made):
    return leaf(3, made['seed'], set_bytes(made['informees']) + set_bytes(made['confirmers']))


def contents_leaf(made):
    return leaf(4, made['seed'], made['core'])


def view_hash(made):
    below = [view_hash(v) for v in made['below']]
    return sha(b'\5', leaf_hash(informees_leaf(made)), leaf_hash(contents_leaf(made)), struct.pack('>I', len(below)), *below)


def tree_hash(common, requesters, views):
    below = [view_hash(v) for v in views]
    return sha(b'\6', leaf_hash(common), leaf_hash(requesters), struct.pack('>I', len(below)), *below)


# --- envelopes

def leaf_bytes(made, is_plain):
    _, salt, data = made
    return b'\1' + salt + struct.pack('>I', len(data)) + data if is_plain else b'\0' + leaf_hash(made)


def sees(made, parties, above=False):
    """Whether who hosts the parties sees a view, where it sees the one above or not."""
    return above or bool(set(made['informees']) & set(parties))


def sees_below(made, parties):
    return sees(made, parties) or any(sees_below(v, parties) for v in made['below'])


def vertex_bytes(made, parties, above):
    """The bytes of a vertex for a participant that hosts parties, or for the mediator, which hosts None."""
    if parties is None:
        is_seen, is_inner, shows = False, True, (True, False)
    else:
        is_seen = sees(made, parties, above)
        is_inner, shows = is_seen or sees_below(made, parties), (is_seen, is_seen)
    if not is_inner:
        return b'\0' + view_hash(made)
    return (b'\1' + leaf_bytes(informees_leaf(made), shows[0]) + leaf_bytes(contents_leaf(made), shows[1])
            + struct.pack('>H', len(made['below'])) + b''.join(vertex_bytes(v, parties, is_seen) for v in made['below']))


def envelope(common, requesters, views, parties, is_sender):
    """The bytes of the tree for a participant that hosts parties, or for the mediator, which hosts None."""
    shown = parties is not None and (is_sender or any(sees(v, parties) for v in views))
    return (leaf_bytes(common, True) + leaf_bytes(requesters, shown) + struct.pack('>H', len(views))
            + b''.join(vertex_bytes(v, parties, False) for v in views))


def topmost(views, parties):
    """The topmost views that a participant sees."""
    out = []
    for made in views:
        out += [made] if sees(made, parties) else topmost(made['below'], parties)
    return out


def all_views(views):
    for made in views:
        yield made
        yield from all_views(made['below'])


# --- reading trees

class TreeReader(Reader):
    """Reads the bytes of a tree. A leaf is its hash, or the salt and the bytes; a vertex is its hash or a triple."""

    def leaf(self):
        if self.tag((0, 1)) == 0:
            return self.take(32)
        salt = self.take(32)
        return (salt, self.take(self.count(4, 2 ** 32)))

    def vertices(self, levels):
        return [self.vertex(levels) for _ in range(self.count(2, 64 if levels else 0))]

    def vertex(self, levels):
        if self.tag((0, 1)) == 0:
            return self.take(32)
        informees = self.leaf()
        contents = self.leaf()
        return (informees, contents, self.vertices(levels - 1))

    def tree(self):
        common = self.leaf()
        requesters = self.leaf()
        views = self.vertices(16)
        if self.at != len(self.data):
            raise Bad(self.at)
        return common, requesters, views


def read_leaf_hash(kind, read):
    return read if isinstance(read, bytes) else leaf_hash((kind,) + read)


def read_vertex_hash(read):
    if isinstance(read, bytes):
        return read
    below = [read_vertex_hash(v) for v in read[2]]
    return sha(b'\5', read_leaf_hash(3, read[0]), read_leaf_hash(4, read[1]), struct.pack('>I', len(below)), *below)


def read_tree_hash(tree):
    below = [read_vertex_hash(v) for v in tree[2]]
    return sha(b'\6', read_leaf_hash(1, tree[0]), read_leaf_hash(2, tree[1]), struct.pack('>I', len(below)), *below)


class LeafReader(Reader):
    """Reads the bytes of a leaf, which end with it."""

    def end(self):
        if self.at != len(self.data):
            raise Bad(self.at)

    def common(self):
        self.name()
        self.take(8)
        self.end()

    def requesters(self):
        self.parties()
        self.end()

    def roles(self):
        self.parties()
        self.parties()
        self.end()

    def core_node(self, levels=16):
        """A core of so many levels, with None for each of its holes. Below the last level stand holes alone."""
        node = {'seed': self.take(32), 'action': self.action(), 'children': []}
        for _ in range(self.count(2, 63)):
            is_hole = self.tag((0, 1) if levels > 1 else (1,)) == 1
            node['children'].append(None if is_hole else self.core_node(levels - 1))
        return node

    def contents(self):
        core = self.core_node()
        self.end()
        return core


def holes(core):
    return sum(1 if child is None else holes(child) for child in core['children'])


def plain(read):
    if isinstance(read, bytes):
        raise Bad(0)
    return LeafReader(read[1])


def opened_views(tree):
    """How many topmost views a tree opens to a participant."""
    plain(tree[0]).common()
    if not isinstance(tree[1], bytes):
        plain(tree[1]).requesters()
    return opened_among(tree[2])


def opened_among(vertices):
    count = 0
    for vertex in vertices:
        if isinstance(vertex, bytes):
            continue
        if isinstance(vertex[0], bytes) or isinstance(vertex[1], bytes):
            count += opened_among(vertex[2])
        else:
            open_whole(vertex)
            count += 1
    return count


def open_whole(vertex):
    if isinstance(vertex, bytes):
        raise Bad(0)
    plain(vertex[0]).roles()
    if holes(plain(vertex[1]).contents()) != len(vertex[2]):
        raise Bad(len(vertex[1][1]))
    for below in vertex[2]:
        open_whole(below)


def told_views(tree):
    """Of how many views the mediator reads the informees."""
    plain(tree[0]).common()
    return sum(map(told_vertex, tree[2]))


def told_vertex(vertex):
    if isinstance(vertex, bytes):
        raise Bad(0)
    plain(vertex[0]).roles()
    return 1 + sum(map(told_vertex, vertex[2]))
