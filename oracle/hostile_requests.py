"""Requests that are changed at random as a sender could: what all their trees say of a transaction, and what each participant is sent."""
import struct

import ledger
import trees
from damage import Changes, asked, is_tree, tree_bytes, tree_in
from framed import core_nodes
from hosting import confirmed
from terms import action_bytes

MOST_RAW_BYTES, SECOND = 65_536, 1_000_000


def core_of(view):
    """The core of a view, with None for its holes."""
    return trees.LeafReader(view['core']).contents()


def core_bytes(node):
    children = [b'\1' if child is None else b'\0' + core_bytes(child) for child in node['children']]
    return node['seed'] + action_bytes(node['action']) + struct.pack('>H', len(children)) + b''.join(children)


class Sides:
    """Each list of views that stand side by side, with the place of a view in it."""

    def __init__(self, rng, views):
        found = [(side, at) for side in [views] + [view['below'] for view in trees.all_views(views)] for at in range(len(side))]
        self.side, self.at = rng.choice(found)

    def view(self):
        return self.side[self.at]


class Lies:
    """Changes of what all trees of a request say. Each method whose name begins with all_ makes one of its parts, and with one_ one of an action."""

    def __init__(self, rng):
        self.rng = rng
        self.of = {kind: [getattr(self, name) for name in sorted(dir(self)) if name.startswith(kind)] for kind in ('all_', 'one_')}

    def lie(self, parts):
        self.parties = sorted({party for host in parts.script['participants'] for party in confirmed(host)} | {'Zed'})
        self.rng.choice(self.of['all_'] + [self.all_action])(parts)

    def some(self, parties):
        """A set with a party more, one fewer or another one."""
        changed = set(parties)
        if changed and self.rng.random() < 0.6:
            changed.remove(self.rng.choice(sorted(changed)))
        if self.rng.random() < 0.6:
            changed.add(self.rng.choice(self.parties))
        return sorted(changed)

    def all_sender(self, parts):
        parts.name = self.rng.choice([host['name'] for host in parts.script['participants']] + ['Zed'])

    def all_time(self, parts):
        parts.time = max(0, parts.time + self.rng.choice([-1, 1, 59, 60, 61]) * SECOND)

    def all_requesters(self, parts):
        parts.by = self.some(parts.by)

    def all_informees(self, parts):
        view = self.rng.choice(list(trees.all_views(parts.views)))
        view['informees'] = self.some(view['informees'])

    def all_confirmers(self, parts):
        view = self.rng.choice(list(trees.all_views(parts.views)))
        view['confirmers'] = self.some(view['confirmers'])
        if self.rng.random() < 0.7:
            view['informees'] = ledger.union(view['informees'], view['confirmers'])

    def all_views(self, parts):
        """Views stand twice, are left out or change places, with the holes of the view above as they were."""
        sides = Sides(self.rng, parts.views)
        other = Sides(self.rng, parts.views)
        kind = self.rng.randrange(4)
        if kind == 0 and len(parts.views) > 1:
            del sides.side[sides.at]
        elif kind == 1:
            sides.side.insert(sides.at, dict(sides.view()))
        elif sides.side is other.side:
            sides.side[sides.at], sides.side[other.at] = sides.side[other.at], sides.side[sides.at]

    def all_holes(self, parts):
        """The first view below becomes a part of the core above it."""
        above = [view for view in trees.all_views(parts.views) if view['below']]
        if above:
            view = self.rng.choice(above)
            below = view['below'].pop(0)
            core = core_of(view)
            self.fill(core, core_of(below))
            view['core'], view['below'] = core_bytes(core), below['below'] + view['below']

    def fill(self, node, inner):
        """Puts a core into the first hole of another one, and tells whether there was one."""
        for at, child in enumerate(node['children']):
            if child is None:
                node['children'][at] = inner
                return True
            if self.fill(child, inner):
                return True
        return False

    def all_split(self, parts):
        """The last child of a core becomes a view of its own."""
        views = [view for view in trees.all_views(parts.views) if (core_of(view)['children'] or [None])[-1] is not None]
        if views:
            view = self.rng.choice(views)
            core = core_of(view)
            child = core['children'].pop()
            count = trees.holes(child)
            kept = len(view['below']) - count
            core['children'].append(None)
            view['core'], below = core_bytes(core), view['below'][kept:]
            informees = view['informees'] if self.rng.random() < 0.5 else self.some(view['informees'])
            view['below'] = view['below'][:kept] + [dict(
                informees=informees, confirmers=view['confirmers'], core=core_bytes(child), seed=child['seed'], below=below)]

    def all_action(self, parts):
        view = self.rng.choice(list(trees.all_views(parts.views)))
        core = core_of(view)
        node = self.rng.choice(list(core_nodes(core)))
        self.rng.choice(self.of['one_'])(node)
        action = node['action']
        if self.rng.random() < 0.6:
            action['id'] = ledger.contract_id(node['seed'] if action['kind'] == 'create' else action['salt'], action['instance'])
        view['core'], view['seed'] = core_bytes(core), core['seed']

    def value(self, value):
        """Another value, mostly of the same kind."""
        kind, held = value
        if kind == 'Int':
            return kind, (held + self.rng.choice([-20, -1, 1]) + 2 ** 63) % 2 ** 64 - 2 ** 63
        if kind == 'Party':
            return kind, self.rng.choice(self.parties)
        if kind == 'Parties':
            return kind, self.some(held)
        return ('Bool', True) if self.rng.random() < 0.3 else (kind, held[::-1] if kind in ('Text', 'Contract') else held)

    def values(self, values):
        if values and self.rng.random() < 0.9:
            at = self.rng.randrange(len(values))
            return values[:at] + [self.value(values[at])] + values[at + 1:]
        return values[:-1]

    def one_fields(self, node):
        package, template, fields = node['action']['instance']
        node['action']['instance'] = (package, template, self.values(fields))

    def one_template(self, node):
        package, template, fields = node['action']['instance']
        node['action']['instance'] = self.rng.choice([('Zed', template, fields), (package, 'Zed', fields)])

    def one_id(self, node):
        node['action']['id'] = self.rng.choice([bytes(32), node['action']['id']])

    def one_seed(self, node):
        node['seed'] = self.rng.randbytes(32)

    def one_salt(self, node):
        if 'salt' in node['action']:
            node['action']['salt'] = self.rng.randbytes(32)

    def one_actors(self, node):
        if 'actors' in node['action']:
            node['action']['actors'] = self.some(node['action']['actors'])

    def one_choice(self, node):
        action = node['action']
        if action['kind'] == 'exercise':
            kind = self.rng.randrange(4)
            if kind == 0:
                action['choice'] = self.rng.choice(['Archive', 'Zed'])
            elif kind == 1:
                action['consuming'] = not action['consuming']
            elif kind == 2:
                action['result'] = self.value(action['result'])
            else:
                action['args'] = self.values(action['args'])

    def one_children(self, node):
        inner = [at for at, child in enumerate(node['children']) if child is not None]
        if inner:
            at = self.rng.choice(inner)
            node['children'][at:at + 1] = self.rng.choice([[], [node['children'][at]] * 2, node['children'][at]['children']])


class Hostile:
    """Requests of a script that are changed."""

    def __init__(self, rng, envelopes):
        self.rng, self.lies, self.changes = rng, Lies(rng), Changes(rng, envelopes)

    def request(self, script, parts):
        """The request of some parts, which are changed too, and what becomes of it on its way."""
        honest = parts.request()
        for _ in range(self.rng.choice([0, 0, 1, 1, 2])):
            self.lies.lie(parts)
        request = self.sent(script, honest, parts.request())
        if self.rng.random() < 0.05:
            request['mediator'] = self.changes.changed(request['mediator'])
        if self.rng.random() < 0.8:
            request['confirming'] = asked(script, request)
        elif self.rng.random() < 0.2:
            request['confirming'] = request['confirming'][1:]
        return request

    def sent(self, script, honest, request):
        """The request with some envelopes left out, exchanged or changed, or shown as those of the honest one."""
        envelopes, all_bytes = dict(request['envelopes']), [data for _, data in request['envelopes'] + honest['envelopes']] + [request['mediator']]
        for name in [host['name'] for host in script['participants'] if self.rng.random() < 0.2]:
            kind = self.rng.randrange(5)
            if kind == 0:
                envelopes.pop(name, None)
            elif kind == 1:
                envelopes[name] = self.rng.choice(all_bytes)
            elif kind == 2:
                envelopes[name] = dict(honest['envelopes']).get(name, b'')
            elif is_tree(envelopes.get(name, b'')):
                envelopes[name] = self.changes.changed(envelopes[name]) if kind == 3 else self.hidden(envelopes[name])
        names = [host['name'] for host in script['participants'] if host['name'] in envelopes]
        return dict(request, envelopes=[(name, envelopes[name][:MOST_RAW_BYTES]) for name in names])

    def hidden(self, data):
        """An envelope of the same root that shows less."""
        tree = tree_in(data)
        self.rng.choice([self.changes.tree_hide_leaf, self.changes.tree_hide_vertex, self.changes.tree_hide_head])(tree)
        return tree_bytes(tree)
