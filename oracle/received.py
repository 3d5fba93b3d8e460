"""What the mediator and the participants read of a framed request, whoever made it."""
import ledger
import trees
from framed import MISMATCH, MISSING, opened_for, tree_of, views_told
from hosting import confirmed, hosted

REASON = {MISMATCH: 'RootMismatch', MISSING: 'ViewMissing'}


class Received:
    """A framed request. What it comes to hangs on its bytes alone: the views are those of the mediator's tree."""

    def __init__(self, script, packages, request):
        self.script, self.packages, self.raw = script, packages, request
        self.sender, self.command, self.asked = request['participant'], request['command'], request['confirming']
        self.root = trees.read_tree_hash(tree_of(request['mediator']))
        self.views = [{'path': path, 'informees': informees, 'confirmers': confirmers}
                      for path, informees, confirmers in views_told(request['mediator'])[1]]
        self.envelopes, self.offers = dict(request['envelopes']), {}

    def host(self, name):
        return next(h for h in self.script['participants'] if h['name'] == name)

    def confirming(self):
        """Who is asked to confirm."""
        return list(self.asked)

    def asked_of(self, name):
        """The paths of the views that a participant is to confirm."""
        parties = set(confirmed(self.host(name)))
        return [view['path'] for view in self.views if parties & set(view['confirmers'])]

    def listed(self, name):
        """The paths of the views that a participant sees: it hosts an informee there or above."""
        parties, paths = set(hosted(self.host(name))), []
        for view in self.views:
            if parties & set(view['informees']) or view['path'][:-1] in paths:
                paths.append(view['path'])
        return paths

    def recipients(self):
        return [h['name'] for h in self.script['participants'] if h['name'] == self.sender or self.listed(h['name'])]

    def offer(self, name):
        """What a recipient's envelope opens, or the reason why it opens nothing."""
        if name not in self.offers:
            self.offers[name] = self.opened(name)
        return self.offers[name]

    def opened(self, name):
        if name not in self.envelopes:
            return REASON[MISSING]
        listed = self.listed(name)
        opened = opened_for(self.envelopes[name], self.root, listed, any(len(path) == 1 for path in listed))
        if isinstance(opened, str):
            return REASON[opened]
        return opened if self.are_known(opened.views) else REASON[MISSING]

    def are_known(self, views):
        """Whether each party that an action in the views names is somebody's."""
        known = {party for host in self.script['participants'] for party in confirmed(host)}
        return all(named(node['action']) <= known for view in trees.all_views(views) for node in view['nodes'])

    def is_open(self, name):
        return name in self.recipients() and not isinstance(self.offer(name), str)

    def is_withheld(self, name):
        """Whether a participant sees a view and has no complete envelope."""
        return bool(self.listed(name)) and not self.is_open(name)

    def seen(self, name):
        """The topmost views that are opened to a participant."""
        return self.offer(name).views if self.is_open(name) else []

    def roots(self, name):
        """The first actions of these views, each with all below it."""
        return [view['nodes'][0] for view in self.seen(name)]

    def acts(self, name):
        """The actions opened to a participant whose ids are right."""
        return [node for _, node in ledger.preorder(self.roots(name)) if is_authentic(node)]

    def commit(self):
        """The requesters and the roots, or None where not all is opened: each from the first complete envelope that shows it."""
        opened = [self.offer(name) for name in self.recipients() if self.is_open(name)]
        by = next((each.by for each in opened if each.by is not None), None)
        shown = {}
        for each in opened:
            for view in trees.all_views(each.views):
                shown.setdefault(tuple(view['path']), view)
        if by is None or any(tuple(view['path']) not in shown for view in self.views):
            return None
        return by, [joined(shown, path) for path in sorted(shown) if len(path) == 1]


def joined(shown, path):
    """The first action of a view with all below it, each view's core as it is shown of this view."""
    view = shown[path]
    starts = {id(below['nodes'][0]): path + (at,) for at, below in enumerate(view['below'])}

    def copied(node):
        children = [joined(shown, starts[id(child)]) if id(child) in starts else copied(child) for child in node['children']]
        return dict(node, children=children)
    return copied(view['nodes'][0])


def is_authentic(node):
    action = node['action']
    salt = node['seed'] if action['kind'] == 'create' else action['salt']
    return ledger.contract_id(salt, action['instance']) == action['id']


def named(action):
    """The parties that an action names."""
    values = action['instance'][2] + action.get('args', []) + ([action['result']] if 'result' in action else [])
    return {party for value in values for party in in_value(value)} | set(action.get('actors', []))


def in_value(value):
    kind, held = value
    return [held] if kind == 'Party' else held if kind == 'Parties' else []
