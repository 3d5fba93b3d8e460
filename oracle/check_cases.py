"""What the layer check of crates/layer_cases has to write: the verdicts of the local checks over a script's last transaction, the polls
of jobs, and what plain lists tell after the calls of a tracker and of a store.
"""
import ledger
import trees
from hosting import confirmed, hosted
from language import NOTE, Packages
from tree_cases import path_text, transaction_of, yes

# --- verdicts

def last_sent(script):
    """The last transaction of a script: its submission, its requesters and its roots, with the contracts that all create."""
    packages, known, last = Packages(script.get('packages', [])), [], None
    for round_ in script['rounds']:
        for submission in round_.get('submits', []):
            try:
                _, by, roots = transaction_of(packages, known, submission)
            except ledger.Refused:
                continue
            for _, node in ledger.preorder(roots):
                if node['action']['kind'] == 'create':
                    known.append({'id': node['action']['id'], 'salt': node['seed'], 'instance': node['action']['instance']})
            last = submission, by, roots
    return packages, known, last


class Check:
    """The local checks of one participant on a script's last transaction, with what it knows of contracts."""

    def __init__(self, script, me, time, facts):
        self.packages, known, (submission, by, self.roots) = last_sent(script)
        self.script, self.host, self.time, self.by = script, script['participants'][me], time, by
        self.sender = self.name = submission['participant']
        self.ledger_time = submission.get('ledger_time', 0)
        self.facts = {known[number]['id']: (status, held) for number, status, held in facts}
        seen = trees.topmost(trees.split(self.packages, self.roots), hosted(self.host))
        self.views = list(trees.all_views(seen))
        self.acts = [n for v in seen for _, n in ledger.preorder([v['nodes'][0]])]
        self.requesters = by if any(len(v['path']) == 1 for v in seen) else None

    def verdict(self, path):
        view = next(v for v in self.views if v['path'] == path)
        for reason in REASONS:
            for at, node in enumerate(view['nodes']):
                if getattr(self, reason)(view, node):
                    return '%s %d' % (reason, at)
        return 'approve'

    def status(self, node):
        return self.facts.get(node['action']['id'], ('unknown', False))

    def hosted(self, node):
        return bool(set(ledger.union(*self.packages.stakeholders(node['action']['instance']))) & set(hosted(self.host)))

    def earlier(self, node):
        at = next(k for k, other in enumerate(self.acts) if other is node)
        return [other for other in self.acts[:at] if other['action']['id'] == node['action']['id']]

    # an action of a view's core shows a reason, or the first one does for the whole view

    def WrongSender(self, view, node):
        sender = next(h for h in self.script['participants'] if h['name'] == self.sender)
        return self.name != self.sender or not set(self.requesters or []) <= set(confirmed(sender))

    def WrongCommon(self, view, node):
        starts = [below['nodes'][0] for below in view['below']]
        try:
            told = [ledger.roles(self.packages, each['action']) for each in view['nodes'] + starts]
        except ledger.NoRoles:
            return True
        core, below, informees = told[:len(view['nodes'])], told[len(view['nodes']):], told[0][3]
        confirmers = ledger.union(*(parties for signatories, _, actors, _ in core for parties in (signatories, actors)))
        is_inside = [set(roles[3]) <= set(informees) for roles in core]
        return (view['informees'] != informees or view['confirmers'] != confirmers or not all(is_inside)
                or any(set(roles[3]) <= set(informees) for roles in below))

    def IdMismatch(self, view, node):
        action = node['action']
        salt = node['seed'] if action['kind'] == 'create' else action['salt']
        return ledger.contract_id(salt, action['instance']) != action['id']

    def NotVetted(self, view, node):
        every = [NOTE['name']] + [p['name'] for p in self.script.get('packages', [])]
        return node['action']['instance'][0] not in self.host.get('vetted', every)

    def TimeSkew(self, view, node):
        return abs(self.ledger_time - self.time) > self.script.get('skew', 60_000_000)

    def Locked(self, view, node):
        return self.hosted(node) and self.status(node)[1]

    def Inactive(self, view, node):
        is_made = any(other['action']['kind'] == 'create' for other in self.earlier(node))
        return self.hosted(node) and node['action']['kind'] != 'create' and self.status(node)[0] != 'active' and not is_made

    def NotFresh(self, view, node):
        return self.hosted(node) and node['action']['kind'] == 'create' and self.status(node)[0] != 'unknown'

    def Unordered(self, view, node):
        return self.hosted(node) and is_unordered(self.earlier(node), node)

    def NotConformant(self, view, node):
        return not ledger.conforms(self.packages, view['nodes'][0])

    def NotAuthorised(self, view, node):
        action = node['action']
        signatories, _, actors, _ = ledger.roles(self.packages, action)
        below = ledger.union(actors, signatories)
        if not all(is_authorised(self.packages, child['action'], below) for child in node['children']):
            return True
        is_asked = len(view['path']) == 1 and node is view['nodes'][0]
        return is_asked and not (self.requesters is not None and is_authorised(self.packages, action, self.requesters))


REASONS = ['WrongSender', 'WrongCommon', 'IdMismatch', 'NotVetted', 'TimeSkew', 'Locked', 'Inactive', 'NotFresh', 'Unordered', 'NotConformant', 'NotAuthorised']


def is_authorised(packages, action, by):
    """Whether an action is authorised, whatever stands below it."""
    return ledger.is_authorised(packages, {'action': action, 'children': []}, by)


def is_unordered(on_it, node):
    """Whether an action is out of order, by the earlier ones on its contract."""
    return any(other['action'].get('consuming') for other in on_it) or (node['action']['kind'] == 'create' and bool(on_it))


def job_lines(name, script, me, place, time, paths, facts):
    """A job checks one view at each poll, and wakes itself where views remain."""
    check = Check(script, me, time, facts)
    yield 'job ' + name
    yield from poll_lines(place, [(path_text(path), check.verdict(path)) for path in paths], len(paths))


def poll_lines(place, verdicts, count):
    """What so many polls of a job tell, of which each checks one view."""
    for left in range(len(verdicts), len(verdicts) - count, -1):
        yield 'place %d left %d' % (place, left)
        yield 'pending, woken yes left %d' % (left - 1) if left > 1 else 'ready place %d' % place
    if count == len(verdicts):
        for path, verdict in verdicts:
            yield 'verdict %s %s' % (path, verdict)


# --- stores

class Tracker:
    """The requests of a participant by their places, each with its decision time and its outcome."""

    def __init__(self):
        self.requests, self.cursor = {}, 0

    def call(self, word, *rest):
        place = 0
        if word == 'begin':
            self.requests.setdefault(int(rest[0]), [int(rest[1]), 'undecided'])
        elif word == 'advance':
            self.cursor += int(rest[0])
        elif word == 'expire':
            for request in self.requests.values():
                if request[1] == 'undecided' and request[0] < int(rest[0]):
                    request[1] = 'expired'
        else:
            place = int(rest[0])
            if word == 'settle' and place in self.requests:
                self.requests[place][1] = rest[1]
        return place

    def clean(self):
        return min([p for p, r in self.requests.items() if r[1] == 'undecided'] + [self.cursor])

    def line(self, *words):
        place = self.call(*words)
        outcome = self.requests[place][1] if place in self.requests else 'none'
        return 'tracker %s - cursor %d clean %d outcome %s' % (' '.join(words), self.cursor, self.clean(), outcome)


class Store:
    """Contracts in the order in which they were met, each with who created and who consumed it, and the holds on them."""

    def __init__(self):
        self.rows, self.holds, self.released = [], [], 0

    def row(self, number):
        for row in self.rows:
            if row['number'] == number:
                return row
        self.rows.append({'number': number, 'create': None, 'consume': None})
        return self.rows[-1]

    def change(self, word, number, place):
        if word == 'hold':
            self.holds.append((number, place))
        else:
            row = self.row(number)
            row[word] = place if row[word] is None else min(row[word], place)

    def release(self, place):
        kept = [hold for hold in self.holds if hold[1] != place]
        self.released += len(self.holds) - len(kept)
        self.holds = kept
        if self.released > len(kept):
            self.released = 0

    def line(self, *words):
        word, numbers = words[0], list(map(int, words[1:]))
        front = 'store %s - ' % ' '.join(words)
        if word == 'contract':
            return front + self.contract(*numbers)
        if word == 'row':
            return front + self.told(*numbers)
        if word == 'release':
            self.release(*numbers)
        else:
            first, step, count, place = numbers
            for i in range(count):
                self.change(word, (first + i * step) % 1000, place)
        return front + 'rows %d kept %d' % (len(self.rows), len(self.holds) + self.released)

    def contract(self, number):
        row = next((r for r in self.rows if r['number'] == number), {'create': None, 'consume': None})
        status = 'consumed' if row['consume'] is not None else 'unknown' if row['create'] is None else 'active'
        held, found = any(hold[0] == number for hold in self.holds), yes(status == 'active')
        return '%s held %s found %s %s' % (status, yes(held), found, found)

    def told(self, at, number):
        if at >= len(self.rows):
            return 'none'
        row = self.rows[at]
        created, consumed = ('never' if row[w] is None else row[w] for w in ('create', 'consume'))
        return '%s created %s consumed %s' % (yes(row['number'] == number), created, consumed)


class Requests:
    """A tracker and a store that follow the same requests, each of which holds one contract until it is decided."""

    def __init__(self):
        self.tracker, self.store = Tracker(), Store()

    def follow(self, change, number, outcome):
        place = self.tracker.cursor
        self.store.change('hold', number, place)
        self.tracker.call('begin', place, 0)
        self.tracker.call('advance', 1)
        if outcome != 'undecided':
            self.tracker.call('settle', place, outcome)
            self.store.release(place)
        if outcome == 'approved':
            self.store.change(change, number, place)

    def line(self, change, first, step, count, outcome):
        for i in range(int(count)):
            self.follow(change, (int(first) + i * int(step)) % 1000, outcome)
        told = len(self.store.rows), len(self.store.holds), self.tracker.clean()
        words = ' '.join([change, first, step, count, outcome])
        return 'requests %s - rows %d holds %d clean %d as plain lists yes' % (words, *told)
