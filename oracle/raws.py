"""Requests as a round's `raw` has them."""
import ledger
import trees
from framed import is_framed, read_raw
from hosting import hosted, that_confirm
from language import Packages
from tree_cases import transaction_of


class Parts:
    """What a request is made of: whom its common leaf names, the ledger time, the requesters, and the views."""

    def __init__(self, script, submission, time, seed, by, views):
        self.script, self.submission, self.seed, self.views = script, submission, seed, views
        self.sender, self.command = submission['participant'], submission['command']
        self.name, self.time, self.by = self.sender, time, by

    def parties(self, kind):
        return {party for view in trees.all_views(self.views) for party in view[kind]}

    def request(self):
        """The request by the rules, whether these parts are those of a transaction or not, with bytes in place of digits."""
        common, requesters = trees.common_leaf(self.name, self.time, self.seed), trees.requesters_leaf(self.by, self.seed)
        informees, envelopes = self.parties('informees'), []
        for host in self.script['participants']:
            if host['name'] == self.sender or set(hosted(host)) & informees:
                envelopes.append((host['name'], trees.envelope(common, requesters, self.views, hosted(host), host['name'] == self.sender)))
        return {'participant': self.sender, 'command': self.command, 'confirming': that_confirm(self.script, self.parties('confirmers')),
                'mediator': trees.envelope(common, requesters, self.views, None, False), 'envelopes': envelopes}


def parts_of(script):
    """The parts of the request of each submission of a script that isn't refused, over what those before it create."""
    packages, known, now = Packages(script.get('packages', [])), [], 0
    for round_ in script['rounds']:
        now += round_.get('advance', 0)
        for submission in round_.get('submits', []):
            try:
                seed, by, roots = transaction_of(packages, known, submission)
                views = trees.split(packages, roots)
            except (ledger.Refused, trees.NoViews):
                continue
            for _, node in ledger.preorder(roots):
                if node['action']['kind'] == 'create':
                    known.append({'id': node['action']['id'], 'salt': node['seed'], 'instance': node['action']['instance']})
            yield Parts(script, submission, submission.get('ledger_time', now), seed, by, views)


def requests_of(script):
    """The requests of a script's submissions that aren't refused."""
    return (parts.request() for parts in parts_of(script))


def spelled(request):
    """A request as a script spells it."""
    return dict(request, mediator=request['mediator'].hex(), envelopes=[[name, data.hex()] for name, data in request['envelopes']])


def script_of(participants, requests):
    """A script whose one round hands in requests."""
    return {"participants": participants, "rounds": [{"raw": [spelled(request) for request in requests]}]}


# --- a log

def appended(script, capacity):
    """What a new log with room for so many entries says to each raw of a script."""
    log, reserved = [], 0
    for raw in script['rounds'][0]['raw']:
        request, need = read_raw(raw), 2 + len(raw['confirming'])
        place = next((k for k, r in enumerate(log) if (r['participant'], r['command']) == (raw['participant'], raw['command'])), None)
        if place is not None:
            yield 'Already %d' % place
        elif not is_framed(script, request):
            yield 'Unframed'
        elif reserved + need > capacity:
            yield 'LogFull %d %d' % (reserved, need)
        else:
            log.append(request)
            reserved += need
            yield 'appended'
    yield '%d entries' % len(log)
