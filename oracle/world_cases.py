"""What the layer world of crates/layer_cases has to write: the report of a log that grows event by event with what each participant
has applied of it, and what becomes of a job that comes too late.

All is worked out from the log and from how much of it each participant and the mediator have read.
"""
import check_cases
import ledger
import raws
import trees
from framed import is_framed, read_raw
from hosting import confirmed, hosted
from language import Packages
from received import Received
from terms import instance_text
from tree_cases import path_text, transaction_of, tree_lines

WAIT, SKEW, MOST_TIME = 30_000_000, 60_000_000, 10 ** 16


def wanted(world, submission, now, known):
    """The request that a submission wants over the contracts that its participant knows."""
    seed, by, roots = transaction_of(world.packages, known, submission)
    views = trees.split(world.packages, roots)
    parts = raws.Parts(world.script, submission, submission.get('ledger_time', now), seed, by, views)
    return Received(world.script, world.packages, parts.request())


class Checked(check_cases.Check):
    """The checks of a participant on the request at a place."""

    def __init__(self, world, name, place):
        request = world.log[place]['request']
        self.packages, self.script, self.sender, self.offer = world.packages, world.script, request.sender, request.offer(name)
        self.host, self.time, self.facts = world.host(name), world.log[place]['time'], world.facts(name, place)
        if not isinstance(self.offer, str):
            self.name, self.ledger_time, self.requesters, seen = self.offer
            self.views = list(trees.all_views(seen))
            self.acts = [node for _, node in ledger.preorder(request.roots(name))]

    def verdict(self, path):
        return self.offer + ' 0' if isinstance(self.offer, str) else check_cases.Check.verdict(self, path)


class World:
    def __init__(self, script):
        self.script, self.hosts, self.packages = script, script['participants'], Packages(script.get('packages', []))
        self.log, self.now = [], 0
        self.left, self.left_raws = list(script['rounds'][0].get('submits', [])), list(script['rounds'][0].get('raw', []))
        self.paused, self.read, self.taken, self.outbox, self.pruned = set(), {}, {}, {}, {}
        for host in self.hosts:
            self.read[host['name']], self.taken[host['name']], self.outbox[host['name']] = 0, set(), {}
        self.told, self.given = 0, set()

    def host(self, name):
        return next(h for h in self.hosts if h['name'] == name)

    # the log

    def append(self, kind, time=None, **more):
        self.log.append(dict(more, kind=kind, time=self.next_time() if time is None else time))

    def next_time(self):
        return (self.log[-1]['time'] if self.log else 0) + 1

    def requests(self, end):
        return [(k, e['request']) for k, e in enumerate(self.log[:end]) if e['kind'] == 'request']

    def deadline(self, place):
        return self.log[place]['time'] + self.script.get('response_timeout', WAIT)

    def decision_time(self, place):
        return self.deadline(place) + self.script.get('reaction_timeout', WAIT)

    def verdict(self, place, end):
        return next((e['decision'] for e in self.log[:end] if e['kind'] == 'verdict' and e['of'] == place), None)

    def is_decided(self, place, end):
        """By what stands before an end."""
        return self.verdict(place, end) is not None or any(e['time'] > self.decision_time(place) for e in self.log[:end])

    def response(self, name, place):
        return next((e for e in self.log if e['kind'] == 'response' and e['by'] == name and e['of'] == place), None)

    def hand_in(self, kind, place, **more):
        """A response or a verdict, which is dropped where it stands already or comes too late."""
        stands = self.response(more['by'], place) if kind == 'response' else self.verdict(place, len(self.log))
        if stands is None and self.next_time() <= self.decision_time(place):
            self.append(kind, of=place, **more)

    # contracts

    def approved(self, end, most):
        """The requests before a place with an approving verdict before an end."""
        return [(k, request) for k, request in self.requests(most) if self.verdict(k, end) == 'approved']

    def status(self, name, most, end):
        """Of each contract that a participant sees: who creates it at which place, and whether it is consumed."""
        created, consumed = {}, set()
        for place, request in self.approved(end, most):
            for node in request.acts(name):
                if node['action']['kind'] == 'create':
                    created.setdefault(node['action']['id'], (place, node))
                elif node['action'].get('consuming'):
                    consumed.add(node['action']['id'])
        return created, consumed

    def facts(self, name, place):
        """Status and hold of each contract at the place of a request."""
        created, consumed = self.status(name, place, place)
        facts = {cid: ('active', False) for cid in created}
        facts.update((cid, ('consumed', False)) for cid in consumed)
        for at, request in self.requests(place):
            # the entry at the place itself may be past the decision time
            if self.verdict(at, place) is None and self.log[place]['time'] <= self.decision_time(at):
                for node in request.acts(name):
                    if node['action']['kind'] == 'create' or node['action'].get('consuming'):
                        cid = node['action']['id']
                        facts[cid] = (facts.get(cid, ('unknown', False))[0], True)
        return facts

    def active(self, name, most, end):
        created, consumed = self.status(name, most, end)
        for cid, (place, node) in created.items():
            instance = node['action']['instance']
            if cid not in consumed and set(ledger.union(*self.packages.stakeholders(instance))) & set(hosted(self.host(name))):
                yield place, {'id': cid, 'salt': node['seed'], 'instance': instance}

    # events

    def submit(self):
        submission = self.left.pop(0)
        name = submission['participant']
        if name in self.paused or not set(submission['act_as']) <= set(confirmed(self.host(name))):
            return
        try:
            known = [contract for _, contract in self.active(name, self.read[name], self.read[name])]
            request = wanted(self, submission, self.now, known)
        except (ledger.Refused, trees.NoViews):
            return
        if not self.stands(request.sender, request.command):
            self.append('request', request=request)

    def stands(self, sender, command):
        """Whether a request of this sender and command stands in the log."""
        return any((r.sender, r.command) == (sender, command) for _, r in self.requests(len(self.log)))

    def submit_raw(self):
        raw = self.left_raws.pop(0)
        request = read_raw(raw)
        if not self.stands(raw['participant'], raw['command']) and is_framed(self.script, request):
            self.append('request', request=Received(self.script, self.packages, request))

    def advance(self, by):
        if by:
            self.now += by
            self.append('tick', max(self.now, self.next_time()))

    def owed(self, name, end):
        """The requests before an end, undecided there, whose views this participant is to confirm."""
        return [k for k, r in self.requests(end) if name in r.confirming() and not self.is_decided(k, end)]

    def verdicts(self, name, place):
        checked = Checked(self, name, place)
        return [(path_text(path), checked.verdict(path)) for path in self.log[place]['request'].asked_of(name)]

    def reasons(self, name, place):
        """The verdicts without the numbers of actions, as a response has them."""
        return [(path, verdict.split(' ')[0]) for path, verdict in self.verdicts(name, place)]

    def claim(self, name):
        """The request that a participant checks next, where there is one."""
        for place in self.owed(name, self.read[name]):
            if place not in self.taken[name]:
                self.taken[name].add(place)
                return place
        return None

    def validate(self, name):
        place = self.claim(name)
        if place is not None:
            self.outbox[name][place] = self.reasons(name, place)

    def reply(self, name, is_lost):
        for place in sorted(self.outbox[name]):
            if not self.is_decided(place, self.read[name]):
                verdicts = self.outbox[name].pop(place)
                if not is_lost:
                    self.hand_in('response', place, by=name, verdicts=verdicts)
                return

    def decision(self, place, end):
        """The mediator's decision by what stands before an end."""
        missing = self.log[place]['request'].confirming()
        for entry in self.log[place + 1:end]:
            if entry['time'] > self.deadline(place):
                return 'timeout ' + ' '.join(missing)
            if entry['kind'] == 'response' and entry['of'] == place and entry['by'] in missing:
                missing.remove(entry['by'])
                for path, verdict in entry['verdicts']:
                    if verdict != 'approve':
                        return 'rejected %s %s %s' % (entry['by'], path, verdict)
                if not missing:
                    return 'approved'
        return None

    def give(self, is_lost):
        for place, _ in self.requests(self.told):
            decision = self.decision(place, self.told)
            if place not in self.given and decision is not None:
                self.given.add(place)
                if not is_lost:
                    self.hand_in('verdict', place, decision=decision)
                return

    def read_next(self, cursors, name):
        cursors[name] = min(cursors[name] + 1, len(self.log))

    def happen(self, word):
        verb, _, rest = word.partition(':')
        if verb == 'advance':
            self.advance(int(rest))
        elif verb == 'mediator':
            self.told = min(self.told + 1, len(self.log))
        elif verb in ('pause', 'wake'):
            (self.paused.add if verb == 'pause' else self.paused.discard)(rest)
        elif verb == 'read':
            self.read_next(self.read, rest)
        elif verb == 'submit':
            self.submit()
        elif verb == 'raw':
            self.submit_raw()
        elif verb == 'validate':
            self.validate(rest)
        elif verb in ('reply', 'lose'):
            self.reply(rest, verb == 'lose')
        else:
            self.give(verb == 'lose-verdict')

    def awake(self):
        """The participants that answer."""
        return self.hosts

    def decides(self):
        """Whether the mediator gives verdicts."""
        return True

    def settle(self):
        """All that is due comes, until nothing more does."""
        before = None
        while before != len(self.log):
            before = len(self.log)
            for host in self.awake():
                name = host['name']
                for place in self.owed(name, len(self.log)):
                    self.hand_in('response', place, by=name, verdicts=self.reasons(name, place))
            end = len(self.log)
            for place, _ in self.requests(end) if self.decides() else []:
                decision = self.decision(place, end)
                if decision is not None:
                    self.hand_in('verdict', place, decision=decision)

    # a job

    def decided_at(self, name, place):
        """Where a request is decided, by what a participant has read."""
        return next((k for k in range(place, self.read[name]) if self.is_decided(place, k + 1)), None)

    def decided_line(self, name, place):
        at = self.decided_at(name, place)
        return 'undecided' if at is None else 'decided at %d' % at

    def late_lines(self, name):
        """A participant's next job three times: polled to its end, polled once, and ended when the participant has read an entry."""
        place = self.claim(name)
        if place is None:
            yield 'no job'
            return
        verdicts = self.verdicts(name, place)
        yield from check_cases.poll_lines(place, verdicts, len(verdicts))
        yield from check_cases.poll_lines(place, verdicts, 1)
        yield self.decided_line(name, place)
        self.read_next(self.read, name)
        decided = self.decided_line(name, place)
        yield decided
        yield from ['answered'] if decided == 'undecided' else ['too late for %d' % place, decided]
        yield 'cancelled %d' % place

    # the report

    def entry_text(self, entry):
        if entry['kind'] == 'request':
            request = entry['request']
            return 'request %s %s to %s' % (request.sender, request.command, ' '.join(request.recipients()))
        if entry['kind'] == 'response':
            return 'response %s for %d %s' % (entry['by'], entry['of'], ' '.join('%s=%s' % v for v in entry['verdicts']))
        return 'tick' if entry['kind'] == 'tick' else 'verdict for %d %s' % (entry['of'], entry['decision'])

    def outcome(self, place):
        end = len(self.log)
        return self.verdict(place, end) or ('expired' if self.is_decided(place, end) else 'undecided')

    def log_lines(self):
        end = len(self.log)
        yield 'entries %d' % end
        for place, entry in enumerate(self.log):
            yield '%d %d %s' % (place, entry['time'], self.entry_text(entry))
        for place, _ in self.requests(end):
            yield 'outcome %d %s' % (place, self.outcome(place))

    def report(self):
        yield from self.log_lines()
        for host in self.hosts:
            yield from self.participant(host['name'])
        yield 'end'
        for host in self.hosts:
            found = ledger.first_inconsistent([roots for _, roots in self.applied(host['name'])])
            yield '%s %s' % ('consistent' if found is None else 'inconsistent', host['name'])

    def clean(self, name):
        return self.clean_before(name, len(self.log))

    def clean_before(self, name, end):
        """The clean place of a participant that has read up to an end."""
        return min([k for k, r in self.requests(end) if name in r.recipients() and not self.is_decided(k, end)] + [end])

    def base_over(self, name, end):
        """The greatest place below which each request that a participant received is decided there, over the entries before an end."""
        received = [k for k, r in self.requests(end) if name in r.recipients()]
        return max(at for at in range(end + 1) if all(self.is_decided_at(k, at, end) for k in received if k < at))

    def is_decided_at(self, place, at, end):
        """By the entries before an end: a verdict before the place, or a time past the decision time there or before."""
        return self.verdict(place, at) is not None or any(e['time'] > self.decision_time(place) for e in self.log[:min(at + 1, end)])

    def base(self, name):
        """Where a participant was pruned to, or the first place."""
        return self.pruned.get(name, 0)

    def applied(self, name):
        for place, request in self.approved(len(self.log), self.clean(name)):
            if request.roots(name):
                yield place, request.roots(name)

    def withheld(self, name):
        """The approved requests below the clean place that the participant ought to see and doesn't."""
        return self.withheld_in(name, self.clean(name))

    def withheld_in(self, name, most):
        return [place for place, request in self.approved(len(self.log), most) if request.is_withheld(name)]

    def participant(self, name):
        clean = self.clean(name)
        yield 'participant %s clean %d time %d' % (name, clean, self.log[clean - 1]['time'] if clean else 0)
        if name in self.pruned:
            yield 'pruned %d' % self.pruned[name]
        for place in self.withheld(name):
            if place >= self.base(name):
                yield 'withheld %d' % place
        for place, roots in self.applied(name):
            if place >= self.base(name):
                yield 'commit %d' % place
                yield from tree_lines(roots)
        for place, contract in self.active(name, clean, len(self.log)):
            yield 'active %d %s' % (place, instance_text(contract['instance']))


WORDS = {'mediator', 'verdict', 'lose-verdict', 'submit', 'raw', 'advance', 'read', 'validate', 'reply', 'lose', 'pause', 'wake'}


def case_lines(script, words, late=None):
    """The report that events leave, or what is told of the job of the participant that comes too late."""
    words = words.split(',')
    settles = words[-1] == 'settle'
    words = words[:-1] if settles else words
    given = script['rounds'][0]
    if (not {word.partition(':')[0] for word in words} <= WORDS or words.count('submit') > len(given.get('submits', []))
            or words.count('raw') > len(given.get('raw', []))):
        return ['no events']
    if sum(int(word[8:]) for word in words if word.startswith('advance:')) > MOST_TIME:
        return ['too late']
    world = World(script)
    for word in words:
        world.happen(word)
    if late is not None:
        return list(world.late_lines(late))
    if settles:
        world.settle()
    return list(world.report())
