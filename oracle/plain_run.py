"""The report of a script that one thread runs, and its commitments: in each round some participants restart; then come the Tick, the raw
requests, the submissions in order, and passes until one appends nothing; then what rules cause, in order, and passes again."""
import commitments
import ledger
import rules
import trees
import world_cases
from framed import is_framed, read_raw
from hosting import confirmed, hosted
from received import Received


class Run(world_cases.World):
    """A run of a script, whose requests may need so many places of the log."""

    def __init__(self, script, capacity):
        world_cases.World.__init__(self, {**script, 'rounds': [{}]})
        self.rounds, self.capacity, self.results = script['rounds'], capacity, []
        self.rules, self.fired, self.fired_lines = script.get('triggers', []), {}, []
        for number, round_ in enumerate(self.rounds):
            self.paused, self.is_held = set(round_.get('paused', [])), round_.get('hold_verdicts', False)
            self.restart(round_.get('restart', []))
            self.advance(round_.get('advance', 0))
            for raw in round_.get('raw', []):
                self.take(raw)
            self.answer_each(number, round_.get('submits', []))
            self.answer_each(number, [submission for rule in self.rules for submission in self.caused(number, rule)])

    def restart(self, names):
        """These participants read to the end, paused or not, and forget what is below their base."""
        for name in names:
            self.read[name], self.pruned[name] = len(self.log), self.base_over(name, len(self.log))

    def answer_each(self, number, submissions):
        """Takes submissions of a round, and all that is due comes. Who isn't paused has read all of it then."""
        for submission in submissions:
            told = 'result %d %s %s ' % (number, submission['participant'], submission['command'])
            self.results.append(told + self.answer(submission))
        self.settle()
        for host in self.awake():
            self.read[host['name']] = len(self.log)

    def caused(self, number, rule):
        """What a rule asks for in a round."""
        fired = self.fired.setdefault(rule['name'], [])
        for contract in list(rules.due(self, rule, self.read[rule['participant']], fired)):
            self.fired_lines.append(rules.fired_line(number, rule, contract, len(fired)))
            yield rules.submission(rule, contract, len(fired))
            fired.append(contract['id'])

    def refusal(self, sender, command, confirming):
        """Why the log refuses a framed request, or None."""
        place = next((k for k, r in self.requests(len(self.log)) if (r.sender, r.command) == (sender, command)), None)
        spent = sum(2 + len(request.confirming()) for _, request in self.requests(len(self.log)))
        if place is not None:
            return 'refused Duplicate %d' % place
        return 'refused LogFull %d %d' % (spent, 2 + len(confirming)) if spent + 2 + len(confirming) > self.capacity else None

    def take(self, raw):
        request = read_raw(raw)
        if is_framed(self.script, request) and self.refusal(raw['participant'], raw['command'], raw['confirming']) is None:
            self.append('request', request=Received(self.script, self.packages, request))

    def answer(self, submission):
        name = submission['participant']
        stranger = next((party for party in sorted(set(submission['act_as'])) if party not in confirmed(self.host(name))), None)
        if name in self.paused or stranger is not None:
            return 'refused Paused' if name in self.paused else 'refused NotHosted ' + stranger
        try:
            known = [contract for _, contract in self.active(name, len(self.log), len(self.log))]
            request = world_cases.wanted(self, submission, self.now, known)
        except ledger.Refused as refused:
            return 'refused ' + refused.line.split(' ')[0]
        except trees.NoViews:
            return 'refused NoRoles'
        why = self.refusal(name, request.command, request.confirming())
        if why is None:
            self.append('request', request=request)
        return why or 'sent %d' % (len(self.log) - 1)

    def awake(self):
        return [host for host in self.hosts if host['name'] not in self.paused]

    def decides(self):
        return not self.is_held

    def report(self):
        lines = list(world_cases.World.report(self))
        end = lines.index('end')
        return lines[:1 + len(self.log)] + self.results + self.fired_lines + lines[1 + len(self.log):end + 1]


    def shared(self, name, other, place):
        """The ids of the contracts that are active for a participant at a place and of which another hosts a stakeholder."""
        of_other = set(hosted(self.host(other)))
        for _, contract in self.active(name, place, len(self.log)):
            if of_other & set(ledger.union(*self.packages.stakeholders(contract['instance']))):
                yield contract['id']

    def pair(self, name, other):
        place, base = min(self.clean(name), self.clean(other)), max(self.base(name), self.base(other))
        if place < base:
            return 'pair %s %s pruned %d' % (name, other, base)
        mine, theirs = list(self.shared(name, other, place)), list(self.shared(other, name, place))
        bucket = commitments.first_difference(set(mine), set(theirs))
        told = 'equal' if bucket is None else 'differ %d' % bucket
        return 'pair %s %s at %d count %d %d %s' % (name, other, place, len(mine), len(theirs), told)

    def commitments(self):
        names = [host['name'] for host in self.hosts]
        return [self.pair(name, other) for at, name in enumerate(names) for other in names[at + 1:]] + ['end']


def report(script, capacity=20_480):
    return ''.join(line + '\n' for line in Run(script, capacity).report())


def commitments_text(script, capacity=20_480):
    return ''.join(line + '\n' for line in Run(script, capacity).commitments())
