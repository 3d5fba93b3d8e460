"""What a page of a run has to show at each place, worked out of the script: of each participant its clean place, its contracts, the requests
that it received and its verdicts on them, for whom the mediator waits, and why requests weren't approved."""
import plain_run
import trees
from terms import action_text, instance_text
from world_cases import Checked


class Facts(plain_run.Run):
    """The facts of a run at the place where so many entries were read."""

    def received(self, name, end):
        return [(k, request) for k, request in self.requests(end) if name in request.recipients()]

    def clean(self, name, end):
        """The clean place and its time."""
        place = next((k for k, _ in self.received(name, end) if not self.is_decided(k, end)), end)
        return place, self.log[place - 1]['time'] if place else 0

    def withheld(self, name, end):
        place, _ = self.clean(name, end)
        return [k for k, request in self.approved(end, place) if request.is_withheld(name)]

    def held(self, name, end):
        """The contracts that an undecided request creates or consumes."""
        changes = [node['action'] for k, request in self.requests(end) if not self.is_decided(k, end) for node in request.acts(name)]
        return {action['id'] for action in changes if action['kind'] == 'create' or action.get('consuming')}

    def contracts(self, name, end):
        """Each contract of which an approved request tells: its instance, whether it is consumed, locked, and an active one of its own."""
        created, consumed = self.status(name, end, end)
        texts = {node['action']['id']: instance_text(node['action']['instance']) for _, request in self.requests(end) for node in request.acts(name)}
        own = {contract['id'] for _, contract in self.active(name, end, end)}
        held = self.held(name, end)
        return sorted((texts[id_], id_ in consumed, id_ in held, id_ in own) for id_ in set(created) | consumed)

    def outcome(self, place, end):
        words = {'approved': 'approved', 'rejected': 'rejected', 'timeout': 'timed out'}
        decision = self.verdict(place, end)
        if decision is not None:
            return words[decision.split(' ')[0]]
        return 'expired' if self.is_decided(place, end) else 'undecided'

    def outcomes(self, name, end):
        return {k: self.outcome(k, end) for k, _ in self.received(name, end)}

    def duty(self, name, place, end):
        """What it owes to a request that asks it, or where it answered."""
        at = next((k for k, e in enumerate(self.log[:end]) if e['kind'] == 'response' and e['by'] == name and e['of'] == place), None)
        if at is not None:
            return 'answered at place %d' % at
        return 'not answered' if self.is_decided(place, end) else 'owes'

    def duties(self, name, end):
        return {k: self.duty(name, k, end) if name in request.confirming() else 'owes nothing' for k, request in self.received(name, end)}

    def waiting(self, end):
        """The requests without a verdict, with their deadlines and those who haven't responded."""
        by = {(e['by'], e['of']) for e in self.log[:end] if e['kind'] == 'response'}
        return {k: (self.deadline(k), [name for name in request.confirming() if (name, k) not in by])
                for k, request in self.requests(end) if self.verdict(k, end) is None}

    def refusals(self, end, reader=None):
        """Of each request that wasn't approved what it became, as a report says it, and what shows the reason of its rejection. To a reader that of
        the requests that it received, and what shows its own reasons alone."""
        told = self.requests(end) if reader is None else self.received(reader, end)
        became = {k: self.verdict(k, end) or self.outcome(k, end) for k, _ in told}
        return {k: (said, self.shown_by(k, said, reader)) for k, said in became.items() if said not in ('approved', 'undecided')}

    def shown_by(self, place, said, reader):
        """The number of the action in its view's core, the view's path, and the action as whoever rejects is shown it."""
        word, *rest = said.split(' ')
        if word != 'rejected' or reader not in (None, rest[0]):
            return None
        name, path, _ = rest
        steps, request = [int(step) for step in path.split('.')], self.log[place]['request']
        number = int(Checked(self, name, place).verdict(steps).split(' ')[1])
        cores = [view['nodes'] for view in trees.all_views(request.seen(name)) if view['path'] == steps]
        return number, path, action_text(cores[0][number]['action']) if cores else None
