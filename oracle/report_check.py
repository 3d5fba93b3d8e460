"""Whether the report of a run fits the rules, whatever number of workers the run had and in whatever order they worked.

The entries are taken one after another, and each is tried against those before it: its place and time; of a Tick that its round moves
the time; of a request that it is the next raw one, at the beginning of its round, or that a result says that it was sent and what its
participant may have read gives it; of a raw request that has no entry, that it is refused at its step; of a response its
verdicts, of a verdict its decision, that neither comes twice or too late, and that it may stand in a round in which its participant
isn't paused, or which doesn't hold verdicts. Before an entry of a later part of a round nothing was due any more at some place, nor is at
the end. Where a first part ends the script's rules were asked, and what they caused stands in order at the beginning of the second part.
Each refusal has its cause. A participant that restarts is pruned to its base at some place where the part before can end. All that the report
says below its results is then worked out again from the entries, and of the ledger what audit.py says.
"""
import audit
import ledger
import rules
import trees
import world_cases
from framed import is_framed, read_raw
from hosting import confirmed
from received import Received


class Misfit(Exception):
    """A line that breaks a rule, and which."""


def want(holds, line, why):
    if not holds:
        raise Misfit('%s: %s' % (line, why))


def parts_of(round_):
    """A round's first part, and its second, in which no time passes and no raw request comes."""
    return [round_, {key: round_[key] for key in ('paused', 'hold_verdicts') if key in round_}]


class Report(world_cases.World):
    """A log that is read from the report of a script's run, whose requests may need so many places of the log and whose rules are told of so."""

    def __init__(self, script, capacity, told):
        world_cases.World.__init__(self, {**script, 'rounds': [{'submits': []}]})
        self.parts, self.capacity, self.times, self.begun = [part for round_ in script['rounds'] for part in parts_of(round_)], capacity, [], {}
        self.spans, self.part, self.part_place, self.raw_parts = [], 0, 0, {}
        self.raws = [(number, raw) for number, part in enumerate(self.parts) for raw in part.get('raw', [])]
        self.rules, self.told_of_rules, self.fired, self.asked, self.asked_at = script.get('triggers', []), told, {}, 0, 0
        now = 0
        for part in self.parts:
            now += part.get('advance', 0)
            self.times.append(now)

    def with_tick(self):
        """The parts that move the time."""
        return [number for number, part in enumerate(self.parts) if part.get('advance', 0)]

    def span_entries(self, lines, results):
        """The parts in which each entry may stand, by the requests and Ticks before and behind it."""
        sent = {result['sent']: result['part'] for result in results}
        ticks, known = iter(self.with_tick()), []
        for place, line in enumerate(lines):
            _, _, kind, *rest = line.split(' ')
            known.append(self.parts_of_request(sent.get(place), rest) if kind == 'request' else [next(ticks, 0)] if kind == 'tick' else [])
        firsts, lasts, first, last = [], [], 0, len(self.parts) - 1
        for parts in known:
            first = max([first] + parts[:1])
            firsts.append(first)
        for parts in reversed(known):
            last = min([last] + parts[-1:])
            lasts.append(last)
        self.spans = list(zip(firsts, reversed(lasts)))

    def parts_of_request(self, sent, rest):
        """The part of the result that tells of a request, or those that have such a raw one."""
        return [sent] if sent is not None else [number for number, raw in self.raws if [raw['participant'], raw['command']] == rest[:2]]

    def parts_here(self):
        """The parts in which the next entry may stand."""
        first, last = self.spans[len(self.log)]
        return self.parts[first:last + 1]

    def goes_on(self, line, number, is_begin=False):
        """The next entry is of this part, perhaps its first, in front of which nothing was due at some place."""
        if number > self.part:
            ends = range(len(self.log) if is_begin else self.part_place, len(self.log) + 1)
            want(any(self.is_settled(self.parts[number - 1], end) for end in ends), line, 'more was due in the part before it')
        self.part, self.part_place = number, len(self.log) + 1

    # entries

    def entry(self, line, results):
        place, time, kind, *rest = line.split(' ')
        want(int(place) == len(self.log), line, 'its place is another')
        if kind != 'tick':
            want(int(time) == self.next_time(), line, 'it comes a microsecond after the entry before it')
        getattr(self, 'read_' + kind)(line, int(time), rest, results)

    def read_tick(self, line, time, rest, results):
        ticked, with_tick = len(self.begun), self.with_tick()
        want(ticked < len(with_tick), line, 'no round moves the time here')
        self.pass_raws(line, with_tick[ticked])
        self.goes_on(line, with_tick[ticked], True)
        want(time == max(self.times[with_tick[ticked]], self.next_time()), line, 'it has the time of its round')
        self.begun[with_tick[ticked]] = len(self.log)
        self.append('tick', time)

    def read_request(self, line, time, rest, results):
        name, command = rest[:2]
        result = next((r for r in results if r['sent'] == len(self.log)), None)
        if result is None:
            self.read_raw(line, rest)
            return
        want((name, command) == (result['name'], result['command']), line, 'its result is another submission\'s')
        want(not self.stands(name, command), line, 'its command stands already')
        want(name not in self.parts[result['part']].get('paused', []), line, 'its participant is paused')
        self.has_begun(line, result['part'])
        self.pass_raws(line, result['part'] + 1)
        self.goes_on(line, result['part'])
        self.ask_rules(line, (result['part'] + 1) // 2, results)
        wanted = [request for request in self.wanted(result, len(self.log)) if isinstance(request, Received)]
        want(wanted, line, 'nothing that its participant can have read gives it')
        want(rest == [name, command, 'to'] + wanted[0].recipients(), line, 'its recipients are others')
        self.append('request', request=wanted[0])

    def read_raw(self, line, rest):
        """The next raw request that isn't refused, behind its part's Tick and its other raw ones."""
        while self.raws and ([self.raws[0][1]['participant'], self.raws[0][1]['command']] != rest[:2] or self.refuses_next()):
            self.pass_raw(line)
        want(self.raws, line, 'no result says that it was sent, and no raw request is like it')
        number, raw = self.raws.pop(0)
        self.has_begun(line, number)
        last = len(self.log) - 1
        is_next = self.begun.get(number) == last or self.raw_parts.get(last) == number
        is_first = not self.parts[number].get('advance', 0) and (number > self.part or last < 0)
        want(is_next or is_first, line, 'it stands elsewhere than at the beginning of its round')
        self.goes_on(line, number, True)
        request = Received(self.script, self.packages, read_raw(raw))
        want(rest[2:] == ['to'] + request.recipients(), line, 'its recipients are others')
        self.raw_parts[len(self.log)] = number
        self.append('request', request=request)

    def refuses_next(self):
        """Whether the log refuses the next raw request."""
        raw = self.raws[0][1]
        return (self.stands(raw['participant'], raw['command']) or not is_framed(self.script, read_raw(raw))
                or self.reserved()[-1] + 2 + len(raw['confirming']) > self.capacity)

    def pass_raw(self, line):
        """The next raw request is refused."""
        want(self.refuses_next(), line, 'the raw request %s stands before it' % self.raws[0][1]['command'])
        self.raws.pop(0)

    def pass_raws(self, line, before):
        """So are all before a part."""
        while self.raws and self.raws[0][0] < before:
            self.pass_raw(line)

    def has_begun(self, line, number):
        """The Ticks up to its part stand before it, and no others."""
        due = {at for at, part in enumerate(self.parts[:number + 1]) if part.get('advance', 0)}
        want(set(self.begun) == due, line, 'it stands in another round')

    def wanted(self, result, end):
        """What the submission wants over all that its participant may have read by then: a request, or the word of a refusal."""
        name, submission = result['name'], result['submission']
        if not set(submission['act_as']) <= set(confirmed(self.host(name))):
            return ['NotHosted']
        found = []
        for read in self.reads(result, end):
            known = [contract for _, contract in self.active(name, read, read)]
            try:
                found.append(world_cases.wanted(self, submission, self.times[result['part']], known))
            except ledger.Refused as refused:
                found.append(refused.line.split(' ')[0])
            except trees.NoViews:
                found.append('NoRoles')
        return found

    def reads(self, result, end):
        """How much the participant of a submission may have read by an end: all that stood, where a rule caused it."""
        if 'read' in result:
            return [result['read']]
        raws = [place + 1 for place, number in self.raw_parts.items() if number <= result['part']]
        start = max([result['after']] + raws + [k + 1 for n, k in self.begun.items() if n <= result['part']])
        return range(end, start - 1, -1)

    def read_response(self, line, time, rest, results):
        name, place = rest[0], int(rest[2])
        want(place < len(self.log) and self.log[place]['kind'] == 'request', line, 'it answers no request')
        want(name in self.log[place]['request'].confirming(), line, 'its participant is not asked')
        want(self.response(name, place) is None, line, 'its participant has answered')
        want(any(name not in part.get('paused', []) for part in self.parts_here()), line, 'its participant is paused')
        want(time <= self.decision_time(place), line, 'it comes too late')
        verdicts = self.reasons(name, place)
        want(rest[3:] == ['%s=%s' % v for v in verdicts], line, 'its verdicts are others: %s' % verdicts)
        self.append('response', by=name, of=place, verdicts=verdicts)

    def read_verdict(self, line, time, rest, results):
        place, decision = int(rest[1]), ' '.join(rest[2:])
        want(place < len(self.log) and self.log[place]['kind'] == 'request', line, 'it decides no request')
        want(self.verdict(place, len(self.log)) is None, line, 'the request has a verdict')
        want(any(not part.get('hold_verdicts', False) for part in self.parts_here()), line, 'its round holds verdicts')
        want(time <= self.decision_time(place), line, 'it comes too late')
        want(decision == self.decision(place, len(self.log)), line, 'the mediator decides otherwise')
        self.append('verdict', of=place, decision=decision)

    # rules

    def ask_rules(self, line, count, results):
        """The rules of so many rounds are asked, each round's where its first part ends."""
        for number in range(self.asked, count):
            caused = [result for result in results if result['part'] == 2 * number + 1]
            asked = ((end, self.firings(number, end)) for end in self.first_ends(number, caused))
            end, firings = next((each for each in asked if each[1] is not None), (0, None))
            want(firings is not None, line, 'rules fire otherwise in round %d' % number)
            self.cause(line, end, firings, caused)
            paused = self.parts[2 * number].get('paused', [])
            self.read.update((host['name'], end) for host in self.hosts if host['name'] not in paused)
            self.asked, self.asked_at = number + 1, end

    def first_ends(self, number, caused):
        """Where a round's first part can end: where what rules caused stands, or where nothing is due."""
        sent = [result['sent'] for result in caused if result['sent'] is not None]
        ends = [end for end in self.ends(2 * number) if end >= self.asked_at]
        return [end for end in sent[:1] or ends if end in ends and self.is_settled(self.parts[2 * number], end)]

    def ends(self, part):
        """Where a part can end, by what stands in it and behind it."""
        least = max([0] + [place + 1 for place, (_, last) in enumerate(self.spans) if last <= part])
        most = min([len(self.log)] + [place for place, (first, _) in enumerate(self.spans) if first > part])
        return range(least, most + 1)

    # restarts

    def begins(self, number):
        """Where a round can begin."""
        return [end for end in self.ends(2 * number - 1) if self.is_settled(self.parts[2 * number - 1], end)] if number else [0]

    def prune(self, name, told):
        """A participant is pruned to its base where the last round begins that restarts it, and the report tells this line or none."""
        restarts = [number for number, part in enumerate(self.parts[::2]) if name in part.get('restart', [])]
        want((told is not None) == bool(restarts), told or name, 'its base is told exactly where it restarted')
        if told is not None:
            bases = {self.base_over(name, at) for at in self.begins(restarts[-1])}
            self.pruned[name] = int(told.split(' ')[1])
            want(self.pruned[name] in bases, told, 'its base is one of %s' % sorted(bases))

    def firings(self, number, end):
        """What each rule fires on where a round's first part has this end, if the report says so. A paused participant may have read less."""
        found = []
        for rule in self.rules:
            name = rule['participant']
            reads = self.reads_of_rule(name, number, end)
            told = [line for one, line in self.told_of_rules[number] if one is rule]
            fitting = (each for each in (self.firings_of(number, rule, read) for read in reads) if [line for line, _ in each] == told)
            found.append(next(fitting, None))
        firings = [firing for each in found for firing in each or []]
        return firings if None not in found and [line for line, _ in firings] == [line for _, line in self.told_of_rules[number]] else None

    def reads_of_rule(self, name, number, end):
        """How much a participant may have read when a round's rules are asked: less than all, where it is paused."""
        part = self.parts[2 * number]
        if name not in part.get('paused', []):
            return [end]
        return self.begins(number) if name in part.get('restart', []) else range(self.read[name], end + 1)

    def firings_of(self, number, rule, read):
        """The lines of what a rule fires on in a round whose participant has read so much, each with the rule and the contract."""
        fired = self.fired.get(rule['name'], [])
        due = enumerate(rules.due(self, rule, read, fired), len(fired))
        return [(rules.fired_line(number, rule, contract, fires), (rule, contract)) for fires, contract in due]

    def cause(self, line, end, firings, caused):
        """What rules cause from an end on: its requests stand first in the second part, in order, and each has been read by all that come behind."""
        sent = 0
        for (_, (rule, contract)), result in zip(firings, caused):
            fired = self.fired.setdefault(rule['name'], [])
            result.update(submission=rules.submission(rule, contract, len(fired)), read=end + sent)
            fired.append(contract['id'])
            want(result['sent'] in (None, result['read']), line, 'what rules caused stands elsewhere than at the beginning of its part')
            sent += result['sent'] is not None

    # results

    def result(self, line, result):
        paused = result['name'] in self.parts[result['part']].get('paused', [])
        word, *rest = result['answer']
        want((word == 'refused' and rest[0] == 'Paused') == paused, line, 'it is Paused exactly where the round says so')
        if word == 'sent':
            place = int(rest[0])
            want(place < len(self.log) and self.log[place]['kind'] == 'request', line, 'no request stands there')
        elif rest[0] == 'Duplicate':
            request = self.log[int(rest[1])].get('request')
            want(request is not None and (request.sender, request.command) == (result['name'], result['command']), line, 'no such command stands there')
        elif rest[0] == 'LogFull':
            reserved, need = int(rest[1]), int(rest[2])
            want(reserved + need > self.capacity and reserved in self.reserved(), line, 'the log had room')
            want(need in [self.need(r) for r in self.wanted(result, len(self.log)) if isinstance(r, Received)], line, 'it needs other room')
        elif not paused:
            want(rest[0] in self.wanted(result, len(self.log)), line, 'nothing that its participant can have read refuses it so')

    def need(self, request):
        """How many places of the log a request may need."""
        return 2 + len(request.confirming())

    def reserved(self):
        """How many places the requests needed that stood at some time."""
        sums = [0]
        for _, request in self.requests(len(self.log)):
            sums.append(sums[-1] + self.need(request))
        return sums

    def is_settled(self, part, end):
        """Whether nothing more is due over the entries before an end, by the rules of a part."""
        whole, self.log = self.log, self.log[:end]
        for host in self.hosts:
            name = host['name']
            for place in [] if name in part.get('paused', []) else self.owed(name, end):
                self.hand_in('response', place, by=name, verdicts=[])
        for place, _ in [] if part.get('hold_verdicts', False) else self.requests(end):
            decision = self.decision(place, end)
            if decision is not None:
                self.hand_in('verdict', place, decision=decision)
        settled, self.log = len(self.log) == end, whole
        return settled


def told_of_rules(script, lines):
    """The lines that say on what rules fired, by rounds, each with its rule."""
    named, told = {rule['name']: rule for rule in script.get('triggers', [])}, [[] for _ in script['rounds']]
    first = sum(line.startswith('result ') for line in lines)
    given = [line for line in lines if line.startswith('fired ')]
    want(given == lines[first:first + len(given)], 'fired', 'they stand behind the results')
    for line in given:
        _, number, name, _ = line.split(' ', 3)
        want(int(number) < len(told) and name in named, line, 'there is no such round or no such rule')
        told[int(number)].append((named[name], line))
    want(given == [line for each in told for _, line in each], 'fired', 'they stand in the order of rounds')
    return told


def told_bases(lines):
    """The line behind that of each participant which says where it was pruned to, or None."""
    pairs = [(line.split(' ')[1], after) for line, after in zip(lines, lines[1:]) if line.startswith('participant ')]
    return {name: after if after.startswith('pruned ') else None for name, after in pairs}


def submitted(script, told):
    """What is submitted in each part, of which rules say only later what it asks for."""
    for number, round_ in enumerate(script['rounds']):
        yield from ((2 * number, submission) for submission in round_.get('submits', []))
        for rule, line in told[number]:
            yield 2 * number + 1, {'participant': rule['participant'], 'command': line.rsplit(' ', 1)[1]}


def results_of(script, lines, told):
    """The results of the report, each with its submission and with the place behind the participant's request before it in the part."""
    wanted = list(submitted(script, told))
    given = [line for line in lines if line.startswith('result ')]
    want(len(given) == len(wanted), 'results', 'there is one for each submission')
    want(given == lines[:len(given)], 'results', 'they stand behind the entries')
    found, behind = [], {}
    for line, (part, submission) in zip(given, wanted):
        _, round_, name, command, *answer = line.split(' ')
        want((int(round_), name, command) == (part // 2, submission['participant'], submission['command']), line, 'it is the next submission\'s')
        sent, after = int(answer[1]) if answer[0] == 'sent' else None, behind.get((part, name), 0)
        if sent is not None:
            behind[part, name] = sent + 1
        found.append((line, {'part': part, 'name': name, 'command': command, 'submission': submission, 'answer': answer, 'sent': sent,
                             'after': after}))
    return found


def misfit(script, text, capacity=20_480):
    """What breaks a rule in the report of a script's run, whose requests may need so many places of the log; None where nothing does."""
    lines = text.split('\n')[:-1]
    try:
        count = int(lines[0].split(' ')[1])
        told = told_of_rules(script, lines[count + 1:])
        report = Report(script, capacity, told)
        results = results_of(script, lines[count + 1:], told)
        report.span_entries(lines[1:count + 1], [result for _, result in results])
        for line in lines[1:count + 1]:
            report.entry(line, [result for _, result in results])
        report.ask_rules('end', len(script['rounds']), [result for _, result in results])
        for line, result in results:
            report.result(line, result)
        report.pass_raws('end', len(report.parts))
        sent = sum(result['sent'] is not None for _, result in results)
        want(sent + len(report.raw_parts) == len(report.requests(count)), 'results', 'each request is sent by one, or a raw one')
        want(report.is_settled(report.parts[-1] if report.parts else {}, count), 'end', 'more was due')
        for name, line in told_bases(lines[count + 1:]).items():
            report.prune(name, line)
        below = [line for line in report.report() if not line.startswith(('consistent ', 'inconsistent '))][count + 1:]
        rest = [line for line in lines[count + 1:] if not line.startswith(('result ', 'fired '))]
        apart = next((pair for pair in zip(rest, below) if pair[0] != pair[1]), ('more or fewer lines', ''))
        want(rest == below, apart[0], 'it has to be %s' % apart[1])
        unlike = audit.unlike(report)
        want(unlike is None, 'end', unlike)
    except Misfit as misfit_:
        return str(misfit_)
    return None
