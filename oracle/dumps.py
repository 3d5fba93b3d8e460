"""Dumps, a script's bytes with a log: as bytes and back, and what an audit says of them.

An entry is a triple of its time, its kind, and what it brings: None for a Tick; a request as those of raws.py; a response or a verdict as
those of messages.py.
"""
import json
import re
import struct

import messages
import plain_run
import world_cases
from framed import is_framed
from received import Received
from terms import Bad
from tree_cases import path_text

KINDS = ('tick', 'request', 'response', 'verdict')  # in order of their tags


# --- writing

def block(data):
    return struct.pack('>I', len(data)) + data


def name_bytes(name):
    return bytes([len(name)]) + name.encode()


def request_bytes(request, names):
    """A request, whose participants are numbers in the order of these names."""
    number = names.index
    confirming = [number(name) for name in request['confirming']]
    envelopes = [bytes([number(name)]) + block(data) for name, data in request['envelopes']]
    return (bytes([number(request['participant'])]) + name_bytes(request['command']) + bytes([len(confirming)]) + bytes(confirming)
            + block(request['mediator']) + bytes([len(envelopes)]) + b''.join(envelopes))


def entry_bytes(entry, names):
    time, kind, what = entry
    spelled = {'tick': lambda: b'', 'request': lambda: request_bytes(what, names), 'response': lambda: messages.response_bytes(what),
               'verdict': lambda: messages.verdict_bytes(what)}
    return struct.pack('>QB', time, KINDS.index(kind)) + spelled[kind]()


def dump_bytes(script, entries):
    """The dump of a script's bytes and a log."""
    names = [host['name'] for host in json.loads(script)['participants']]
    return block(script) + struct.pack('>I', len(entries)) + b''.join(entry_bytes(entry, names) for entry in entries)


# --- the log of a run

def verdict_of(told):
    reason, _, action = told.partition(' ')
    return None if reason == 'approve' else (reason, int(action))


def steps_of(path):
    return [int(step) for step in path.split('.')]


def decision_of(told, names):
    word, *more = told.split(' ')
    if word == 'rejected':
        return word, names.index(more[0]), steps_of(more[1]), more[2]
    return (word, [names.index(name) for name in more]) if word == 'timeout' else (word,)


def entries_of(world):
    """The log of a run of one thread."""
    names = [host['name'] for host in world.hosts]
    for entry in world.log:
        kind = entry['kind']
        if kind == 'tick':
            what = None
        elif kind == 'request':
            what = entry['request'].raw
        elif kind == 'response':
            told = world.verdicts(entry['by'], entry['of'])
            what = names.index(entry['by']), entry['of'], [(steps_of(path), verdict_of(verdict)) for path, verdict in told]
        else:
            what = entry['of'], decision_of(entry['decision'], names)
        yield entry['time'], kind, what


def log_of(script, capacity=20_480):
    """The log of a run of a script by one thread."""
    return list(entries_of(plain_run.Run(json.loads(script), capacity)))


# --- reading

class DumpReader(messages.MessageReader):
    """Reads the entries of a dump, whose participants have these names."""

    def __init__(self, data, at, names):
        messages.MessageReader.__init__(self, data, at, len(names) - 1)
        self.names = names

    def block(self):
        return self.take(self.count(4, 0xffffffff))

    def who(self):
        return self.names[self.participant()]

    def envelope(self):
        return self.who(), self.block()

    def request(self):
        sender, command = self.who(), self.name()
        confirming = [self.who() for _ in range(self.count(1, 255))]
        mediator = self.block()
        return {'participant': sender, 'command': command, 'confirming': confirming, 'mediator': mediator,
                'envelopes': [self.envelope() for _ in range(self.count(1, 255))]}

    def entry(self):
        time, kind = self.u64(), KINDS[self.tag(range(4))]
        return time, kind, None if kind == 'tick' else getattr(self, kind)()

    def log(self):
        entries = [self.entry() for _ in range(self.count(4, 0xffffffff))]
        if self.at < len(self.data):
            raise Bad(self.at)
        return entries


def script_of(data):
    try:
        script = json.loads(data)
    except ValueError:
        raise Bad(4)
    if not isinstance(script, dict):
        raise Bad(4)
    return script


def read_dump(data):
    """The script and the log of a dump whose script has no fault but that it may be no JSON object."""
    reader = messages.MessageReader(data)
    script = script_of(reader.take(reader.count(4, 0xffffffff)))
    return script, DumpReader(data, reader.at, [host['name'] for host in script['participants']]).log()


# --- judging

class Judge(world_cases.World):
    """Reads a log entry by entry, and says of each why it doesn't fit those before it."""

    def __init__(self, script):
        world_cases.World.__init__(self, {**script, 'rounds': [{}]})
        self.names, self.rules, self.used = [host['name'] for host in self.hosts], script.get('triggers', []), set()

    def read_entry(self, entry):
        """The first case that it shows, or None where it shows none and is read."""
        time, kind, what = entry
        if (time <= self.next_time() - 1) if kind == 'tick' else time != self.next_time():
            return 'Time'
        if kind == 'tick':
            self.append(kind, time)
            return None
        return getattr(self, 'read_' + kind)(time, what)

    def read_request(self, time, request):
        if not is_framed(self.script, request):
            return 'Unframed'
        if self.stands(request['participant'], request['command']):
            return 'Repeated'
        received = Received(self.script, self.packages, request)
        for rule in self.rules:
            if rule['participant'] == received.sender and re.fullmatch('%s-[0-9]+' % re.escape(rule['name']), received.command):
                use = rule['name'], exercised(received.commit(), rule['party'])
                if use[1] is None or use in self.used:
                    return 'WrongTrigger'
                self.used.add(use)
        self.append('request', time, request=received)
        return None

    def asked(self, place):
        """Who is asked by the request at a place, or None where none stands there."""
        return self.log[place]['request'].confirming() if place < len(self.log) and self.log[place]['kind'] == 'request' else None

    def read_response(self, time, response):
        sender, place, verdicts = response
        name = self.names[sender]
        if self.response(name, place) is not None:
            return 'Repeated'
        if name not in (self.asked(place) or []):
            return 'NoRequest'
        if time > self.decision_time(place):
            return 'TooLate'
        told = [(path_text(path), 'approve' if verdict is None else '%s %d' % verdict) for path, verdict in verdicts]
        if told != self.verdicts(name, place):
            return 'WrongCheck'
        self.append('response', time, of=place, by=name, verdicts=self.reasons(name, place))
        return None

    def read_verdict(self, time, verdict):
        place, decision = verdict
        if self.verdict(place, len(self.log)) is not None:
            return 'Repeated'
        if self.asked(place) is None:
            return 'NoRequest'
        if time > self.decision_time(place):
            return 'TooLate'
        told = self.decision(place, len(self.log))
        if told is None or decision_of(told, self.names) != decision:
            return 'WrongDecision'
        self.append('verdict', time, of=place, decision=told)
        return None


def exercised(commit, party):
    """The contract that a transaction's one root exercises, where its requesters are the party alone."""
    if commit is None or commit[0] != [party] or len(commit[1]) != 1:
        return None
    action = commit[1][0]['action']
    return action['id'] if action['kind'] == 'exercise' else None


def audit(data):
    """The line of an audit of a dump whose script has no fault."""
    try:
        script, entries = read_dump(data)
    except Bad as bad:
        return 'bad %d' % bad.at
    judge = Judge(script)
    for place, entry in enumerate(entries):
        why = judge.read_entry(entry)
        if why is not None:
            return 'no %d %s' % (place, why)
    approved = sum(judge.outcome(place) == 'approved' for place, _ in judge.requests(len(entries)))
    return 'yes entries %d approved %d' % (len(entries), approved)
