"""What a participant keeps, as a state apart from it, and its spelling as bytes.

A state is a dictionary: `me`, a number; `base`, `base_time`; `paused`; `active`, triples of a place, a salt and an instance; `gone`, ids that
ascend; `items`; `outbox`, responses; `done`, places that ascend. An item is a pair of a time and of None, ('request', a dictionary) or
('verdict', a verdict). A request has `sender`, `command`, `root`, the paths `seen` and `confirmed`, and `envelope`, bytes or None.
"""
import struct

import terms
from messages import MessageReader, path_bytes, response_bytes, verdict_bytes

VERSION = 1


# --- writing

def counted(form, write, listed):
    """The number of what is listed, and each in turn."""
    return struct.pack(form, len(listed)) + b''.join(map(write, listed))


def row_bytes(row):
    place, salt, instance = row
    return struct.pack('>Q', place) + salt + terms.instance_bytes(instance)


def request_bytes(request):
    envelope = request['envelope']
    return (bytes([request['sender']]) + terms.name_bytes(request['command']) + request['root']
            + counted('>H', path_bytes, request['seen']) + counted('>H', path_bytes, request['confirmed'])
            + (b'\0' if envelope is None else b'\1' + struct.pack('>I', len(envelope)) + envelope))


def item_bytes(item):
    time, what = item
    if what is None:
        return struct.pack('>Q', time) + b'\0'
    kind, held = what
    return struct.pack('>Q', time) + (b'\1' + request_bytes(held) if kind == 'request' else b'\2' + verdict_bytes(held))


def state_bytes(state):
    return (struct.pack('>BBQQB', VERSION, state['me'], state['base'], state['base_time'], state['paused'])
            + counted('>I', row_bytes, state['active'])
            + counted('>I', bytes, state['gone'])
            + counted('>I', item_bytes, state['items'])
            + counted('>I', response_bytes, state['outbox'])
            + counted('>I', lambda place: struct.pack('>Q', place), state['done']))


# --- reading

class StateReader(MessageReader):
    def listed(self, size, read):
        return [read() for _ in range(self.count(size, 256 ** size - 1))]

    def ascending(self, read):
        listed = []
        for _ in range(self.count(4, 256 ** 4 - 1)):
            listed.append(self.above(listed, read))
        return listed

    def row(self):
        place = self.u64()
        salt = self.take(32)
        return place, salt, self.instance()

    def envelope(self):
        return self.take(self.count(4, 256 ** 4 - 1)) if self.tag((0, 1)) else None

    def request(self):
        request = {'sender': self.participant(), 'command': self.name(), 'root': self.take(32)}
        request['seen'] = self.listed(2, self.path)
        request['confirmed'] = self.listed(2, self.path)
        request['envelope'] = self.envelope()
        return request

    def item(self):
        time = self.u64()
        tag = self.tag((0, 1, 2))
        return time, None if tag == 0 else ('request', self.request()) if tag == 1 else ('verdict', self.verdict())

    def state(self):
        self.tag((VERSION,))
        state = {'me': self.participant(), 'base': self.u64(), 'base_time': self.u64(), 'paused': self.tag((0, 1)) == 1}
        state['active'] = self.listed(4, self.row)
        state['gone'] = self.ascending(lambda: self.take(32))
        state['items'] = self.listed(4, self.item)
        state['outbox'] = self.listed(4, self.response)
        state['done'] = self.ascending(self.u64)
        return state


def read_state(data):
    """The state that all of the bytes spell."""
    reader = StateReader(data)
    state = reader.state()
    if reader.at < len(data):
        raise terms.Bad(reader.at)
    return state


# --- what a participant of a run keeps

def kept(world, name):
    """The state of a participant of whom no response waits, pruned to its base, over what it has read. Nothing there is rejected or timed out."""
    base, end = world.base(name), world.read[name]
    created, consumed = world.status(name, base, end)
    rows = [(place, node['seed'], node['action']['instance']) for cid, (place, node) in created.items() if cid not in consumed]
    done = [place for place, _ in world.requests(end) if place >= base and world.response(name, place) is not None]
    return {
        'me': [host['name'] for host in world.hosts].index(name), 'base': base, 'base_time': world.log[base - 1]['time'] if base else 0,
        'paused': name in world.paused, 'active': rows, 'gone': sorted(consumed), 'items': [item_of(world, name, at) for at in range(base, end)],
        'outbox': [], 'done': done}


def item_of(world, name, at):
    """What the entry at a place is to a participant."""
    entry = world.log[at]
    request = world.log[entry.get('of', at)].get('request')
    if entry['kind'] not in ('request', 'verdict') or name not in request.recipients():
        return entry['time'], None
    if entry['kind'] == 'verdict':
        return entry['time'], ('verdict', (entry['of'], (entry['decision'],)))
    return entry['time'], ('request', {
        'sender': [host['name'] for host in world.hosts].index(request.sender), 'command': request.command, 'root': request.root,
        'seen': request.listed(name), 'confirmed': request.asked_of(name), 'envelope': request.envelopes.get(name)})
