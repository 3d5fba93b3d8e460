"""Values, instances and actions, and their spelling as bytes.

A value is a pair of a kind and what it holds: ('Unit', None), ('Int', 3), ('Bool', True), ('Text', 'hi'), ('Party', 'Alice'),
('Contract', 32 bytes), ('Parties', a sorted list). An instance is (package, template, values), and an action a dictionary.
"""
import re
import struct

NAME = re.compile(rb'[A-Za-z][A-Za-z0-9_-]{0,31}\Z')
UNIT = ('Unit', None)


class Bad(Exception):
    """Bytes that can't be read, with the place of the first field that can't."""

    def __init__(self, at):
        Exception.__init__(self, at)
        self.at = at


# --- text

def value_text(value):
    kind, held = value
    if kind == 'Unit':
        return '()'
    if kind == 'Bool':
        return 'true' if held else 'false'
    if kind == 'Text':
        return '"%s"' % escaped(held)
    if kind == 'Contract':
        return '#' + held.hex()
    if kind == 'Parties':
        return '[%s]' % ','.join(held)
    return str(held)


def escaped(text):
    return ''.join('\\x%02x' % ord(c) if ord(c) < 32 or ord(c) == 127 or c in '"\\' else c for c in text)


def instance_text(instance):
    package, template, fields = instance
    return '%s.%s(%s)' % (package, template, ','.join(map(value_text, fields)))


def action_text(action):
    about = instance_text(action['instance'])
    if action['kind'] == 'create':
        return 'create ' + about
    actors = ','.join(action['actors'])
    if action['kind'] == 'fetch':
        return 'fetch %s by %s' % (about, actors)
    return '%s %s %s(%s) by %s = %s' % (
        'consume' if action['consuming'] else 'exercise', about, action['choice'],
        ','.join(map(value_text, action['args'])), actors, value_text(action['result']))


# --- writing

def name_bytes(name):
    return bytes([len(name)]) + name.encode()


def set_bytes(parties):
    return struct.pack('>H', len(parties)) + b''.join(map(name_bytes, parties))


def value_bytes(value):
    kind, held = value
    if kind == 'Unit':
        return b'\0'
    if kind == 'Int':
        return b'\1' + struct.pack('>q', held)
    if kind == 'Bool':
        return b'\2' + bytes([held])
    if kind == 'Text':
        text = held.encode()
        return b'\3' + struct.pack('>H', len(text)) + text
    if kind == 'Party':
        return b'\4' + name_bytes(held)
    if kind == 'Contract':
        return b'\5' + held
    return b'\6' + set_bytes(held)


def values_bytes(values):
    return bytes([len(values)]) + b''.join(map(value_bytes, values))


def instance_bytes(instance):
    package, template, fields = instance
    return name_bytes(package) + name_bytes(template) + values_bytes(fields)


def action_bytes(action):
    if action['kind'] == 'create':
        return b'\1' + action['id'] + instance_bytes(action['instance'])
    front = action['id'] + action['salt'] + instance_bytes(action['instance'])
    if action['kind'] == 'fetch':
        return b'\3' + front + set_bytes(action['actors'])
    return (b'\2' + front + name_bytes(action['choice']) + values_bytes(action['args']) + set_bytes(action['actors'])
            + bytes([action['consuming']]) + value_bytes(action['result']))


# --- reading

class Reader:
    """Reads fields from bytes; each fault is at the first byte of its field."""

    def __init__(self, data, at=0):
        self.data, self.at = data, at

    def take(self, count):
        if self.at + count > len(self.data):
            raise Bad(self.at)
        self.at += count
        return self.data[self.at - count:self.at]

    def tag(self, among):
        here = self.at
        tag = self.take(1)[0]
        if tag not in among:
            raise Bad(here)
        return tag

    def count(self, size, most):
        here = self.at
        count = int.from_bytes(self.take(size), 'big')
        if count > most:
            raise Bad(here)
        return count

    def name(self, above=None):
        here = self.at
        try:
            name = self.take(self.take(1)[0])
        except Bad:
            raise Bad(here)
        if not NAME.match(name) or (above is not None and name.decode() <= above):
            raise Bad(here)
        return name.decode()

    def parties(self):
        parties = []
        for _ in range(self.count(2, 128)):
            parties.append(self.name(parties[-1] if parties else None))
        return parties

    def value(self):
        tag = self.tag(range(7))
        if tag == 0:
            return UNIT
        if tag == 1:
            return ('Int', struct.unpack('>q', self.take(8))[0])
        if tag == 2:
            return ('Bool', self.tag((0, 1)) == 1)
        if tag == 3:
            size = self.count(2, 256)
            here = self.at
            try:
                return ('Text', self.take(size).decode())
            except UnicodeDecodeError:
                raise Bad(here)
        if tag == 4:
            return ('Party', self.name())
        if tag == 5:
            return ('Contract', self.take(32))
        return ('Parties', self.parties())

    def values(self):
        return [self.value() for _ in range(self.count(1, 12))]

    def instance(self):
        package = self.name()
        template = self.name()
        return (package, template, self.values())

    def action(self):
        tag = self.tag((1, 2, 3))
        action = {'kind': ('create', 'exercise', 'fetch')[tag - 1], 'id': self.take(32)}
        if tag != 1:
            action['salt'] = self.take(32)
        action['instance'] = self.instance()
        if tag == 2:
            action['choice'] = self.name()
            action['args'] = self.values()
        if tag != 1:
            action['actors'] = self.parties()
        if tag == 2:
            action['consuming'] = self.tag((0, 1)) == 1
            action['result'] = self.value()
        return action
