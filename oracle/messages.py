"""Paths, responses and verdicts, and their spelling as bytes.

A path is a list of steps. Participants and requests are numbers: a place in the topology, and one in the log. A response is a triple of its
sender, its request, and the verdicts on views. Each of these is a pair of a path and None for an approval, or of a path and a pair of a reason
and the number of an action. A verdict is a pair of its request and a decision: ('approved',), ('rejected', participant, path, reason) or
('timeout', participants).
"""
import struct

from terms import Bad, Reader

REASONS = ('IdMismatch', 'NotVetted', 'TimeSkew', 'Locked', 'Inactive', 'NotFresh', 'Unordered', 'NotConformant', 'NotAuthorised',
           'RootMismatch', 'ViewMissing', 'WrongSender', 'WrongCommon')  # in order of their numbers, from 1 on


# --- writing

def path_bytes(path):
    return bytes([len(path)]) + b''.join(struct.pack('>H', step) for step in path)


def reason_bytes(reason):
    return bytes([REASONS.index(reason) + 1])


def view_verdict_bytes(verdict):
    path, rejection = verdict
    if rejection is None:
        return path_bytes(path) + b'\0'
    reason, action = rejection
    return path_bytes(path) + b'\1' + reason_bytes(reason) + struct.pack('>H', action)


def response_bytes(response):
    sender, request, verdicts = response
    return struct.pack('>BQH', sender, request, len(verdicts)) + b''.join(map(view_verdict_bytes, verdicts))


def decision_bytes(decision):
    if decision[0] == 'approved':
        return b'\0'
    if decision[0] == 'rejected':
        _, participant, path, reason = decision
        return bytes([1, participant]) + path_bytes(path) + reason_bytes(reason)
    return bytes([2, len(decision[1])]) + bytes(decision[1])


def verdict_bytes(verdict):
    request, decision = verdict
    return struct.pack('>Q', request) + decision_bytes(decision)


# --- reading

class MessageReader(Reader):
    """Reads messages, in which no participant's number is above a greatest one."""

    def __init__(self, data, at=0, most=255):
        Reader.__init__(self, data, at)
        self.most = most

    def u64(self):
        return int.from_bytes(self.take(8), 'big')

    def above(self, last, read):
        """What is read, which has to stand above the last before it."""
        here = self.at
        this = read()
        if last and this <= last[-1]:
            raise Bad(here)
        return this

    def participant(self):
        return self.count(1, self.most)

    def path(self):
        return [self.count(2, 0xffff) for _ in range(self.count(1, 16))]

    def reason(self):
        return REASONS[self.tag(range(1, 14)) - 1]

    def view_verdict(self):
        path = self.path()
        if self.tag((0, 1)) == 0:
            return path, None
        reason = self.reason()
        return path, (reason, self.count(2, 0xffff))

    def response(self):
        sender = self.participant()
        request = self.u64()
        return sender, request, [self.view_verdict() for _ in range(self.count(2, 0xffff))]

    def decision(self):
        tag = self.tag((0, 1, 2))
        if tag == 0:
            return ('approved',)
        if tag == 1:
            participant = self.participant()
            path = self.path()
            return 'rejected', participant, path, self.reason()
        missing = []
        for _ in range(self.count(1, 255)):
            missing.append(self.above(missing, self.participant))
        return 'timeout', missing

    def verdict(self):
        request = self.u64()
        return request, self.decision()
