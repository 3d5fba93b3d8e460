"""What the layer bench of crates/layer_cases has to write of hashes, bytes and scripts."""
import hashlib
import json

import commitments
import ledger
import terms
import trees
from hosting import hosted
from language import Packages
from tree_cases import transaction_of

LONG, SHORT = bytes([90]) * 167, b''
# the seeds of the transaction and of its two actions, the id of the contract, a salt and a hash for each of six leaves, and two views
REQUEST_HASHES = 3 + 1 + 6 + 6 + 2


def last_hash(count, instance):
    """Each hash is the id of a contract whose salt is the one before."""
    last = bytes(32)
    for _ in range(count):
        last = hashlib.sha256(b'\1' + last + instance).digest()
    return last.hex()


def ids_of(count):
    """Ids, each the hash of the one before."""
    ids = [bytes(32)]
    for _ in range(count):
        ids.append(hashlib.sha256(b'\1' + ids[-1]).digest())
    return ids[1:]


def commit_line(count):
    """The last root of a tree to which ids were added, and the root of no ids."""
    return '%s %s' % (commitments.root(ids_of(count)).hex(), commitments.root([]).hex())


def buckets_line(count):
    """For each id that is added, and for each that is taken out, a string as long as a bucket's and eight as long as a node's."""
    last, counts = bytes(32), [0] * 256
    for by in (1, -1):
        for one in ids_of(count):
            counts[one[0]] += by
            made = hashlib.sha256(b'\1' + last + bytes(max(0, 32 * counts[one[0]] - 28))).digest()
            for _ in range(8):
                made = hashlib.sha256(b'\1' + made + last).digest()
            last = made
    return '%d hashes alone %s' % (count * 2 * (1 + 8), last.hex())


def digits(actions):
    """The words that spell actions."""
    return ' '.join(terms.action_bytes(action).hex() for action in actions)


def wire_line(count, actions):
    size = sum(len(terms.action_bytes(actions[at % 2])) for at in range(count))
    return '%d bytes, %d actions, the same bytes again' % (size, count)


def request_bytes(script):
    """The bytes of the last request of a script, to its recipients and to the mediator."""
    packages, known = Packages(script['packages']), []
    for round_ in script['rounds']:
        submission = round_['submits'][0]
        seed, by, roots = transaction_of(packages, known, submission)
        for _, node in ledger.preorder(roots):
            if node['action']['kind'] == 'create':
                known.append({'id': node['action']['id'], 'salt': node['seed'], 'instance': node['action']['instance']})
    views, sender = trees.split(packages, roots), submission['participant']
    common, requesters = trees.common_leaf(sender, 0, seed), trees.requesters_leaf(by, seed)
    informees = {party for view in trees.all_views(views) for party in view['informees']}
    size = len(trees.envelope(common, requesters, views, None, False))
    for host in script['participants']:
        if host['name'] == sender or set(hosted(host)) & informees:
            size += len(trees.envelope(common, requesters, views, hosted(host), host['name'] == sender))
    return size


def request_line(script, count):
    return '%d bytes, %d hashes' % (count * request_bytes(script), count * REQUEST_HASHES)


def script_line(text):
    script = json.loads(text)
    return '%d bytes, %d submissions' % (len(text.encode()), sum(len(r.get('submits', [])) for r in script['rounds']))
