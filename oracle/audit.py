"""What holds of every genuine log where no two strings that are hashed have one hash, tried of a log whose requests anybody may have made.

The ledger is the approved requests in order of places, each as the complete envelopes show it together. It is consistent, conformant and
authorised, and the requesters are the sender's; each participant's log is its hosted parties' projection of it without the places withheld
from it, and its active contracts are those with a hosted stakeholder; and what a rejection names is so in the ledger.
"""
import ledger
import trees
from hosting import confirmed, hosted
from received import is_authentic
from tree_cases import path_text


def unlike(world):
    """What a log breaks of this, or None."""
    return next(faults(world), None)


def faults(world):
    end = len(world.log)
    whole = {place: request.commit() for place, request in world.approved(end, end)}
    if None in whole.values():
        yield 'an approved request is not whole'
        return
    yield from commit_faults(world, whole)
    for host in world.hosts:
        yield from part_faults(world, whole, host)
    yield from cause_faults(world, whole)


def commit_faults(world, whole):
    if ledger.first_inconsistent([roots for _, roots in whole.values()]) is not None:
        yield 'the ledger is inconsistent'
    for place, (by, roots) in whole.items():
        if not set(by) <= set(confirmed(world.host(world.log[place]['request'].sender))):
            yield 'the commit %d was not requested by its sender' % place
        if not all(ledger.conforms(world.packages, root) for root in roots):
            yield 'the commit %d is not conformant' % place
        elif not all(ledger.is_authorised(world.packages, root, by) for root in roots):
            yield 'the commit %d is not authorised' % place


def part_faults(world, whole, host):
    """A participant's log is a projection without what is withheld, and its active contracts are those of these commits."""
    name, parties = host['name'], hosted(host)
    known = {place: roots for place, (_, roots) in whole.items() if place < world.clean(name) and place not in world.withheld(name)}
    projected = [(place, ledger.projection(world.packages, roots, parties)) for place, roots in known.items()]
    if [each for each in projected if each[1]] != list(world.applied(name)):
        yield 'the log of %s is no projection' % name
    created, consumed = changes(known)
    active = [(place, cid) for cid, (place, instance) in created.items() if cid not in consumed and is_hosted(world, instance, parties)]
    if active != [(place, contract['id']) for place, contract in world.active(name, world.clean(name), len(world.log))]:
        yield 'the active contracts of %s are others' % name


def is_hosted(world, instance, parties):
    return bool(set(ledger.union(*world.packages.stakeholders(instance))) & set(parties))


def changes(commits):
    """What authentic actions of commits create, each contract with its place and its instance, and what they consume."""
    created, consumed = {}, set()
    for place, roots in commits.items():
        for _, node in ledger.preorder(roots):
            if not is_authentic(node):
                continue
            if node['action']['kind'] == 'create':
                created.setdefault(node['action']['id'], (place, node['action']['instance']))
            elif node['action'].get('consuming'):
                consumed.add(node['action']['id'])
    return created, consumed


def cause_faults(world, whole):
    """What a response names of a contract is so in the ledger; one that is told to be inactive may be active where something is withheld."""
    for entry in world.log:
        if entry['kind'] == 'response':
            place, name = entry['of'], entry['by']
            for path, reason in entry['verdicts']:
                if reason in CAUSES and not CAUSES[reason](world, whole, place, name, core(world.log[place]['request'], name, path)):
                    yield 'the cause of %s for %d %s is not so' % (name, place, path)


def core(request, name, path):
    """The actions of a view's core, as a participant is shown it."""
    return next(view['nodes'] for view in trees.all_views(request.seen(name)) if path_text(view['path']) == path)


def status(whole, place):
    return changes({at: roots for at, (_, roots) in whole.items() if at < place})


def is_locked(world, whole, place, name, nodes):
    """A contract is locked by a request before the place that isn't decided there, in a complete envelope to anybody."""
    locked = set()
    for at, request in world.requests(place):
        if world.verdict(at, place) is None and world.log[place]['time'] <= world.decision_time(at):
            for host in world.hosts:
                created, consumed = changes({at: request.roots(host['name'])})
                locked |= set(created) | consumed
    return any(node['action']['id'] in locked for node in nodes)


def is_inactive(world, whole, place, name, nodes):
    created, consumed = status(whole, place)
    is_missed = any(at < place for at in world.withheld_in(name, len(world.log)))
    used = [node['action']['id'] for node in nodes if node['action']['kind'] != 'create']
    return any(is_missed or cid not in created or cid in consumed for cid in used)


def is_not_fresh(world, whole, place, name, nodes):
    created, consumed = status(whole, place)
    return any(node['action']['kind'] == 'create' and node['action']['id'] in set(created) | consumed for node in nodes)


CAUSES = {'Locked': is_locked, 'Inactive': is_inactive, 'NotFresh': is_not_fresh}
