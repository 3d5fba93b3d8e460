"""What the layer tree of crates/layer_cases has to write of a script that has no fault."""
import ledger
import trees
from framed import is_framed, read_raw
from hosting import hosted, that_confirm, that_host
from language import Packages
from terms import action_text


def tree_lines(roots, level=1):
    for node in roots:
        yield '  ' * level + action_text(node['action'])
        yield from tree_lines(node['children'], level + 1)


def yes(truth):
    return 'yes' if truth else 'no'


def path_text(path):
    return '.'.join(map(str, path))


def transaction_of(packages, known, submission):
    names = submission.get('seed_of', [submission['participant'], submission['command']])
    seed, by = ledger.root_seed(*names), sorted(set(submission['act_as']))
    if 'commands' in submission:
        return seed, by, ledger.interpreted(packages, known, seed, by, submission['commands'])
    return seed, by, ledger.filled(packages, known, seed, submission['prepared'])


def rule_lines(script, packages, by, roots):
    yield 'bytes %d' % ledger.encoded_size(roots)
    yield 'conforming ' + yes(all(ledger.conforms(packages, root) for root in roots))
    path = ledger.first_unordered(roots)
    yield 'ordered yes' if path is None else 'ordered no ' + path_text(path)
    try:
        for _, node in ledger.preorder(roots):
            ledger.roles(packages, node['action'])
    except ledger.NoRoles:
        yield 'authorised no'
        return
    yield 'authorised ' + yes(all(ledger.is_authorised(packages, root, by) for root in roots))
    for host in script['participants']:
        yield 'projection ' + host['name']
        yield from tree_lines(ledger.projection(packages, roots, hosted(host)))


def view_lines(script, views):
    for view in trees.all_views(views):
        path = path_text(view['path'])
        yield 'view %s %s on %s' % (path, ','.join(view['informees']), ','.join(that_host(script, view['informees'])))
        yield 'confirmed %s %s on %s' % (path, ','.join(view['confirmers']), ','.join(that_confirm(script, view['confirmers'])))


def parties_line(word, view):
    return '%s %s %s %s' % (word, path_text(view['path']), ','.join(view['informees']), ','.join(view['confirmers']))


def opened_lines(script, sender, time, by, views, name, parties):
    if parties is None:
        yield 'told mediator ' + sender
        yield from view_lines(script, views)
        return
    shown = name == sender or any(trees.sees(v, parties) for v in views)
    yield 'opened %s %s %d %s' % (name, sender, time, ','.join(by) if shown else 'hidden')
    for view in trees.topmost(views, parties):
        yield parties_line('opens', view)


def confirming_line(script, views):
    """Who is asked to confirm: who confirms for a confirmer of a view."""
    return ' '.join(['confirming'] + that_confirm(script, {party for view in trees.all_views(views) for party in view['confirmers']}))


def sent_line(name, sender, parties, views):
    """The request has the tree for the mediator, its sender, and who sees a view."""
    informees = {party for view in trees.all_views(views) for party in view['informees']}
    is_sent = parties is None or name == sender or bool(set(parties) & informees)
    return ('sent ' if is_sent else 'not sent ') + name


def envelope_lines(script, submission, seed, by, views):
    yield confirming_line(script, views)
    sender, time = submission['participant'], submission.get('ledger_time', 0)
    common, requesters = trees.common_leaf(sender, time, seed), trees.requesters_leaf(by, seed)
    root = trees.tree_hash(common, requesters, views)
    for name, parties in [(h['name'], hosted(h)) for h in script['participants']] + [('mediator', None)]:
        data = trees.envelope(common, requesters, views, parties, name == sender)
        yield 'envelope %s %s %s' % (name, root.hex(), data.hex())
        yield 'decoded %s yes' % name
        yield sent_line(name, sender, parties, views)
        yield from opened_lines(script, sender, time, by, views, name, parties)


def submission_lines(script, packages, known, commits, submission):
    yield 'submission %s %s' % (submission['participant'], submission['command'])
    try:
        seed, by, roots = transaction_of(packages, known, submission)
    except ledger.Refused as refused:
        yield 'refused ' + refused.line
        return
    commits.append(roots)
    yield from tree_lines(roots)
    yield from rule_lines(script, packages, by, roots)
    for _, node in ledger.preorder(roots):
        if node['action']['kind'] == 'create':
            known.append({'id': node['action']['id'], 'salt': node['seed'], 'instance': node['action']['instance']})
    try:
        views = trees.split(packages, roots)
    except trees.NoViews as none:
        yield 'no roles ' + path_text(none.path)
        return
    yield from envelope_lines(script, submission, seed, by, views)


def raw_lines(script, raw):
    yield 'raw %s %s' % (raw['participant'], raw['command'])
    yield ' '.join(['confirming'] + raw['confirming'])
    yield 'mediator ' + raw['mediator'].lower()
    for name, digits in raw['envelopes']:
        yield 'to %s %s' % (name, digits.lower())
    yield 'framed ' + yes(is_framed(script, read_raw(raw)))


def script_lines(script):
    packages, known, commits = Packages(script.get('packages', [])), [], []
    for round_ in script['rounds']:
        for submission in round_.get('submits', []):
            yield from submission_lines(script, packages, known, commits, submission)
        for raw in round_.get('raw', []):
            yield from raw_lines(script, raw)
    found = ledger.first_inconsistent(commits)
    yield 'ledger consistent' if found is None else 'ledger inconsistent %d %s' % (found[0], path_text(found[1]))
