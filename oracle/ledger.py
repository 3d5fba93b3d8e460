"""Transactions: how commands and prepared trees become trees of actions, and what the rules of the ledger say of them.

A node of a tree is a dictionary with `seed`, `action` and `children`.
"""
import hashlib
import struct

from language import Fault, evaluate, literal
from terms import action_bytes, instance_bytes, value_bytes, values_bytes


def sha(*parts):
    return hashlib.sha256(b''.join(parts)).digest()


def contract_id(salt, instance):
    return sha(b'\1', salt, instance_bytes(instance))


def child_seed(seed, index):
    return sha(b'\2', seed, struct.pack('>I', index))


def root_seed(participant, command):
    return sha(b'\3', *(bytes([len(n)]) + n.encode() for n in (participant, command)))


def label_seed(label):
    participant, command, path = label[1:].split(':')
    seed = root_seed(participant, command)
    for step in path.split('.'):
        seed = child_seed(seed, int(step))
    return seed


class Refused(Exception):
    """Why there is no transaction: a word and a place."""

    def __init__(self, word, place):
        Exception.__init__(self, word)
        self.line = '%s %s' % (word, '.'.join(map(str, place)) if isinstance(place, list) else place)


def union(*sets):
    return sorted(set().union(*map(set, sets)))


def preorder(nodes, above=()):
    for at, node in enumerate(nodes):
        yield list(above) + [at], node
        yield from preorder(node['children'], list(above) + [at])


# --- commands

class Transaction:
    """What one submission does: the contracts that it creates and consumes, and how many actions it has."""

    def __init__(self, packages, known):
        self.packages, self.known = packages, known
        self.created, self.spent, self.count = [], set(), 0

    def resolved(self, reference, root):
        """The id that a reference names."""
        if not reference.startswith('#'):
            return bytes.fromhex(reference)
        salt = label_seed(reference)
        for contract in self.known:
            if contract['salt'] == salt:
                return contract['id']
        raise Refused('ContractUnknown', [root])

    def argument(self, form, root):
        if isinstance(form, dict) and 'contract' in form:
            return ('Contract', self.resolved(form['contract'], root))
        return literal(form)

    def usable(self, cid, template, path):
        if cid not in self.spent:
            for contract in self.known + self.created:
                if contract['id'] == cid:
                    instance = contract['instance']
                    if '%s.%s' % instance[:2] == template and self.packages.is_typed(instance):
                        return contract
                    break
        raise Refused('ContractUnknown', path)

    def begin(self, path):
        if len(path) > 16:
            raise Refused('TooDeep', path)
        if self.count == 64:
            raise Refused('TooMany', path)
        self.count += 1

    def evaluated(self, path, call):
        try:
            return call()
        except Fault as fault:
            raise Refused(str(fault), path)

    def create(self, path, seed, template, fields, by):
        self.begin(path)
        instance = tuple(template.split('.')) + (fields,)
        signatories, _ = self.evaluated(path, lambda: self.created_parties(instance))
        if not set(signatories) <= set(by):
            raise Refused('Unauthorised', path)
        cid = contract_id(seed, instance)
        self.created.append({'id': cid, 'salt': seed, 'instance': instance})
        return {'seed': seed, 'children': [], 'action': {'kind': 'create', 'id': cid, 'instance': instance}}

    def created_parties(self, instance):
        return created_parties(self.packages, instance)

    def exercise(self, path, seed, template, cid, choice, args, by):
        self.begin(path)
        contract = self.usable(cid, template, path)
        instance, declared = contract['instance'], self.packages.choice(template, choice)
        names = self.packages.arguments(instance, declared, args)
        actors = self.evaluated(path, lambda: controllers(declared, names, args))
        if not actors or not set(actors) <= set(by):
            raise Refused('Unauthorised', path)
        if declared['consuming']:
            self.spent.add(cid)
        signatories, _ = self.evaluated(path, lambda: self.packages.stakeholders(instance))
        node = {'seed': seed, 'children': [], 'action': {
            'kind': 'exercise', 'id': cid, 'salt': contract['salt'], 'instance': instance, 'choice': choice, 'args': args,
            'actors': actors, 'consuming': declared['consuming']}}
        names['self'] = ('Contract', cid)
        self.body(declared.get('body', []), names, node, path, union(actors, signatories))
        node['action']['result'] = self.evaluated(path, lambda: result_of(declared, names))
        return node

    def fetch(self, path, seed, template, cid, by):
        self.begin(path)
        contract = self.usable(cid, template, path)
        parties = self.evaluated(path, lambda: self.packages.stakeholders(contract['instance']))
        actors = [p for p in union(*parties) if p in by]
        if not actors:
            raise Refused('Unauthorised', path)
        return {'seed': seed, 'children': [], 'action': {
            'kind': 'fetch', 'id': cid, 'salt': contract['salt'], 'instance': contract['instance'], 'actors': actors}}

    def body(self, statements, names, node, path, by):
        for statement in statements:
            (word, form), = statement.items()
            if word == 'let':
                names[form[0]] = self.evaluated(path, lambda: evaluate(form[1], names))
            elif word == 'assert':
                if not self.evaluated(path, lambda: evaluate(form, names))[1]:
                    raise Refused('Assert', path)
            elif word == 'when':
                side = 'then' if self.evaluated(path, lambda: evaluate(form['if'], names))[1] else 'else'
                self.body(form.get(side, []), dict(names), node, path, by)
            else:
                self.child(word, form, names, node, path, by)

    def child(self, word, form, names, node, path, by):
        at = len(node['children'])
        below, seed = path + [at], child_seed(node['seed'], at)
        if word == 'create':
            fields = self.evaluated(path, lambda: [evaluate(f, names) for f in form['fields']])
            child = self.create(below, seed, form['template'], fields, by)
            names[form['bind']] = ('Contract', child['action']['id'])
        elif word == 'exercise':
            cid = self.evaluated(path, lambda: evaluate(form['contract'], names))[1]
            args = self.evaluated(path, lambda: [evaluate(a, names) for a in form['args']])
            child = self.exercise(below, seed, form['template'], cid, form['choice'], args, by)
            names[form['bind']] = child['action']['result']
        else:
            cid = self.evaluated(path, lambda: evaluate(form['contract'], names))[1]
            child = self.fetch(below, seed, form['template'], cid, by)
            for name, value in self.packages.fields(child['action']['instance']).items():
                names[form['bind'] + name[len('this'):]] = value
        node['children'].append(child)

    def command(self, root, seed, form, by):
        (word, form), = form.items()
        template = self.packages.template(form['template'])
        if template is None:
            raise Refused('UnknownTemplate', root)
        declared = template['fields']
        if word == 'exercise':
            choice = self.packages.choice(form['template'], form['choice'])
            if choice is None:
                raise Refused('UnknownChoice', root)
            declared = choice.get('params', [])
        given = form['fields' if word == 'create' else 'args']
        if [kind_of(g) for g in given] != [d['type'] for d in declared]:
            raise Refused('BadArgs', root)
        values = [] if word == 'exercise' else [self.argument(g, root) for g in given]
        if word == 'create':
            return self.create([root], seed, form['template'], values, by)
        cid = self.resolved(form['contract'], root)
        values = [self.argument(g, root) for g in given]
        return self.exercise([root], seed, form['template'], cid, form['choice'], values, by)


def kind_of(form):
    return 'Contract' if isinstance(form, dict) and 'contract' in form else literal(form)[0]


def created_parties(packages, instance):
    """The parties of a contract that is created: size, ensure, signatories, observers."""
    if len(instance_bytes(instance)) > 1024:
        raise Fault('TooLarge')
    template = packages.templates[instance[:2]]
    if not evaluate(template.get('ensure', True), packages.fields(instance))[1]:
        raise Fault('Ensure')
    return packages.stakeholders(instance)


def controllers(choice, names, args):
    """The controllers, after the size of the arguments and before the choice observers."""
    if len(values_bytes(args)) > 1024:
        raise Fault('TooLarge')
    actors = evaluate(choice['controllers'], names)[1]
    evaluate(choice.get('observers', ['set']), names)
    return actors


def result_of(choice, names):
    result = evaluate(choice.get('result'), names)
    if len(value_bytes(result)) > 1024:
        raise Fault('TooLarge')
    return result


def interpreted(packages, known, seed, by, commands):
    """The root nodes that commands ask for."""
    transaction = Transaction(packages, known)
    roots = [transaction.command(at, child_seed(seed, at), form, by) for at, form in enumerate(commands)]
    return within_size(roots)


def within_size(roots):
    size = encoded_size(roots)
    if size > 32768:
        raise Refused('TooBig', size)
    return roots


def encoded_size(roots):
    return sum(32 + len(action_bytes(node['action'])) for _, node in preorder(roots))


# --- prepared trees

class Filling(Transaction):
    """A prepared tree with its seeds and ids."""

    def draft(self, path, seed, form):
        (word, form), = form.items()
        self.begin(path)
        if word == 'create':
            instance = tuple(form['template'].split('.')) + ([self.argument(f, path[0]) for f in form['fields']],)
            return {'seed': seed, 'children': [], 'action': {
                'kind': 'create', 'id': contract_id(seed, instance), 'instance': instance}}
        contract = self.input(form['contract'], path)
        action = dict(contract, kind=word, actors=sorted(set(form['actors'])))
        node = {'seed': seed, 'children': [], 'action': action}
        if word == 'exercise':
            action.update(choice=form['choice'], args=[self.argument(a, path[0]) for a in form['args']],
                          consuming=form['consuming'], result=self.argument(form['result'], path[0]))
            for at, child in enumerate(form['children']):
                node['children'].append(self.draft(path + [at], child_seed(seed, at), child))
        return node

    def input(self, form, path):
        if 'known' in form:
            cid = self.resolved(form['known'], path[0])
            for contract in self.known:
                if contract['id'] == cid:
                    return contract
            raise Refused('ContractUnknown', path)
        salt, spelled = bytes.fromhex(form['salt']), form['instance']
        instance = tuple(spelled['template'].split('.')) + ([self.argument(f, path[0]) for f in spelled['fields']],)
        cid = contract_id(salt, instance) if form['id'] is None else self.resolved(form['id'], path[0])
        return {'id': cid, 'salt': salt, 'instance': instance}


def filled(packages, known, seed, drafts):
    filling = Filling(packages, known)
    return within_size([filling.draft([at], child_seed(seed, at), form) for at, form in enumerate(drafts)])


# --- rules

class NoRoles(Exception):
    pass


def roles(packages, action):
    """The signatories, the observers, the actors and the informees of an action."""
    instance, actors = action['instance'], action.get('actors', [])
    try:
        if not packages.is_typed(instance):
            raise NoRoles
        signatories, observers = packages.stakeholders(instance)
        if action['kind'] == 'create':
            return signatories, observers, [], union(signatories, observers)
        if action['kind'] == 'fetch':
            return signatories, observers, actors, union(signatories, actors)
        choice = packages.choice('%s.%s' % instance[:2], action['choice'])
        if choice is None or not packages.has_kinds(action['args'], choice.get('params', [])):
            raise NoRoles
        more = evaluate(choice.get('observers', ['set']), packages.arguments(instance, choice, action['args']))[1]
        told = union(signatories, observers) if action['consuming'] else signatories
        return signatories, observers, actors, union(told, actors, more)
    except Fault:
        raise NoRoles


def conforms(packages, node):
    """Whether a node is possible in the model with all that stands below it."""
    action = node['action']
    instance = action['instance']
    if not packages.is_typed(instance):
        return False
    try:
        if action['kind'] == 'create':
            created_parties(packages, instance)
            return True
        if action['kind'] == 'fetch':
            return True
        choice = packages.choice('%s.%s' % instance[:2], action['choice'])
        if choice is None or not packages.has_kinds(action['args'], choice.get('params', [])):
            return False
        names = packages.arguments(instance, choice, action['args'])
        if controllers(choice, names, action['args']) != action['actors'] or choice['consuming'] != action['consuming']:
            return False
        names['self'] = ('Contract', action['id'])
        left = list(node['children'])
        if not follows(packages, choice.get('body', []), names, left) or left:
            return False
        return result_of(choice, names) == action['result']
    except Fault:
        return False


def follows(packages, statements, names, left):
    """Whether the children that are left begin with what statements do; those that do are taken away."""
    for statement in statements:
        (word, form), = statement.items()
        if word == 'let':
            names[form[0]] = evaluate(form[1], names)
        elif word == 'assert':
            if not evaluate(form, names)[1]:
                return False
        elif word == 'when':
            side = 'then' if evaluate(form['if'], names)[1] else 'else'
            if not follows(packages, form.get(side, []), dict(names), left):
                return False
        elif not left or not is_child(packages, word, form, names, left.pop(0)):
            return False
    return True


def is_child(packages, word, form, names, child):
    action = child['action']
    if action['kind'] != word or '%s.%s' % action['instance'][:2] != form['template']:
        return False
    if word == 'create':
        if action['instance'][2] != [evaluate(f, names) for f in form['fields']] or not conforms(packages, child):
            return False
        names[form['bind']] = ('Contract', action['id'])
        return True
    if ('Contract', action['id']) != evaluate(form['contract'], names):
        return False
    if word == 'exercise':
        args = [evaluate(a, names) for a in form['args']]
        if action['choice'] != form['choice'] or action['args'] != args or not conforms(packages, child):
            return False
        names[form['bind']] = action['result']
        return True
    if not conforms(packages, child):
        return False
    for name, value in packages.fields(action['instance']).items():
        names[form['bind'] + name[len('this'):]] = value
    return True


def is_authorised(packages, node, by):
    """Whether a node and what stands below it are authorised."""
    action = node['action']
    signatories, observers, actors, _ = roles(packages, action)
    if action['kind'] == 'create':
        return set(signatories) <= set(by)
    if action['kind'] == 'fetch':
        return bool(actors) and set(actors) == set(union(signatories, observers)) & set(by)
    below = union(actors, signatories)
    return bool(actors) and set(actors) <= set(by) and all(is_authorised(packages, c, below) for c in node['children'])


def first_unordered(roots):
    """The path of the first action on a contract that was consumed, or that creates one that was used."""
    consumed, used = set(), set()
    for path, node in preorder(roots):
        action = node['action']
        if action['id'] in consumed or (action['kind'] == 'create' and action['id'] in used):
            return path
        used.add(action['id'])
        if action.get('consuming'):
            consumed.add(action['id'])
    return None


def first_inconsistent(ledger):
    """The commit and the path of the first action that breaks the consistency of a ledger."""
    instances, consumed = {}, set()
    for place, roots in enumerate(ledger):
        for path, node in preorder(roots):
            action = node['action']
            cid, is_create = action['id'], action['kind'] == 'create'
            if is_create == (cid in instances) or cid in consumed or instances.get(cid, action['instance']) != action['instance']:
                return place, path
            instances[cid] = action['instance']
            if action.get('consuming'):
                consumed.add(cid)
    return None


def projection(packages, roots, parties):
    """The topmost actions with an informee among the parties."""
    out = []
    for node in roots:
        if set(roles(packages, node['action'])[3]) & set(parties):
            out.append(node)
        else:
            out += projection(packages, node['children'], parties)
    return out
