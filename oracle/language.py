"""Packages as JSON, and the values of expressions. What is read here has no fault of form or of kinds."""
from terms import UNIT

NOTE = {"name": "Note", "templates": [{
    "name": "Note",
    "fields": [{"name": "owner", "type": "Party"}, {"name": "reader", "type": "Party"}, {"name": "text", "type": "Text"}],
    "signatories": ["set", ["var", "this.owner"]],
    "observers": ["set", ["var", "this.reader"]],
    "choices": [{
        "name": "Flash", "consuming": False, "controllers": ["set", ["var", "this.owner"]],
        "body": [
            {"create": {"bind": "x", "template": "Note.Note", "fields": [["var", "this.owner"], ["var", "this.reader"], "flash"]}},
            {"exercise": {"bind": "y", "template": "Note.Note", "contract": ["var", "x"], "choice": "Archive", "args": []}}]}]}]}


class Fault(Exception):
    """A fault of an evaluation, by its word."""


def literal(form):
    """The value that a JSON value other than a list is."""
    if form is None:
        return UNIT
    if isinstance(form, bool):
        return ('Bool', form)
    if isinstance(form, int):
        return ('Int', form)
    if isinstance(form, str):
        return ('Text', form)
    if 'party' in form:
        return ('Party', form['party'])
    return ('Parties', sorted(set(form['parties'])))


def in_range(number):
    if not -2 ** 63 <= number < 2 ** 63:
        raise Fault('Overflow')
    return ('Int', number)


def evaluate(form, names):
    """The value of an expression, its operands from left to right."""
    if not isinstance(form, list):
        return literal(form)
    operator, operands = form[0], form[1:]
    if operator == 'var':
        return names[operands[0]]
    if operator in ('and', 'or'):
        first = evaluate(operands[0], names)
        return first if first[1] == (operator == 'or') else evaluate(operands[1], names)
    if operator == 'if':
        return evaluate(operands[1 if evaluate(operands[0], names)[1] else 2], names)
    return applied(operator, [evaluate(operand, names)[1] for operand in operands], operands, names)


def applied(operator, held, operands, names):
    if operator == 'add':
        return in_range(held[0] + held[1])
    if operator == 'sub':
        return in_range(held[0] - held[1])
    if operator == 'mul':
        return in_range(held[0] * held[1])
    if operator == 'lt':
        return ('Bool', held[0] < held[1])
    if operator == 'le':
        return ('Bool', held[0] <= held[1])
    if operator == 'eq':
        return ('Bool', held[0] == held[1])
    if operator == 'not':
        return ('Bool', not held[0])
    if operator == 'cat':
        if len((held[0] + held[1]).encode()) > 256:
            raise Fault('TooLarge')
        return ('Text', held[0] + held[1])
    if operator == 'set':
        return ('Parties', sorted(set(held)))
    if operator == 'union':
        return ('Parties', sorted(set(held[0]) | set(held[1])))
    return ('Bool', held[1] in held[0])


class Packages:
    """Packages with the built-in one before them, and what is looked up in them."""

    def __init__(self, packages):
        self.templates = {(p['name'], t['name']): t for p in [NOTE] + packages for t in p['templates']}

    def template(self, name):
        return self.templates.get(tuple(name.split('.')))

    def choice(self, name, choice):
        template = self.template(name)
        if choice == 'Archive':
            return {"name": "Archive", "consuming": True, "controllers": template['signatories']}
        return next((c for c in template.get('choices', []) if c['name'] == choice), None)

    def has_kinds(self, values, declared):
        return len(values) == len(declared) and all(v[0] == d['type'] for v, d in zip(values, declared))

    def is_typed(self, instance):
        template = self.templates.get(instance[:2])
        return template is not None and self.has_kinds(instance[2], template['fields'])

    def fields(self, instance):
        template = self.templates[instance[:2]]
        return {'this.' + d['name']: v for d, v in zip(template['fields'], instance[2])}

    def arguments(self, instance, choice, args):
        names = self.fields(instance)
        names.update({'arg.' + d['name']: v for d, v in zip(choice.get('params', []), args)})
        return names

    def stakeholders(self, instance):
        """The signatories and the observers of a contract."""
        template, names = self.templates[instance[:2]], self.fields(instance)
        signatories = evaluate(template['signatories'], names)[1]
        if not signatories:
            raise Fault('NoSignatory')
        return signatories, evaluate(template.get('observers', ['set']), names)[1]


# --- the check of kinds and names

class CheckFault(Exception):
    """The first fault of packages: its kind and its place."""

    def __init__(self, kind, at):
        Exception.__init__(self, kind)
        self.text = 'Package %s %s' % (kind, at)


OPERANDS = {'add': 'Int', 'sub': 'Int', 'mul': 'Int', 'lt': 'Int', 'le': 'Int', 'and': 'Bool', 'or': 'Bool', 'not': 'Bool',
            'cat': 'Text', 'set': 'Party', 'union': 'Parties'}
RESULTS = {'add': 'Int', 'sub': 'Int', 'mul': 'Int', 'cat': 'Text', 'set': 'Parties', 'union': 'Parties'}


def kind_in(form, at, scope):
    """The kind of an expression; each operand is tried before the next is looked at."""
    if not isinstance(form, list):
        return literal(form)[0]
    operator, operands = form[0], form[1:]
    if operator == 'var':
        if operands[0] not in scope:
            raise CheckFault('UnknownName', at)
        return scope[operands[0]]
    if operator == 'eq':
        wanted(operands[1], '%s/2' % at, scope, kind_in(operands[0], '%s/1' % at, scope))
        return 'Bool'
    if operator == 'if':
        wanted(operands[0], '%s/1' % at, scope, 'Bool')
        kind = kind_in(operands[1], '%s/2' % at, scope)
        return wanted(operands[2], '%s/3' % at, scope, kind)
    kinds = ['Parties', 'Party'] if operator == 'has' else [OPERANDS[operator]] * len(operands)
    for place, (operand, kind) in enumerate(zip(operands, kinds)):
        wanted(operand, '%s/%d' % (at, place + 1), scope, kind)
    return RESULTS.get(operator, 'Bool')


def wanted(form, at, scope, kind):
    """The kind of an expression, which has to be this."""
    if kind_in(form, at, scope) != kind:
        raise CheckFault('WrongKind', at)
    return kind


class Check:
    """The walk over packages."""

    def __init__(self):
        self.templates = {}

    def packages(self, packages):
        names = {'Note'}
        self.add(NOTE)
        for at, package in enumerate(packages):
            self.fresh(package['name'], names, '/%d/name' % at)
            self.package(package, '/%d' % at)
            names.add(package['name'])

    def add(self, package):
        self.templates.update({'%s.%s' % (package['name'], t['name']): t for t in package['templates']})

    def fresh(self, name, names, at):
        if name in names:
            raise CheckFault('DuplicateName', at)

    def distinct(self, declared, at):
        names = set()
        for place, item in enumerate(declared):
            self.fresh(item['name'], names, '%s/%d/name' % (at, place))
            names.add(item['name'])

    def package(self, package, at):
        self.distinct(package['templates'], at + '/templates')
        self.add(package)
        for place, template in enumerate(package['templates']):
            self.template(template, '%s/templates/%d' % (at, place))

    def template(self, template, at):
        self.distinct(template['fields'], at + '/fields')
        scope = {'this.' + f['name']: f['type'] for f in template['fields']}
        wanted(template.get('ensure', True), at + '/ensure', scope, 'Bool')
        wanted(template['signatories'], at + '/signatories', scope, 'Parties')
        wanted(template.get('observers', ['set']), at + '/observers', scope, 'Parties')
        names = set()
        for place, choice in enumerate(template.get('choices', [])):
            self.fresh(choice['name'], names, '%s/choices/%d/name' % (at, place))
            if choice['name'] == 'Archive':
                raise CheckFault('Reserved', '%s/choices/%d/name' % (at, place))
            names.add(choice['name'])
            self.choice(choice, dict(scope), '%s/choices/%d' % (at, place))

    def choice(self, choice, scope, at):
        self.distinct(choice.get('params', []), at + '/params')
        scope.update({'arg.' + p['name']: p['type'] for p in choice.get('params', [])})
        wanted(choice['controllers'], at + '/controllers', scope, 'Parties')
        wanted(choice.get('observers', ['set']), at + '/observers', scope, 'Parties')
        scope['self'] = 'Contract'
        self.body(choice.get('body', []), scope, at + '/body')
        wanted(choice.get('result'), at + '/result', scope, choice.get('returns', 'Unit'))

    def body(self, statements, scope, at):
        for place, statement in enumerate(statements):
            (word, form), = statement.items()
            getattr(self, 'do_' + word)(form, scope, '%s/%d/%s' % (at, place, word))

    def bind(self, name, kind, scope, at):
        self.fresh(name, scope, at)
        scope[name] = kind

    def do_let(self, form, scope, at):
        kind = kind_in(form[1], at + '/1', scope)
        self.bind(form[0], kind, scope, at + '/0')

    def do_assert(self, form, scope, at):
        wanted(form, at, scope, 'Bool')

    def do_when(self, form, scope, at):
        wanted(form['if'], at + '/if', scope, 'Bool')
        self.body(form['then'], dict(scope), at + '/then')
        self.body(form.get('else', []), dict(scope), at + '/else')

    def named(self, form, at):
        if form['template'] not in self.templates:
            raise CheckFault('UnknownTemplate', at + '/template')
        return self.templates[form['template']]

    def counted(self, kinds, declared, at):
        if len(kinds) != len(declared):
            raise CheckFault('WrongCount', at)

    def same(self, kinds, declared, at):
        for place, (kind, item) in enumerate(zip(kinds, declared)):
            if kind != item['type']:
                raise CheckFault('WrongKind', '%s/%d' % (at, place))

    def kinds(self, forms, scope, at):
        return [kind_in(form, '%s/%d' % (at, place), scope) for place, form in enumerate(forms)]

    def do_create(self, form, scope, at):
        declared = self.named(form, at)['fields']
        kinds = self.kinds(form['fields'], scope, at + '/fields')
        self.counted(kinds, declared, at + '/fields')
        self.same(kinds, declared, at + '/fields')
        self.bind(form['bind'], 'Contract', scope, at + '/bind')

    def do_exercise(self, form, scope, at):
        template = self.named(form, at)
        choices = {c['name']: c for c in template.get('choices', [])}
        choices['Archive'] = {}
        if form['choice'] not in choices:
            raise CheckFault('UnknownChoice', at + '/choice')
        choice = choices[form['choice']]
        kind = kind_in(form['contract'], at + '/contract', scope)
        kinds = self.kinds(form['args'], scope, at + '/args')
        self.counted(kinds, choice.get('params', []), at + '/args')
        if kind != 'Contract':
            raise CheckFault('WrongKind', at + '/contract')
        self.same(kinds, choice.get('params', []), at + '/args')
        self.bind(form['bind'], choice.get('returns', 'Unit'), scope, at + '/bind')

    def do_fetch(self, form, scope, at):
        template = self.named(form, at)
        wanted(form['contract'], at + '/contract', scope, 'Contract')
        for field in template['fields']:
            self.bind('%s.%s' % (form['bind'], field['name']), field['type'], scope, at + '/bind')
