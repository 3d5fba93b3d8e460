"""Lists of packages with their first fault, worked out by hand from docs/FORMATS.md.

A fault of the reading is a text. Where the reading has none, the fault of the check is said here too, or left to `language.Check`:
READ says that the packages are read. Places begin at the list of packages.
"""
import json

READ = object()
CHOICE = '/0/templates/0/choices/0'
ENSURE = '/0/templates/0/ensure'


def many(item, count):
    return '[%s]' % ','.join([item] * count)


def letters(count):
    return '"%s"' % ('x' * count)


def negated(inner, count):
    return '["not",' * count + inner + ']' * count


def template_with(members):
    return '[{"name":"K","templates":[{"name":"T","signatories":["set"],%s}]}]' % members


def ensure(expression):
    return template_with('"fields":[],"ensure":' + expression)


def choice_with(members):
    return template_with('"fields":[],"choices":[{"name":"C","consuming":true,"controllers":["set"],%s}]' % members)


def body(statements):
    return choice_with('"body":' + statements)


# a package
MEMBERS = [
    ('{"name":"K"}', 'Shape /0'),
    ('7', 'Shape /0'),
    ('{"name":"K","templates":[],"more":1}', 'Shape /0'),
    ('{"name":"1","templates":7}', 'Shape /0/name'),
    ('{"name":"K","templates":null}', 'Shape /0/templates'),
    ('{"templates":7,"name":"K","templates":[]}', READ),
    ('{"name":"K","templates":[{"name":"T","fields":[]}]}', 'Shape /0/templates/0'),
    ('{"name":"K","templates":[{"name":"T","fields":[{"name":"f","type":"int"}],"signatories":7.5}]}', 'Shape /0/templates/0/fields/0/type'),
    ('{"name":"K","templates":[{"name":"T","fields":[],"signatories":7.5,"ensure":null,"observers":[]}]}', 'NotInteger /0/templates/0/signatories'),
]

# more members of a choice
CHOICES = [
    ('"returns":"Contract","result":null', READ),
    ('"returns":"Nothing"', 'Shape /0/templates/0/choices/0/returns'),
    ('"returns":null', 'Shape /0/templates/0/choices/0/returns'),
    ('"body":null', 'Shape /0/templates/0/choices/0/body'),
    ('"params":null', 'Shape /0/templates/0/choices/0/params'),
    ('"consuming":1', 'Shape /0/templates/0/choices/0/consuming'),
    ('"result":[],"body":[7]', 'Shape /0/templates/0/choices/0/body/0'),
    ('"triggers":[]', 'Shape /0/templates/0/choices/0'),
]

# an expression that stands deeper than 16: its form is tried before its depth
DEEP = [
    ('true', 'Limit 8 17'),
    ('null', 'Limit 8 17'),
    ('7', 'Limit 8 17'),
    ('1.5', 'NotInteger'),
    ('["nope"]', 'Shape'),
    ('["not"]', 'Shape'),
    ('[]', 'Shape'),
    ('["not",["nope"]]', 'Limit 8 17'),
    ('["var",7]', 'Limit 8 17'),
    ('{"party":7}', 'Limit 8 17'),
    ('{"parties":["Zed"]}', 'Limit 8 17'),
    ('{"contract":"#P1:c1:0"}', 'Shape'),
]

# the ensure of a template
EXPRESSIONS = [
    ('["add",1,["mul",2,3]]', READ),
    ('["add",1]', 'Shape /0/templates/0/ensure'),
    ('["add",1,2,3]', 'Shape /0/templates/0/ensure'),
    ('["add",1,["sub"]]', 'Shape /0/templates/0/ensure/2'),
    ('["if",true,1,[7]]', 'Shape /0/templates/0/ensure/3'),
    ('["if",true,1]', 'Shape /0/templates/0/ensure'),
    ('["var",7]', 'Shape /0/templates/0/ensure/1'),
    ('["var"]', 'Shape /0/templates/0/ensure'),
    ('[7]', 'Shape /0/templates/0/ensure'),
    ('{"party":"Alice"}', READ),
    ('{"party":"Zed"}', 'Unknown Zed /0/templates/0/ensure/party'),
    ('{"party":""}', 'Shape /0/templates/0/ensure/party'),
    ('{"parties":["Alice","Alice","Zed"]}', 'Unknown Zed /0/templates/0/ensure/parties/2'),
    ('{"party":"Alice","parties":[]}', 'Shape /0/templates/0/ensure'),
    ('{"contract":"#P1:c1:0"}', 'Shape /0/templates/0/ensure'),
    ('["set",{"party":"Alice"},1.0]', 'NotInteger /0/templates/0/ensure/2'),
]

# a number as the ensure of a template
NUMBERS = [
    ('9223372036854775807', READ),
    ('-9223372036854775808', READ),
    ('9223372036854775808', 'NotInteger /0/templates/0/ensure'),
    ('-9223372036854775809', 'NotInteger /0/templates/0/ensure'),
    ('1.0', 'NotInteger /0/templates/0/ensure'),
    ('1e2', 'NotInteger /0/templates/0/ensure'),
    ('-0', 'NotInteger /0/templates/0/ensure'),
    ('1e400', 'NotJson '),
]

# a statement, with places below the body
STATEMENTS = [
    ('{"let":["x"]}', 'Shape /0/let'),
    ('{"let":[7,[]]}', 'Shape /0/let/0'),
    ('{"let":["x",[]]}', 'Shape /0/let/1'),
    ('{"let":["x",1],"assert":true}', 'Shape /0'),
    ('{}', 'Shape /0'),
    ('[]', 'Shape /0'),
    ('{"when":{"if":true}}', 'Shape /0/when'),
    ('{"when":{"if":true,"then":{}}}', 'Shape /0/when/then'),
    ('{"when":{"if":true,"then":[],"else":null}}', 'Shape /0/when/else'),
    ('{"when":{"if":[],"then":{}}}', 'Shape /0/when/if'),
    ('{"create":{"bind":"x","template":"T","fields":[]}}', 'Shape /0/create/template'),
    ('{"create":{"bind":"x","template":"K.T.T","fields":[]}}', 'Shape /0/create/template'),
    ('{"create":{"bind":"x","template":"K.T","fields":[1,[]]}}', 'Shape /0/create/fields/1'),
    ('{"fetch":{"bind":"x","template":"K.T"}}', 'Shape /0/fetch'),
    ('{"exercise":{"bind":"x","template":"K.T","contract":[],"choice":"","args":{}}}', 'Shape /0/exercise/contract'),
    ('{"exercise":{"bind":"x","template":"K.T","contract":1,"choice":"","args":{}}}', 'Shape /0/exercise/choice'),
    ('{"exercise":{"bind":"x","template":"K.T","contract":1,"choice":"C","args":{}}}', 'Shape /0/exercise/args'),
]


def read_cases():
    for text, fault in MEMBERS:
        yield '[%s]' % text, fault
    for text, fault in CHOICES:
        yield choice_with(text), fault
    for text, fault in DEEP:
        yield ensure(negated(text, 16)), '%s %s' % (fault, ENSURE + '/1' * 16)
    yield ensure(negated(letters(257), 16)), 'Limit 8 17 ' + ENSURE + '/1' * 16
    yield ensure(negated('false', 15)), READ
    yield from ((ensure(text), fault) for text, fault in EXPRESSIONS + NUMBERS)
    yield ensure(letters(256)), READ
    yield ensure(letters(257)), 'Limit 10 257 ' + ENSURE
    yield ensure('["var",%s]' % letters(300)), READ
    for count, fault in [(16, READ), (17, 'Shape ' + ENSURE)]:
        yield ensure('["set"%s]' % (',{"party":"Bob"}' * count)), fault
    for text, fault in STATEMENTS:
        words, _, rest = fault.rpartition(' ')
        yield body('[%s]' % text), '%s %s/body%s' % (words, CHOICE, rest)
    yield body('[{"create":{"bind":"x","template":"Note.Note","fields":%s}}]' % many('1', 13)), READ
    yield from counts()


def counts():
    """Each number of a limit, at it and past it."""
    yield '[{"name":"K","templates":%s}]' % many('1', 65), 'Limit 4 65 /0/templates'
    yield '[{"name":"K","templates":%s}]' % many('1', 64), 'Shape /0/templates/0'
    field = '{"name":"f","type":"Int"}'
    for count, fault in [(12, READ), (13, 'Limit 5 13 /0/templates/0/fields')]:
        yield template_with('"fields":' + many(field, count)), fault
    for count, fault in [(12, 'Shape %s/params/0' % CHOICE), (13, 'Limit 6 13 %s/params' % CHOICE)]:
        yield choice_with('"params":' + many('true', count)), fault
    for count, fault in [(16, 'Shape ' + CHOICE), (17, 'Limit 7 17 /0/templates/0/choices')]:
        yield template_with('"fields":[],"choices":' + many('[]', count)), fault
    truth = '{"assert":true}'
    when = '[{"when":{"if":true,"then":%s,"else":%s}}]'
    for yes, no, fault in [(33, 30, READ), (33, 31, 'Limit 9 65 %s/body/0/when/else' % CHOICE),
                           (64, 0, 'Limit 9 65 %s/body/0/when/then' % CHOICE)]:
        yield body(when % (many(truth, yes), many(truth, no))), fault
    yield body(many('7', 65)), 'Limit 9 65 %s/body' % CHOICE


# --- faults of the check

def template(name='T', ensure_=True, choices=(), fields=('owner', 'amount')):
    return {'name': name, 'fields': [{'name': fields[0], 'type': 'Party'}, {'name': fields[1], 'type': 'Int'}], 'ensure': ensure_,
            'signatories': ['set'], 'choices': list(choices)}


def empty(name='Empty'):
    return {'name': name, 'fields': [], 'signatories': ['set']}


def package(name, *templates):
    return {'name': name, 'templates': list(templates)}


def choice(name='C', statements=(), **members):
    made = {'name': name, 'consuming': False, 'params': [{'name': 'p', 'type': 'Int'}], 'controllers': ['set'], 'returns': 'Int',
            'body': list(statements), 'result': 0}
    made.update(members)
    return made


def var(name):
    return ['var', name]


def one(first):
    return [package('P', first, empty())]


# the ensure of a template whose fields are an owner and an amount
ENSURES = [
    (['lt', 0, var('this.amount')], None),
    (1, 'WrongKind ' + ENSURE),
    (var('nope'), 'UnknownName ' + ENSURE),
    (var('arg.p'), 'UnknownName ' + ENSURE),
    (var('self'), 'UnknownName ' + ENSURE),
    (['lt', True, var('nope')], 'WrongKind %s/1' % ENSURE),
    (['lt', var('nope'), True], 'UnknownName %s/1' % ENSURE),
    (['eq', 1, True], 'WrongKind %s/2' % ENSURE),
    (['if', True, True, 1], 'WrongKind %s/3' % ENSURE),
    (['if', 1, True, 1], 'WrongKind %s/1' % ENSURE),
    (['has', ['set', var('this.owner'), 1], var('this.owner')], 'WrongKind %s/1/2' % ENSURE),
    (['not', 1], 'WrongKind %s/1' % ENSURE),
    (['cat', 'a', 1], 'WrongKind %s/2' % ENSURE),
    (['and', True, ['or', False, 1]], 'WrongKind %s/2/2' % ENSURE),
    (['has', ['union', ['set'], {'party': 'Bob'}], {'party': 'Bob'}], 'WrongKind %s/1/2' % ENSURE)]

OWNER, TRUE_TEST = var('this.owner'), ['eq', 1, 1]


def create(name, fields):
    return {'create': {'bind': 'x', 'template': name, 'fields': fields}}


def exercise(contract, name, args, of='P.T'):
    return {'exercise': {'bind': 'x', 'template': of, 'contract': var(contract), 'choice': name, 'args': args}}


def fetch(bind, of='P.T', contract='self'):
    return {'fetch': {'bind': bind, 'template': of, 'contract': var(contract)}}


def let(name, value):
    return {'let': [name, value]}


def is_one(name):
    return {'assert': ['eq', var(name), 1]}


def when(test, other):
    return {'when': {'if': test, 'then': [let('y', 1)], 'else': [other]}}


# bodies of a choice, with places below the body
BODIES = [
    ([create('P.T', [OWNER, var('arg.p')])], None),
    ([create('P.T', [OWNER])], 'WrongCount /0/create/fields'),
    ([create('P.T', [var('nope')])], 'UnknownName /0/create/fields/0'),
    ([create('P.T', [OWNER, True])], 'WrongKind /0/create/fields/1'),
    ([create('P.U', [var('nope')])], 'UnknownTemplate /0/create/template'),
    ([exercise('self', 'C', [1])], None),
    ([exercise('self', 'Archive', [])], None),
    ([exercise('nope', 'D', [])], 'UnknownChoice /0/exercise/choice'),
    ([exercise('nope', 'C', [])], 'UnknownName /0/exercise/contract'),
    ([exercise('arg.p', 'C', [])], 'WrongCount /0/exercise/args'),
    ([exercise('self', 'Archive', [1])], 'WrongCount /0/exercise/args'),
    ([exercise('arg.p', 'C', [True])], 'WrongKind /0/exercise/contract'),
    ([exercise('self', 'C', [True])], 'WrongKind /0/exercise/args/0'),
    ([fetch('x'), fetch('y')], None),
    ([fetch('x'), fetch('x')], 'DuplicateName /1/fetch/bind'),
    ([fetch('this'), fetch('x')], 'DuplicateName /0/fetch/bind'),
    ([fetch('self'), fetch('x')], None),
    ([fetch('x', 'P.Empty'), fetch('x', 'P.Empty')], None),
    ([fetch('x', contract='arg.p')], 'WrongKind /0/fetch/contract'),
    ([let('x', 1), fetch('x')], None),
    ([let('x', var('self')), let('y', 1)], None),
    ([let('x', var('self')), let('x', 1)], 'DuplicateName /1/let/0'),
    ([let('self', var('self')), let('x', 1)], 'DuplicateName /0/let/0'),
    ([let('self', var('nope')), let('x', 1)], 'UnknownName /0/let/1'),
    ([when(TRUE_TEST, is_one('arg.p')), is_one('arg.p')], None),
    ([when(TRUE_TEST, is_one('y')), is_one('y')], 'UnknownName /0/when/else/0/assert/1'),
    ([when(TRUE_TEST, is_one('arg.p')), is_one('y')], 'UnknownName /1/assert/1'),
    ([when(TRUE_TEST, is_one('arg.p')), let('y', 2)], None),
    ([when(1, is_one('nope'))], 'WrongKind /0/when/if'),
    ([{'assert': 1}], 'WrongKind /0/assert')]

# two choices of a template
TWO_CHOICES = [
    ((choice(), choice('D')), None),
    ((choice(params=[{'name': 'q', 'type': 'Party'}, {'name': 'q', 'type': 'Int'}]), choice('D')),
     'DuplicateName %s/params/1/name' % CHOICE),
    ((choice(controllers=1), choice('D')), 'WrongKind %s/controllers' % CHOICE),
    ((choice(observers=var('self')), choice('D')), 'UnknownName %s/observers' % CHOICE),
    ((choice(result=True), choice('D')), 'WrongKind %s/result' % CHOICE),
    ((choice(), choice()), 'DuplicateName /0/templates/0/choices/1/name'),
    ((choice(), choice('Archive')), 'Reserved /0/templates/0/choices/1/name'),
    ((choice('Archive'), choice('Archive')), 'Reserved %s/name' % CHOICE)]


def naming(name, other):
    """A package with a choice that archives a contract of another template."""
    return package(name, template(choices=[choice(statements=[exercise('self', 'Archive', [], other)])]), empty())


# whole lists of packages
LISTS = [
    ([], None),
    ([package('P', template(ensure_=1), empty('U'))], 'WrongKind ' + ENSURE),
    ([package('P', template(ensure_=1), empty('T'))], 'DuplicateName /0/templates/1/name'),
    ([package('Note', template(ensure_=1), empty('T'))], 'DuplicateName /0/name'),
    ([package('P', template(fields=('owner', 'owner')), empty())], 'DuplicateName /0/templates/0/fields/1/name'),
    ([naming('P', 'P.T'), naming('Q', 'Note.T')], 'UnknownTemplate /1/templates/0/choices/0/body/0/exercise/template'),
    ([naming('P', 'Q.T'), naming('Q', 'P.T')], 'UnknownTemplate /0/templates/0/choices/0/body/0/exercise/template'),
    ([naming('P', 'Note.Note'), naming('Q', 'P.Empty')], None),
    ([package('P', empty()), package('P', empty())], 'DuplicateName /1/name'),
    ([package('P', dict(empty(), signatories=1))], 'WrongKind /0/templates/0/signatories'),
    ([package('P', dict(empty(), observers=1))], 'WrongKind /0/templates/0/observers')]


def check_cases():
    """Lists of packages that are read, with the fault of the check, or None."""
    for form, fault in ENSURES:
        yield one(template(ensure_=form)), fault
    for statements, fault in BODIES:
        if fault is not None:
            words, _, rest = fault.rpartition(' ')
            fault = '%s %s/body%s' % (words, CHOICE, rest)
        yield one(template(choices=[choice(statements=statements)])), fault
    for choices, fault in TWO_CHOICES:
        yield one(template(choices=choices)), fault
    yield from LISTS


def cases():
    """All lists of packages as JSON text, with the fault of the reading or READ, and what is said of the fault of the check."""
    for text, fault in read_cases():
        yield text, fault, None
    for packages, fault in check_cases():
        yield json.dumps(packages, separators=(',', ':')), READ, 'no fault' if fault is None else 'Package ' + fault
