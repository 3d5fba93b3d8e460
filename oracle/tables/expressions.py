"""Expressions over names, with their values worked out by hand as a report prints them, or the word of the fault, and a script that has
them as the results of choices."""

MOST, LEAST = 2 ** 63 - 1, -2 ** 63
OVERFLOW = ['lt', ['add', MOST, 1], 1]


def party(name):
    return {'party': name}


def parties(*names):
    return {'parties': list(names)}


UNION = ['union', ['set', party('Carol'), party('Bob'), party('Carol')], ['set', party('Bob'), party('Alice')]]
NAMES = [['x', 3], ['t', 'hi'], ['p', party('Bob')], ['s', parties('Carol', 'Alice', 'Carol')], ['u', None]]

CASES = [
    (['add', 2, -5], '-3'), (['add', MOST, 1], 'Overflow'), (['sub', 2, -5], '7'), (['sub', LEAST, 1], 'Overflow'),
    (['mul', 6, -7], '-42'), (['mul', MOST, 2], 'Overflow'), (['mul', LEAST, -1], 'Overflow'), (['mul', MOST, MOST], 'Overflow'),
    (['lt', 1, 2], 'true'), (['lt', 2, 2], 'false'), (['le', 2, 2], 'true'), (['le', 3, 2], 'false'),
    (['eq', 2, 2], 'true'), (['eq', 3, 2], 'false'), (['eq', 'a', 'a'], 'true'), (['eq', None, None], 'true'),
    (['eq', party('Bob'), ['var', 'p']], 'true'), (['eq', parties('Bob', 'Alice'), ['set', party('Alice'), party('Bob')]], 'true'),
    (['and', False, OVERFLOW], 'false'), (['and', True, OVERFLOW], 'Overflow'), (['or', True, OVERFLOW], 'true'),
    (['or', False, OVERFLOW], 'Overflow'), (['or', False, True], 'true'), (['and', True, False], 'false'),
    (['if', ['not', False], 7, ['add', MOST, 1]], '7'), (['if', ['not', True], 7, ['add', MOST, 1]], 'Overflow'),
    (['has', UNION, party('Alice')], 'true'), (['has', UNION, party('Carol')], 'true'), (['has', UNION, party('Bank')], 'false'),
    (UNION, '[Alice,Bob,Carol]'), (['set', party('Carol'), party('Bob'), party('Carol')], '[Bob,Carol]'), (['set'], '[]'),
    (['cat', 'ab', 'cd'], '"abcd"'), (['cat', 'a' * 256, ''], '"%s"' % ('a' * 256)), (['cat', 'a' * 256, '9'], 'TooLarge'),
    (['cat', 'a' * 128, '\u00e9' * 64], '"%s%s"' % ('a' * 128, '\u00e9' * 64)), (['cat', 'a' * 129, '\u00e9' * 64], 'TooLarge'),
    (['var', 'x'], '3'), (['var', 't'], '"hi"'), (['var', 'p'], 'Bob'), (['var', 's'], '[Alice,Carol]'), (['var', 'u'], '()'),
    (['cat', '"\\', '\n\x7f'], '"\\x22\\x5c\\x0a\\x7f"'), (LEAST, str(LEAST)), (True, 'true'),
    (['lt', ['add', MOST, 1], ['mul', MOST, 2]], 'Overflow'), (['add', ['sub', 1, 2], ['mul', 2, ['add', 1, 1]]], '3')]


KINDS = {'Int': 'add sub mul', 'Bool': 'lt le eq and or not has', 'Parties': 'set union', 'Text': 'cat'}
OF_NAMES = {'x': 'Int', 't': 'Text', 'p': 'Party', 's': 'Parties', 'u': 'Unit'}
MOST_CHOICES = MOST_COMMANDS = 16


def kind_of(expression):
    """The kind of an expression's value."""
    if not isinstance(expression, list):
        return 'Bool' if isinstance(expression, bool) else 'Int'
    operator = expression[0]
    if operator in ('var', 'if'):
        return OF_NAMES[expression[1]] if operator == 'var' else kind_of(expression[2])
    return next(kind for kind, operators in KINDS.items() if operator in operators.split())


def choice(at, expression):
    """A choice that binds the names and has the expression as its result."""
    return {"name": "C%d" % at, "consuming": False, "controllers": ["set", ["var", "this.owner"]], "returns": kind_of(expression),
            "body": [{"let": [name, value]} for name, value in NAMES], "result": expression}


def template(first):
    choices = [choice(at, CASES[at][0]) for at in range(first, min(first + MOST_CHOICES, len(CASES)))]
    return {"name": "T%d" % (first // MOST_CHOICES), "fields": [{"name": "owner", "type": "Party"}],
            "signatories": ["set", ["var", "this.owner"]], "choices": choices}


def submission(command, *commands):
    return {"participant": "P1", "command": command, "act_as": ["Alice"], "commands": list(commands)}


def exercised(at):
    of = at // MOST_CHOICES
    return {"exercise": {"template": "E.T%d" % of, "contract": "#P1:made:%d" % of, "choice": "C%d" % at, "args": []}}


def exercised_line(at):
    return '  exercise E.T%d(Alice) C%d() by Alice = %s' % (at // MOST_CHOICES, at, CASES[at][1])


def script():
    """A script whose choices have the expressions as results, and for each command the lines behind it that are sure."""
    templates = [template(first) for first in range(0, len(CASES), MOST_CHOICES)]
    valued = [at for at in range(len(CASES)) if not is_fault(CASES[at][1])]
    submits, worked = [], {}
    made = [{"create": {"template": "E." + one["name"], "fields": [party("Alice")]}} for one in templates]
    submits.append(submission("made", *made))
    for first in range(0, len(valued), MOST_COMMANDS):
        some = valued[first:first + MOST_COMMANDS]
        submits.append(submission("v%d" % first, *map(exercised, some)))
        worked["v%d" % first] = list(map(exercised_line, some))
    for at in range(len(CASES)):
        if at not in valued:
            submits.append(submission("f%d" % at, exercised(at)))
            worked["f%d" % at] = ['refused %s 0' % CASES[at][1]]
    hosts = [{"name": "P1", "parties": ["Alice", "Bank", "Bob", "Carol"]}]
    packages = [{"name": "E", "templates": templates}]
    return {"participants": hosts, "packages": packages, "rounds": [{"submits": submits}]}, worked


def is_fault(worked):
    return worked in ('Overflow', 'TooLarge')
