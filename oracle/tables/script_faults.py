"""Scripts with their first fault, or None where they are read. Each was worked out by hand from docs/FORMATS.md."""
import json

PARTICIPANTS = '"participants":[{"name":"P1","parties":["Alice"]},{"name":"P2","parties":["Bob"]}]'
HASH = '0123456789abcdefABCDEF0123456789abcdef0123456789abcdef0123456789'
CREATE = '{"create":{"template":"Note.Note","fields":[]}}'
COMMANDS = '/rounds/0/submits/0/commands'
DRAFT = '/rounds/0/submits/0/prepared/0'
FIELD = COMMANDS + '/0/create/fields/0'


def many(item, count):
    return '[%s]' % ','.join([item] * count)


def names(count):
    return '[%s]' % ','.join('"n%d"' % at for at in range(count))


def script(members):
    return '{%s,%s}' % (PARTICIPANTS, members)


def submitting(submission):
    return script('"rounds":[{"submits":[%s]}]' % submission)


def asking(members):
    return submitting('{"participant":"P1","command":"c1","act_as":["Alice"],%s}' % members)


def creating(field):
    return asking('"commands":[{"create":{"template":"Note.Note","fields":[%s]}}]' % field)


def prepared(draft):
    return asking('"prepared":[%s]' % draft)


def above(children):
    """An exercise above drafts."""
    return ('{"exercise":{"contract":{"known":"#P1:c1:0"},"choice":"C","args":[],"actors":["Alice"],"consuming":true,"result":null,'
            '"children":%s}}' % children)


def deep(draft, count):
    for _ in range(count):
        draft = above('[%s]' % draft)
    return draft


# members of a script after its participants
MEMBERS = [
    ('"rounds":[]', None),
    ('"rounds":{}', 'Shape /rounds'),
    ('"rounds":[],"more":1', 'Shape '),
    ('"packages":[]', 'Shape '),
    ('"rounds":[],"triggers":[]', None),
    ('"rounds":[],"packages":null', 'Shape /packages'),
    ('"rounds":[],"skew":null', 'Shape /skew'),
    ('"rounds":[],"skew":0', 'Limit 16 0 /skew'),
    ('"rounds":[],"skew":-5', 'Limit 16 0 /skew'),
    ('"rounds":[],"skew":99999', 'Limit 16 99999 /skew'),
    ('"rounds":[],"skew":100000', None),
    ('"rounds":7,"response_timeout":1000000000001', 'Limit 16 1000000000001 /response_timeout'),
    ('"rounds":7,"skew":0,"reaction_timeout":1.0', 'NotInteger /reaction_timeout'),
    ('"rounds":7,"packages":[7]', 'Shape /packages/0'),
    ('"rounds":7,"packages":[{"name":"Note","templates":[]}]', 'Package DuplicateName /0/name'),
    ('"rounds":[{"advance":1.5}]', 'NotInteger /rounds/0/advance'),
    ('"rounds":[{},{"advance":-1}]', 'Limit 15 0 /rounds/1/advance'),
    ('"rounds":[{"advance":1000000000001}]', 'Limit 15 1000000000001 /rounds/0/advance'),
    ('"rounds":[{"advance":9223372036854775808}]', 'NotInteger /rounds/0/advance'),
    ('"rounds":[{"advance":-9223372036854775808}]', 'Limit 15 0 /rounds/0/advance'),
    ('"rounds":[{"paused":["P1","P1","P3"]}]', 'Unknown P3 /rounds/0/paused/2'),
    ('"rounds":[{"paused":["P1","P1"]}]', None),
    ('"rounds":[{"hold_verdicts":null}]', 'Shape /rounds/0/hold_verdicts'),
    ('"rounds":[{"restarts":[]}]', 'Shape /rounds/0'),
]

# behind all other members of a round
RESTARTS = [
    ('"rounds":[{"restart":"P1"}]', 'Shape /rounds/0/restart'),
    ('"rounds":[{"restart":["P1",7]}]', 'Shape /rounds/0/restart/1'),
    ('"rounds":[{"restart":[7],"raw":7}]', 'Shape /rounds/0/raw'),
    ('"rounds":[{"restart":["P1","P1","P3"]}]', 'Unknown P3 /rounds/0/restart/2'),
    ('"rounds":[{"restart":["P1","P1"]}]', None),
    ('"rounds":[{"restart":[]}]', None),
]

# the participants of a script without rounds
PARTICIPANT_LISTS = [
    ('[]', 'Limit 1 0 /participants'),
    ('[7,7,7,7,7,7,7,7,7]', 'Limit 1 9 /participants'),
    ('[7,7,7,7,7,7,7,7]', 'Shape /participants/0'),
    ('[{"name":"P1","parties":["Alice","Alice"]}]', 'Repeated /participants/0/parties/1'),
    ('[{"name":"P1","parties":["A"]},{"name":"P2","parties":["B","A",7]}]', 'Repeated /participants/1/parties/1'),
    ('[{"name":"P1","parties":[7,"A"]}]', 'Shape /participants/0/parties/0'),
    ('[{"name":"P1","parties":[]},{"name":"P1","parties":7}]', 'Repeated /participants/1/name'),
    ('[{"name":"P1","parties":[]},{"name":"1","parties":7}]', 'Shape /participants/1/name'),
    ('[{"name":"P1","parties":[],"vetted":["Note"]}]', None),
    ('[{"name":"P1","parties":[],"vetted":["Note","Iou"]}]', 'Unknown Iou /participants/0/vetted/1'),
    ('[{"name":"P1","parties":[],"vetted":null}]', 'Shape /participants/0/vetted'),
    ('[{"name":"P1","parties":[],"observing":[],"vetted":7}]', 'Shape /participants/0/vetted'),
]

# the participants of a script without rounds, some of whom observe; parties that nobody confirms for and repetitions come once all
# participants were read
OBSERVING = [
    ('[{"name":"P1","parties":[],"observing":[]}]', None),
    ('[{"name":"P1","parties":[],"observing":["B"]},{"name":"P2","parties":["B"],"observing":[]}]', None),
    ('[{"name":"P1","parties":["A"],"observing":["B"]},{"name":"P2","parties":["B"],"observing":["A"]},{"name":"P3","parties":[],"observing":["B","A"]}]',
     None),
    ('[{"name":"P1","parties":[],"observing":null}]', 'Shape /participants/0/observing'),
    ('[{"name":"P1","parties":["A"],"observing":{"party":"A"}}]', 'Shape /participants/0/observing'),
    ('[{"name":"P1","parties":["A"],"observing":["A",7]}]', 'Shape /participants/0/observing/1'),
    ('[{"name":"P1","parties":["A"],"observing":["1"]}]', 'Shape /participants/0/observing/0'),
    ('[{"name":"P1","parties":7,"observing":7}]', 'Shape /participants/0/parties'),
    ('[{"name":"P1","parties":[],"observed":[]}]', 'Shape /participants/0'),
    ('[{"name":"P1","parties":[],"observing":["Zed"]},7]', 'Shape /participants/1'),
    ('[{"name":"P1","parties":["A"],"observing":["Zed"]},{"name":"P2","parties":["A"]}]', 'Repeated /participants/1/parties/0'),
    ('[{"name":"P1","parties":["A"],"observing":["B","Zed"]},{"name":"P2","parties":["B"]}]', 'Unknown Zed /participants/0/observing/1'),
    ('[{"name":"P1","parties":["A"]},{"name":"P2","parties":[],"observing":["P1"]}]', 'Unknown P1 /participants/1/observing/0'),
    ('[{"name":"P1","parties":["A"],"observing":["A"]}]', 'Repeated /participants/0/observing/0'),
    ('[{"name":"P1","parties":["B"],"observing":[]},{"name":"P2","parties":["A"],"observing":["B","B"]}]', 'Repeated /participants/1/observing/1'),
    ('[{"name":"P1","parties":[],"observing":["Zed","Zed"]}]', 'Unknown Zed /participants/0/observing/0'),
    ('[{"name":"P1","parties":[],"observing":["B","B","Zed"]},{"name":"P2","parties":["B"]}]', 'Repeated /participants/0/observing/1'),
    ('[{"name":"P1","parties":["A"],"observing":["B","A"]},{"name":"P2","parties":["B"],"observing":["Zed"]}]', 'Repeated /participants/0/observing/1'),
    ('[{"name":"P1","parties":[],"observing":["Zed"],"vetted":7}]', 'Unknown Zed /participants/0/observing/0'),
]

# the rules of a script, with places below their list; what stands behind them is read later
RULE = '{"name":"r","participant":"P1","party":"Alice"}'
RULES = [
    ('null', 'Shape '),
    ('{}', 'Shape '),
    ('[7]', 'Shape /0'),
    (many('7', 16), 'Shape /0'),
    (many('7', 17), 'Limit 23 17 '),
    ('[{"name":"r","participant":"P1"}]', 'Shape /0'),
    ('[{"name":"r","participant":"P1","party":"Alice","when":7}]', 'Shape /0'),
    ('[{"name":7,"participant":7,"party":7}]', 'Shape /0/name'),
    ('[{"name":"1","participant":7,"party":7}]', 'Shape /0/name'),
    ('[{"name":"%s","participant":7,"party":7}]' % ('n' * 20), 'Shape /0/participant'),
    ('[{"name":"%s","participant":7,"party":7}]' % ('n' * 21), 'Limit 24 21 /0/name'),
    ('[{"name":"%s","participant":7,"party":7}]' % ('n' * 33), 'Shape /0/name'),
    ('[{"name":"r","participant":"P3","party":7}]', 'Unknown P3 /0/participant'),
    ('[{"name":"r","participant":"P1","party":7}]', 'Shape /0/party'),
    ('[{"name":"r","participant":"P1","party":"Zed"}]', 'Unknown Zed /0/party'),
    ('[%s,%s,{"name":"r","participant":7,"party":7}]' % (RULE, RULE.replace('r"', 's"', 1)), 'Repeated /2/name'),
    ('[%s,{"name":"r","participant":"P2","party":"Bob"},7]' % RULE, 'Repeated /1/name'),
]

# the command of a submission or a raw request of P1, which has the rule r, and one of P2, which has the rule s
NO_RULE_COMMANDS = [
    ('P1', 'r', False), ('P1', 'r-', False), ('P1', 'r-0', True), ('P1', 'r-00', True), ('P1', 'r-1', True), ('P1', 'r-%s' % ('9' * 30), True),
    ('P1', 'r-1x', False), ('P1', 'r-x1', False), ('P1', 'r1', False), ('P1', 'rr-1', False), ('P1', 's-1', False), ('P2', 'r-1', False), ('P2', 's-1', True),
]

# the raw requests of a round, with places below their list
RAW = '{"participant":"P1","command":"z","confirming":[],"mediator":"","envelopes":[]}'
RAWS = [
    ('null', 'Shape '),
    ('{}', 'Shape '),
    ('[7]', 'Shape /0'),
    (many('7', 64), 'Shape /0'),
    (many('7', 65), 'Limit 21 65 '),
    (many(RAW, 2)[:-1] + ',{}]', 'Shape /2'),
]
ONE_RAW = [
    ('"participant":"P1","command":"z","confirming":[],"mediator":""', 'Shape '),
    ('"participant":"P1","command":"z","confirming":[],"mediator":"","envelopes":[],"root":""', 'Shape '),
    ('"participant":7,"command":"1","confirming":7,"mediator":7,"envelopes":7', 'Shape /participant'),
    ('"participant":"P3","command":"1","confirming":7,"mediator":7,"envelopes":7', 'Unknown P3 /participant'),
    ('"participant":"P1","command":"1","confirming":7,"mediator":7,"envelopes":7', 'Shape /command'),
    ('"participant":"P1","command":"z","confirming":"P1","mediator":7,"envelopes":7', 'Shape /confirming'),
    ('"participant":"P1","command":"z","confirming":["P1",""],"mediator":7,"envelopes":7', 'Shape /confirming/1'),
    ('"participant":"P1","command":"z","confirming":["P1","Alice"],"mediator":7,"envelopes":7', 'Unknown Alice /confirming/1'),
    ('"participant":"P1","command":"z","confirming":["P2","P1","P2"],"mediator":7,"envelopes":7', 'Shape /mediator'),
    ('"participant":"P1","command":"z","confirming":[],"mediator":"0","envelopes":7', 'Shape /mediator'),
    ('"participant":"P1","command":"z","confirming":[],"mediator":"0g","envelopes":7', 'Shape /mediator'),
    ('"participant":"P1","command":"z","confirming":[],"mediator":"0x00","envelopes":7', 'Shape /mediator'),
    ('"participant":"P1","command":"z","confirming":[],"mediator":"aB0f","envelopes":7', 'Shape /envelopes'),
    ('"participant":"P1","command":"z","confirming":[],"mediator":"","envelopes":[["P1",""],7]', 'Shape /envelopes/1'),
    ('"participant":"P1","command":"z","confirming":[],"mediator":"","envelopes":[["P1"]]', 'Shape /envelopes/0'),
    ('"participant":"P1","command":"z","confirming":[],"mediator":"","envelopes":[["P1","00",""]]', 'Shape /envelopes/0'),
    ('"participant":"P1","command":"z","confirming":[],"mediator":"","envelopes":[["P3",7]]', 'Unknown P3 /envelopes/0/0'),
    ('"participant":"P1","command":"z","confirming":[],"mediator":"","envelopes":[["P1",7]]', 'Shape /envelopes/0/1'),
    ('"participant":"P1","command":"z","confirming":[],"mediator":"","envelopes":[["P1","00"],["P1","0"]]', 'Shape /envelopes/1/1'),
    # the mediator's bytes are as many as may be, and an envelope's are one more
    ('"participant":"P1","command":"z","confirming":[],"mediator":"%s","envelopes":[["P1","%s"]]' % ('00' * 65_536, '00' * 65_537),
     'Limit 22 65537 /envelopes/0/1'),
]

# a submission, with places below it
SUBMISSIONS = [
    ('7', 'Shape '),
    ('{"participant":"P1","command":"c1","act_as":["Alice"]}', 'Shape '),
    ('{"participant":"P1","command":"c1","act_as":["Alice"],"commands":[],"prepared":[]}', 'Shape '),
    ('{"participant":"P1","command":"c1","act_as":["Alice"],"commands":[],"seed_of":["P1","c1"]}', 'Shape '),
    ('{"participant":"P3","command":7,"act_as":[],"commands":[]}', 'Unknown P3 /participant'),
    ('{"participant":"P1","command":"1","act_as":[],"commands":[]}', 'Shape /command'),
    ('{"participant":"P1","command":"c1","act_as":[],"commands":[]}', 'Limit 14 0 /act_as'),
    ('{"participant":"P1","command":"c1","act_as":["Alice","Zed"],"commands":[]}', 'Unknown Zed /act_as/1'),
    ('{"participant":"P1","command":"c1","act_as":["Bob","Alice"],"commands":[]}', 'Limit 13 0 /commands'),
    ('{"participant":"P1","command":"c1","act_as":["Bob"],"prepared":[]}', 'Limit 13 0 /prepared'),
    ('{"participant":"P1","command":"c1","act_as":["Bob"],"prepared":{},"ledger_time":null}', 'Shape /ledger_time'),
    ('{"participant":"P1","command":"c1","act_as":["Bob"],"prepared":{},"ledger_time":10000000000000001}',
     'Limit 17 10000000000000001 /ledger_time'),
    ('{"participant":"P1","command":"c1","act_as":["Bob"],"prepared":{},"ledger_time":10000000000000000}', 'Shape /prepared'),
    ('{"participant":"P1","command":"c1","act_as":["Bob"],"prepared":[7],"seed_of":7}', 'Shape /prepared/0'),
]

# a command, with places below the list of commands
COMMAND = [
    ('{"fetch":{}}', 'Shape /0'),
    ('{"create":{},"exercise":{}}', 'Shape /0'),
    ('{"create":{"template":"Note.Note"}}', 'Shape /0/create'),
    ('{"create":{"template":"Note","fields":7}}', 'Shape /0/create/template'),
    ('{"create":{"template":"No.Such","fields":[]}}', None),
    ('{"create":{"template":"Note.Note","fields":[1,2,3,4,5,6,7,8,9,10,11,12,[]]}}', 'Limit 5 13 /0/create/fields'),
    ('{"create":{"template":"Note.Note","fields":[1,2,3,4,5,6,7,8,9,10,11,[]]}}', 'Shape /0/create/fields/11'),
    ('{"exercise":{"template":"Note.Note","contract":"#P1:c1:0","choice":"C","args":[1,2,3,4,5,6,7,8,9,10,11,12,[]]}}',
     'Limit 6 13 /0/exercise/args'),
    ('{"exercise":{"template":"Note.Note","contract":"","choice":7,"args":7}}', 'Shape /0/exercise/contract'),
    ('{"exercise":{"template":"Note.Note","contract":"#P1:c1:0","choice":"Any","args":[]}}', None),
]

# a field of a create, with places below it
VALUES = [
    ('null', None),
    ('true', None),
    ('-9223372036854775808', None),
    ('"text"', None),
    ('{"party":"Bob"}', None),
    ('{"parties":["Bob","Alice","Bob"]}', None),
    ('[]', 'Shape '),
    ('{}', 'Shape '),
    ('{"contract":null}', 'Shape /contract'),
    ('{"party":"Zed"}', 'Unknown Zed /party'),
    ('{"parties":["Bob","Zed"]}', 'Unknown Zed /parties/1'),
    ('1e2', 'NotInteger '),
]

# a contract reference, with its place left out
REFERENCES = [
    ('0123', 'Shape '),
    ('#P1:c1:0', None),
    ('#P2:c-1:63.0.1.2.3.4.5.6.7.8.9.10.11.12.13.14', None),
    ('#P1:c1:0.1.2.3.4.5.6.7.8.9.10.11.12.13.14.15.16', 'Limit 20 17 '),
    ('#P3:c1:0.1.2.3.4.5.6.7.8.9.10.11.12.13.14.15.16', 'Limit 20 17 '),
    ('#P3:c1:0.1.2.3.4.5.6.7.8.9.10.11.12.13.14.15.64', 'Shape '),
    ('#P3:c1:0', 'Unknown P3 '),
    ('#P1:c1:64', 'Shape '),
    ('#P1:c1:01', 'Shape '),
    ('#P1:c1:00', 'Shape '),
    ('#P1:c1:', 'Shape '),
    ('#P1:c1:0.', 'Shape '),
    ('#P1:c1:+1', 'Shape '),
    ('#P1:c1', 'Shape '),
    ('#P1:1:0', 'Shape '),
    ('#P1:c1:0:1', 'Shape '),
    ('P1:c1:0', 'Shape '),
    ('', 'Shape '),
]

# a draft, with places below it
DRAFTS = [
    ('{"when":7}', 'Shape '),
    ('{"create":{"template":"Note.Note","fields":[],"more":1}}', 'Shape /create'),
    ('{"fetch":{"contract":{"known":"#P1:c1:0"},"actors":["Bob"]}}', None),
    ('{"fetch":{"contract":{"known":"#P1:c1:0"},"actors":["Zed"]}}', 'Unknown Zed /fetch/actors/0'),
    ('{"fetch":{"contract":{"known":7},"actors":7}}', 'Shape /fetch/contract/known'),
    ('{"fetch":{"contract":"#P1:c1:0","actors":[]}}', 'Shape /fetch/contract'),
    ('{"fetch":{"contract":{"id":true,"salt":7,"instance":7},"actors":[]}}', 'Shape /fetch/contract/id'),
    ('{"fetch":{"contract":{"id":null,"salt":"0g","instance":7},"actors":[]}}', 'Shape /fetch/contract/salt'),
    ('{"exercise":{"contract":{"known":"#P1:c1:0"},"choice":"C","args":[],"actors":[],"consuming":true,"result":null}}', 'Shape /exercise'),
    ('{"exercise":{"contract":{"known":"#P1:c1:0"},"choice":"C","args":[],"actors":[],"consuming":1,"result":[],"children":7}}',
     'Shape /exercise/consuming'),
    ('{"exercise":{"contract":{"known":"#P1:c1:0"},"choice":"C","args":[],"actors":[],"consuming":true,"result":[],"children":7}}',
     'Shape /exercise/result'),
    ('{"exercise":{"contract":{"known":"#P1:c1:0"},"choice":"C","args":[],"actors":[],"consuming":true,"result":null,"children":7}}',
     'Shape /exercise/children'),
]

# the fields of a forged input, with places below the draft
FORGED = [
    ('[1,2,3,4,5,6,7,8,9,10,11,12]', None),
    ('[1,2,3,4,5,6,7,8,9,10,11,12,13]', 'Limit 5 13 /fetch/contract/instance/fields'),
    ('[1,[]]', 'Shape /fetch/contract/instance/fields/1'),
]

# a borrowed seed, with places below it
SEEDS = [
    ('["P1","c1"]', None),
    ('["P1"]', 'Shape '),
    ('["P3",7]', 'Unknown P3 /0'),
    ('["P1",7]', 'Shape /1'),
    ('null', 'Shape '),
]


def below(place, rows, make):
    """Rows whose faults stand below a place."""
    for text, fault in rows:
        if fault is not None:
            words, _, rest = fault.rpartition(' ')
            fault = '%s %s%s' % (words, place, rest)
        yield make(text), fault


def counts():
    """Each number of a limit, at it and past it."""
    for count, fault in [(127, None), (128, 'Limit 2 129 /participants/1/parties')]:
        yield ('{"participants":[{"name":"P1","parties":["Alice"]},{"name":"P2","parties":%s}],"rounds":[]}' % names(count), fault)
    for count, fault in [(8, 'Shape /packages/0'), (9, 'Limit 3 9 /packages')]:
        yield script('"rounds":[],"packages":' + many('7', count)), fault
    # who observes parties doesn't count them
    yield '{"participants":[{"name":"P1","parties":%s},{"name":"P2","parties":[],"observing":%s}],"rounds":[]}' % (names(128), names(128)), None
    template = '{"name":"T","fields":[],"signatories":["set"]}'
    yield (script('"rounds":[],"packages":[{"name":"K","templates":[%s]},{"name":"L","templates":%s}]' % (template, many('7', 64))),
           'Limit 4 65 /packages/1/templates')
    for count, fault in [(2048, 'Shape /rounds/0'), (2049, 'Limit 11 2049 /rounds')]:
        yield script('"rounds":' + many('7', count)), fault
    one = '{"participant":"P1","command":"c1","act_as":["Alice"],"commands":[%s]}' % CREATE
    for count, fault in [(2047, 'Shape /rounds/1/submits/0'), (2048, 'Limit 12 2049 /rounds/1/submits')]:
        yield script('"rounds":[{"submits":[%s]},{"submits":%s}]' % (one, many('7', count))), fault
    for count, fault in [(128, 'Limit 13 0 %s' % COMMANDS), (129, 'Limit 14 129 /rounds/0/submits/0/act_as')]:
        yield submitting('{"participant":"P1","command":"c1","act_as":%s,"commands":[]}' % many('"Alice"', count)), fault
    yield asking('"commands":' + many('7', 17)), 'Limit 13 17 ' + COMMANDS
    for count, fault in [(256, None), (257, 'Limit 10 257 ' + FIELD)]:
        yield creating('"%s"' % ('x' * count)), fault
    for count, fault in [(62, None), (63, 'Limit 18 65 /rounds/0/submits/0/prepared/1/exercise/children')]:
        yield prepared('%s,%s' % (CREATE, above(many(CREATE, count)))), fault
    place = DRAFT + '/exercise/children/0' * 16
    for draft, count, fault in [(CREATE, 15, None), (CREATE, 16, 'Limit 19 17 '), ('{"create":7}', 16, 'Limit 19 17 '),
                                ('{"creates":7}', 16, 'Shape ')]:
        yield prepared(deep(draft, count)), None if fault is None else fault + place


def vetted():
    """The vetted packages are read after the check of all packages."""
    for packages, fault in [('[{"name":"Note","templates":[]}]', 'Package DuplicateName /0/name'),
                            ('[{"name":"K","templates":[]}]', 'Shape /participants/0/vetted'), ('7', 'Shape /packages')]:
        yield '{"participants":[{"name":"P1","parties":[],"vetted":7}],"packages":%s,"rounds":7}' % packages, fault


def with_rules():
    """Rules are read behind the vetted packages and before the rounds, and keep commands for themselves."""
    yield script('"rounds":[],"trigger":[]'), 'Shape '
    yield '{"participants":[{"name":"P1","parties":[],"vetted":["Nope"]}],"triggers":7,"rounds":7}', 'Unknown Nope /participants/0/vetted/0'
    yield script('"rounds":7,"triggers":7,"packages":[{"name":"Note","templates":[]}]'), 'Package DuplicateName /0/name'
    yield from below('/triggers', RULES, lambda text: script('"rounds":7,"triggers":%s' % text))
    rules = '[%s,{"name":"s","participant":"P2","party":"Alice"}]' % RULE
    yield script('"rounds":[],"triggers":' + rules), None
    for participant, command, is_kept in NO_RULE_COMMANDS:
        asked = '{"participant":"%s","command":"%s","act_as":[],"commands":[]}' % (participant, command)
        fault = 'Repeated /rounds/1/submits/0/command' if is_kept else 'Limit 14 0 /rounds/1/submits/0/act_as'
        yield script('"rounds":[{},{"submits":[%s]}],"triggers":%s' % (asked, rules)), fault
        raw = '{"participant":"%s","command":"%s","confirming":7,"mediator":"","envelopes":[]}' % (participant, command)
        fault = 'Repeated /rounds/0/raw/0/command' if is_kept else 'Shape /rounds/0/raw/0/confirming'
        yield script('"rounds":[{"raw":[%s]}],"triggers":%s' % (raw, rules)), fault


def cases():
    """All scripts with their faults."""
    yield '{"rounds":[}', 'NotJson '
    yield '[]', 'Shape '
    for text, fault in MEMBERS:
        yield script(text), fault
    for text, fault in PARTICIPANT_LISTS:
        yield '{"participants":%s,"rounds":[]}' % text, fault
    for text, fault in OBSERVING:
        yield '{"participants":%s,"response_timeout":0,"rounds":[]}' % text, fault or 'Limit 16 0 /response_timeout'
        yield '{"participants":%s,"rounds":[]}' % text, fault
    yield from vetted()
    yield from counts()
    yield script('"rounds":[{"raw":[7],"submits":[7]}]'), 'Shape /rounds/0/submits/0'
    yield script('"rounds":[{"raw":[],"submits":[]},{"raw":[7],"submits":[]},{"advance":-1}]'), 'Shape /rounds/1/raw/0'
    yield from below('/rounds/0/raw', RAWS, lambda text: script('"rounds":[{"raw":%s}]' % text))
    yield from below('/rounds/0/raw/0', ONE_RAW, lambda text: script('"rounds":[{"raw":[{%s}]}]' % text))
    yield from below('/rounds/0/submits/0', SUBMISSIONS, submitting)
    yield from below(COMMANDS, COMMAND, lambda text: asking('"commands":[%s]' % text))
    yield from below(FIELD, VALUES, creating)
    yield creating('{"contract":"%s"}' % HASH), None
    yield from below(FIELD + '/contract', REFERENCES, lambda text: creating('{"contract":%s}' % json.dumps(text)))
    yield from below(DRAFT, DRAFTS, prepared)
    yield from below(DRAFT, FORGED, lambda text: prepared(
        '{"fetch":{"contract":{"id":null,"salt":"%s","instance":{"template":"K.T","fields":%s}},"actors":[]}}' % (HASH, text)))
    yield from below('/rounds/0/submits/0/seed_of', SEEDS, lambda text: asking('"prepared":[%s],"seed_of":%s' % (CREATE, text)))
    yield from with_rules()
    for text, fault in RESTARTS:
        yield script(text), fault
