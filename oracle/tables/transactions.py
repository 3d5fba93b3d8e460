"""Scripts whose submissions become transactions, or are refused."""

IOU = {"name": "Iou", "templates": [
    {"name": "Iou",
     "fields": [{"name": "issuer", "type": "Party"}, {"name": "owner", "type": "Party"}, {"name": "amount", "type": "Int"}],
     "ensure": ["lt", 0, ["var", "this.amount"]],
     "signatories": ["set", ["var", "this.issuer"]],
     "observers": ["set", ["var", "this.owner"]],
     "choices": [
         {"name": "Transfer", "consuming": True, "params": [{"name": "to", "type": "Party"}],
          "controllers": ["set", ["var", "this.owner"]],
          "body": [{"create": {"bind": "x", "template": "Iou.Iou",
                               "fields": [["var", "this.issuer"], ["var", "arg.to"], ["var", "this.amount"]]}}]},
         {"name": "Grow", "consuming": True, "params": [{"name": "by", "type": "Int"}],
          "controllers": ["set", ["var", "this.issuer"]],
          "body": [{"create": {"bind": "x", "template": "Iou.Iou",
                               "fields": [["var", "this.issuer"], ["var", "this.owner"],
                                          ["add", ["var", "this.amount"], ["var", "arg.by"]]]}}]}]},
    {"name": "Loop", "fields": [{"name": "owner", "type": "Party"}],
     "signatories": ["set", ["var", "this.owner"]],
     "choices": [{"name": "Down", "consuming": False, "params": [{"name": "n", "type": "Int"}],
                  "controllers": ["set", ["var", "this.owner"]],
                  "body": [{"when": {"if": ["lt", 0, ["var", "arg.n"]],
                                     "then": [{"exercise": {"bind": "y", "template": "Iou.Loop", "contract": ["var", "self"],
                                                            "choice": "Down", "args": [["sub", ["var", "arg.n"], 1]]}}]}}]}]}]}

# A debt has observers where one more than its amount can be told, and a list of texts is as large as they are.
OTHER = {"name": "K", "templates": [
    {"name": "Debt",
     "fields": [{"name": "owner", "type": "Party"}, {"name": "amount", "type": "Int"}],
     "signatories": ["set", ["var", "this.owner"]],
     "observers": ["if", ["lt", ["add", ["var", "this.amount"], 1], 0], ["set"], ["set"]],
     "choices": [
         {"name": "Look", "consuming": False, "controllers": ["set", ["var", "this.owner"]], "returns": "Int",
          "body": [{"fetch": {"bind": "c", "template": "K.Debt", "contract": ["var", "self"]}},
                   {"let": ["next", ["add", ["var", "c.amount"], 1]]},
                   {"assert": ["lt", ["var", "next"], 12]}],
          "result": ["var", "next"]},
         {"name": "Ask", "consuming": False, "params": [{"name": "who", "type": "Party"}],
          "controllers": ["set", ["var", "this.owner"]], "observers": ["set", ["var", "arg.who"]], "returns": "Int",
          "body": [{"exercise": {"bind": "r", "template": "K.Debt", "contract": ["var", "self"], "choice": "Look", "args": []}},
                   {"when": {"if": ["eq", ["var", "r"], 8],
                             "then": [{"create": {"bind": "n", "template": "Note.Note",
                                                  "fields": [["var", "this.owner"], ["var", "arg.who"], "eight"]}}],
                             "else": [{"create": {"bind": "n", "template": "Note.Note",
                                                  "fields": [["var", "this.owner"], ["var", "this.owner"], "other"]}}]}}],
          "result": ["mul", ["var", "r"], 2]}]},
    {"name": "Open", "fields": [{"name": "parties", "type": "Parties"}],
     "signatories": ["var", "this.parties"]},
    {"name": "Texts",
     "fields": [{"name": "owner", "type": "Party"}] + [{"name": n, "type": "Text"} for n in "abcd"],
     "signatories": ["set", ["var", "this.owner"]],
     "choices": [
         {"name": "Say", "consuming": False, "params": [{"name": n, "type": "Text"} for n in "abcd"],
          "controllers": ["set", ["var", "this.owner"]]},
         {"name": "Copy", "consuming": False, "controllers": ["set", ["var", "this.owner"]],
          "body": [{"create": {"bind": n, "template": "K.Texts",
                               "fields": [["var", "this.owner"]] + [["var", "this." + f] for f in "abcd"]}} for n in "xyz"]},
         {"name": "Join", "consuming": False, "controllers": ["set", ["var", "this.owner"]], "returns": "Text",
          "result": ["cat", ["var", "this.a"], ["var", "this.b"]]}]}]}

PARTICIPANTS = [{"name": "P1", "parties": ["Bank"]}, {"name": "P2", "parties": ["Alice", "Bob"]},
                {"name": "P3", "parties": ["Carol"]}, {"name": "P4", "parties": []}]
MOST = 2 ** 63 - 1


def script(*submissions):
    """A script with a submission in each round."""
    return {"participants": PARTICIPANTS, "packages": [IOU, OTHER], "rounds": [{"submits": [s]} for s in submissions]}


def party(name):
    return {"party": name}


def asked(participant, command, act_as, *commands):
    return {"participant": participant, "command": command, "act_as": act_as, "commands": list(commands)}


def prepared(participant, command, act_as, *drafts):
    return {"participant": participant, "command": command, "act_as": act_as, "prepared": list(drafts)}


def create(template, *fields):
    return {"create": {"template": template, "fields": list(fields)}}


def exercise(template, contract, choice, *args):
    return {"exercise": {"template": template, "contract": contract, "choice": choice, "args": list(args)}}


def iou(owner, amount):
    return create("Iou.Iou", party("Bank"), party(owner), amount)


def note(owner, reader, text):
    return create("Note.Note", party(owner), party(reader), text)


def transfer(to='Carol', of='iou'):
    return exercise("Iou.Iou", "#P1:%s:0" % of, "Transfer", party(to))


def grow(by, of='iou'):
    return exercise("Iou.Iou", "#P1:%s:0" % of, "Grow", by)


def down(count):
    return exercise("Iou.Loop", "#P2:loop:0", "Down", count)


def texts(template, lengths, *front):
    return create(template, *(list(front) + ['x' * n for n in lengths]))


# contracts that the scripts below begin with
KNOWN = [
    asked("P1", "iou", ["Bank"], iou("Alice", 10)), asked("P1", "most", ["Bank"], iou("Alice", MOST)),
    asked("P2", "loop", ["Alice"], create("Iou.Loop", party("Alice"))), asked("P2", "note", ["Alice"], note("Alice", "Carol", "hi"))]

TRANSFER = script(
    asked("P1", "c1", ["Bank"], iou("Alice", 10)),
    asked("P2", "t1", ["Alice"], exercise("Iou.Iou", "#P1:c1:0", "Transfer", party("Carol"))))
FLASH = script(
    asked("P2", "n1", ["Alice"], note("Alice", "Carol", "a")),
    asked("P2", "n2", ["Alice"], exercise("Note.Note", "#P2:n1:0", "Flash")))

REFUSALS = script(
    *KNOWN,
    asked("P2", "a1", ["Alice"], create("Iou.Nope", 1)),
    asked("P2", "a2", ["Alice"], exercise("Iou.Iou", "#P1:iou:0", "Nope")),
    asked("P2", "a3", ["Alice"], create("Iou.Iou", party("Bank"))),
    asked("P2", "a4", ["Alice"], exercise("Iou.Iou", "#P1:iou:0", "Transfer", {"contract": "#P1:nobody:0"})),
    asked("P2", "a5", ["Alice"], exercise("Iou.Iou", "#P1:nobody:0", "Transfer", 7)),
    asked("P2", "b1", ["Alice"], transfer(), create("Iou.Nope", 1)),
    asked("P3", "b2", ["Carol"], transfer(), create("Iou.Nope", 1)),
    asked("P2", "c1", ["Alice"], transfer(of='nobody')),
    asked("P2", "c2", ["Alice"], exercise("Iou.Loop", "#P1:iou:0", "Down", 0)),
    asked("P2", "c3", ["Alice"], transfer(), transfer()),
    asked("P2", "c4", ["Alice"], note("Alice", "Carol", "x"), exercise("Note.Note", "#P2:c4:0", "Archive")),
    asked("P2", "c5", ["Alice"], note("Alice", "Carol", "x"), exercise("Note.Note", "#P2:note:0", "Archive")),
    asked("P2", "c6", ["Alice"], exercise("Note.Note", "00" * 32, "Archive")),
    asked("P1", "d1", ["Bank"], grow(1, 'most')),
    asked("P1", "d2", ["Bank"], iou("Alice", 0)),
    asked("P1", "d3", ["Bank"], grow(-10)),
    asked("P2", "e1", ["Alice"], iou("Alice", 5)),
    asked("P1", "e2", ["Bank"], transfer()),
    asked("P2", "e3", ["Alice"], iou("Alice", 0)),
    asked("P2", "f1", ["Alice"], create("K.Open", {"parties": []})),
    asked("P2", "f2", ["Alice"], create("K.Open", {"parties": ["Bob", "Alice"]})),
    asked("P2", "f3", ["Bob", "Alice"], create("K.Open", {"parties": ["Bob", "Alice"]})),
    asked("P2", "f4", ["Alice"], create("K.Debt", party("Alice"), MOST)))

DEPTHS = script(
    *KNOWN,
    asked("P2", "d15", ["Alice"], down(15)),
    asked("P2", "d16", ["Alice"], down(16)),
    asked("P2", "m64", ["Alice"], down(15), down(15), down(15), down(14), note("Alice", "Alice", "hi")),
    asked("P2", "m65", ["Alice"], down(15), down(15), down(15), down(15), note("Alice", "Alice", "hi")))

# the instance K.Texts(Alice,..) has 16 bytes and 3 more for each text, and arguments have 1 and 3 more for each text
SIZES = script(
    asked("P2", "t1", ["Alice"], texts("K.Texts", (256, 256, 256, 228), party("Alice"))),
    asked("P2", "t2", ["Alice"], texts("K.Texts", (256, 256, 256, 229), party("Alice"))),
    asked("P2", "s1", ["Alice"], {"exercise": {"template": "K.Texts", "contract": "#P2:t1:0", "choice": "Say",
                                               "args": ['y' * n for n in (256, 256, 256, 243)]}}),
    asked("P2", "s2", ["Alice"], {"exercise": {"template": "K.Texts", "contract": "#P2:t1:0", "choice": "Say",
                                               "args": ['y' * n for n in (256, 256, 256, 244)]}}),
    asked("P2", "j1", ["Alice"], exercise("K.Texts", "#P2:t1:0", "Join")),
    asked("P2", "c7", ["Alice"], *[exercise("K.Texts", "#P2:t1:0", "Copy")] * 7),
    asked("P2", "c8", ["Alice"], *[exercise("K.Texts", "#P2:t1:0", "Copy")] * 8))

BODIES = script(
    asked("P2", "k7", ["Alice"], create("K.Debt", party("Alice"), 7)),
    asked("P2", "k9", ["Alice"], create("K.Debt", party("Alice"), 9)),
    asked("P2", "k11", ["Alice"], create("K.Debt", party("Alice"), 11)),
    asked("P2", "look", ["Alice"], exercise("K.Debt", "#P2:k7:0", "Look")),
    asked("P2", "much", ["Alice"], exercise("K.Debt", "#P2:k11:0", "Look")),
    asked("P2", "ask", ["Alice"], exercise("K.Debt", "#P2:k7:0", "Ask", party("Carol"))),
    asked("P2", "other", ["Alice"], exercise("K.Debt", "#P2:k9:0", "Ask", party("Bank"))),
    asked("P2", "late", ["Alice"], exercise("K.Debt", "#P2:k11:0", "Ask", party("Bank"))))

TWO_SPENDS = script(*KNOWN, asked("P2", "s1", ["Alice"], transfer()), asked("P2", "s2", ["Alice"], transfer('Bob')))


# faults in bodies: a contract that is used after it was consumed, nobody who signs, and an instance that is too large
USED = {"name": "Used", "templates": [{
    "name": "Used", "fields": [{"name": "owner", "type": "Party"}], "signatories": ["set", ["var", "this.owner"]],
    "choices": [
        {"name": "Gone", "consuming": True, "controllers": ["set", ["var", "this.owner"]],
         "body": [{"fetch": {"bind": "c", "template": "Used.Used", "contract": ["var", "self"]}}]},
        {"name": "Twice", "consuming": False, "controllers": ["set", ["var", "this.owner"]],
         "body": [{"exercise": {"bind": n, "template": "Used.Used", "contract": ["var", "self"], "choice": "Archive", "args": []}}
                  for n in "xy"]},
        {"name": "Nobody", "consuming": False, "controllers": ["set", ["var", "this.owner"]],
         "body": [{"create": {"bind": "n", "template": "K.Open", "fields": [["set"]]}}]},
        {"name": "Large", "consuming": False, "controllers": ["set", ["var", "this.owner"]],
         "body": [{"create": {"bind": "n", "template": "K.Texts", "fields": [["var", "this.owner"]] + ['x' * 256] * 4}}]}]}]}
IN_BODIES = dict(script(
    asked("P2", "u", ["Alice"], create("Used.Used", party("Alice"))),
    *[asked("P2", choice.lower(), ["Alice"], exercise("Used.Used", "#P2:u:0", choice)) for choice in ("Gone", "Twice", "Nobody", "Large")]),
    packages=[IOU, OTHER, USED])


# --- prepared trees

def known(label):
    return {"known": label}


def forged(template, fields, salt='ab' * 32, named=None):
    return {"id": named, "salt": salt, "instance": {"template": template, "fields": fields}}


def does(contract, choice, actors, *children, args=(), consuming=True, result=None):
    return {"exercise": {"contract": contract, "choice": choice, "args": list(args), "actors": actors, "consuming": consuming,
                         "result": result, "children": list(children)}}


def fetch(contract, actors):
    return {"fetch": {"contract": contract, "actors": actors}}


IOU_10 = known("#P1:iou:0")
TO_CAROL = dict(args=[party("Carol")])
PREPARED = script(
    *KNOWN,
    prepared("P2", "right", ["Alice"], does(IOU_10, "Transfer", ["Alice"], iou("Carol", 10), **TO_CAROL)),
    prepared("P2", "child", ["Alice"], does(IOU_10, "Transfer", ["Alice"], iou("Carol", 11), **TO_CAROL)),
    prepared("P2", "two", ["Alice"], does(IOU_10, "Transfer", ["Alice"], iou("Carol", 10), iou("Carol", 10), **TO_CAROL)),
    prepared("P2", "none", ["Alice"], does(IOU_10, "Transfer", ["Alice"], **TO_CAROL)),
    prepared("P2", "result", ["Alice"], does(IOU_10, "Transfer", ["Alice"], iou("Carol", 10), args=[party("Carol")], result=1)),
    prepared("P2", "actors", ["Alice", "Bob"], does(IOU_10, "Transfer", ["Alice", "Bob"], iou("Carol", 10), **TO_CAROL)),
    prepared("P2", "nobody", ["Alice"], does(IOU_10, "Transfer", [], iou("Carol", 10), **TO_CAROL)),
    prepared("P2", "kept", ["Alice"], does(IOU_10, "Transfer", ["Alice"], iou("Carol", 10), args=[party("Carol")], consuming=False)),
    prepared("P2", "choice", ["Alice"], does(IOU_10, "Nope", ["Alice"])),
    prepared("P2", "kind", ["Alice"], does(IOU_10, "Transfer", ["Alice"], iou("Carol", 10), args=[1])),
    prepared("P3", "unseen", ["Carol"], iou("Alice", 10)),
    prepared("P4", "fetched", ["Alice", "Bank"], fetch(IOU_10, ["Alice", "Bank"]), fetch(IOU_10, ["Alice"]), fetch(IOU_10, [])),
    prepared("P2", "stranger", ["Alice"], fetch(IOU_10, ["Carol"])),
    prepared("P2", "unknown", ["Alice"], iou("Alice", 1), fetch(known("#P1:nobody:0"), ["Alice"])),
    prepared("P2", "label", ["Alice"], does(IOU_10, "Transfer", ["Alice"], args=[{"contract": "#P1:nobody:0"}])),
    prepared("P2", "inner", ["Alice"], does(IOU_10, "Transfer", ["Alice"], fetch(known("00" * 32), ["Alice"]), **TO_CAROL)))

FORGED = script(
    *KNOWN,
    prepared("P2", "f1", ["Alice"], fetch(forged("Iou.Iou", [party("Bank"), party("Alice"), 99]), ["Alice"])),
    prepared("P2", "f2", ["Alice"], fetch(forged("Iou.Iou", [party("Bank"), party("Alice"), 99], named="#P1:iou:0"), ["Alice"])),
    prepared("P2", "f3", ["Alice"], fetch(forged("Iou.Iou", [party("Bank"), party("Alice"), True]), ["Alice"])),
    prepared("P2", "f4", ["Alice"], fetch(forged("K.Debt", [party("Alice"), MOST]), ["Alice"])),
    prepared("P2", "f5", ["Alice"], does(forged("K.Debt", [party("Alice"), MOST]), "Look", ["Alice"], consuming=False, result=8)),
    prepared("P2", "f6", ["Alice"], does(
        forged("K.Debt", [party("Alice"), 7]), "Look", ["Alice"],
        fetch(forged("K.Debt", [party("Alice"), 7]), ["Alice"]), consuming=False, result=8)),
    prepared("P2", "f7", ["Alice"], does(
        forged("K.Debt", [party("Alice"), 7], named="cd" * 32), "Look", ["Alice"],
        fetch(forged("K.Debt", [party("Alice"), 9], named="cd" * 32), ["Alice"]), consuming=False, result=10)),
    prepared("P2", "f8", ["Alice"], does(
        forged("K.Debt", [party("Alice"), 7], named="cd" * 32), "Look", ["Alice"],
        fetch(forged("K.Debt", [party("Alice"), True], named="cd" * 32), ["Alice"]), consuming=False, result=8)),
    prepared("P2", "f9", ["Alice"], does(forged("No.Such", [1]), "Look", ["Alice"], consuming=False)))

LENT = dict(prepared("P1", "lent", ["Bank"], iou("Alice", 10)), seed_of=["P1", "iou"])
SPENT = does(IOU_10, "Transfer", ["Alice"], iou("Carol", 10), **TO_CAROL)
ORDERS = script(
    *KNOWN,
    prepared("P2", "twice", ["Alice"], SPENT, SPENT),
    prepared("P2", "after", ["Alice"], SPENT, fetch(IOU_10, ["Alice"])),
    prepared("P2", "within", ["Alice"], does(IOU_10, "Transfer", ["Alice"], fetch(IOU_10, ["Alice"]), **TO_CAROL)),
    LENT)
AGAIN = script(*KNOWN, LENT, prepared("P2", "look", ["Alice"], fetch(known("#P1:iou:0"), ["Alice"])))
UNMADE = script(prepared("P2", "look", ["Alice"], fetch(forged("Iou.Iou", [party("Bank"), party("Alice"), 5]), ["Alice"])))
OTHER_INSTANCE = script(*KNOWN, prepared("P2", "look", ["Alice"], fetch(
    forged("Iou.Iou", [party("Bank"), party("Alice"), 99], named="#P1:iou:0"), ["Alice"])))

# Loop has Alice as its only informee, a transfer Alice and the Bank too, and what it creates the Bank and Carol.
NESTED = script(
    *KNOWN,
    dict(prepared(
        "P2", "deep", ["Alice"],
        does(known("#P2:loop:0"), "Down", ["Alice"],
             does(IOU_10, "Transfer", ["Alice"], iou("Carol", 10), does(known("#P2:loop:0"), "Down", ["Alice"], args=[0], consuming=False),
                  **TO_CAROL),
             does(known("#P2:note:0"), "Archive", ["Alice"]), args=[1], consuming=False),
        note("Alice", "Alice", "beside")), ledger_time=77))

NAMED = [
    ('transfer', TRANSFER), ('flash', FLASH), ('refusals', REFUSALS), ('depths', DEPTHS), ('sizes', SIZES), ('bodies', BODIES),
    ('in-bodies', IN_BODIES), ('two-spends', TWO_SPENDS), ('prepared', PREPARED), ('forged', FORGED), ('orders', ORDERS),
    ('again', AGAIN), ('unmade', UNMADE), ('other-instance', OTHER_INSTANCE), ('nested', NESTED)]

# what was worked out by hand of these scripts: lines of the expected output
WORKED = {
    'transfer': ['view 0 Alice,Bank on P1,P2', 'confirmed 0 Alice,Bank on P1,P2', 'view 0.0 Bank,Carol on P1,P3', 'confirmed 0.0 Bank on P1'],
    'flash': ['view 0 Alice on P2', 'view 0.0 Alice,Carol on P2,P3', 'view 0.1 Alice,Carol on P2,P3'],
    'refusals': [
        'refused UnknownTemplate 0', 'refused UnknownChoice 0', 'refused BadArgs 0', 'refused UnknownTemplate 1',
        'refused Unauthorised 0', 'refused ContractUnknown 0', 'refused ContractUnknown 1', 'refused Overflow 0', 'refused Ensure 0',
        'refused Ensure 0.0', 'refused NoSignatory 0'],
    'depths': ['bytes 2224', 'refused TooDeep ' + '.'.join('0' * 17), 'bytes %d' % (63 * 139 + 95), 'refused TooMany 4'],
    'sizes': ['refused TooLarge 0', 'refused TooBig 35232'],
    'bodies': ['refused Assert 0', 'refused Assert 0.0', '    fetch K.Debt(Alice,7) by Alice'],
    'in-bodies': ['refused ContractUnknown 0.0', 'refused ContractUnknown 0.1', 'refused NoSignatory 0.0', 'refused TooLarge 0.0'],
    'two-spends': ['ledger inconsistent 5 0'], 'unmade': ['ledger inconsistent 0 0'], 'again': ['ledger inconsistent 4 0'],
    'other-instance': ['ledger inconsistent 4 0'],
    'orders': ['ordered no 1', 'ordered no 0.0']}
