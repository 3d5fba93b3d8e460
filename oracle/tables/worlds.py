"""Events of a synchroniser, with the log or the whole report that they leave, or what becomes of a job behind them, worked out by hand
from docs/PROTOCOL.md.
"""
import raws
from tables.transactions import IOU, asked, create, does, exercise, fetch, iou, known, note, party, prepared, transfer

ONE = [{"name": "P1", "parties": ["Alice"]}]
THREE = [{"name": "P1", "parties": ["Bank"]}, {"name": "P2", "parties": ["Alice", "Bob"]}, {"name": "P3", "parties": ["Carol"]}]
FOUR = THREE + [{"name": "P4", "parties": [], "observing": ["Alice"]}]


def script(participants, *submissions):
    packages = [] if participants is ONE else [IOU]
    return {"participants": participants, "packages": packages, "rounds": [{"submits": list(submissions)}]}


def words(*parts):
    return ','.join(parts)


def answers(name, reads=1):
    """A participant reads so many entries, checks what it is asked, and answers."""
    return words(*['read:' + name] * reads, 'validate:' + name, 'reply:' + name)


def decides(reads):
    """The mediator reads so many entries, and gives its verdict."""
    return words(*['mediator'] * reads, 'verdict')


def with_raws(script, *changes):
    """A script whose last request comes raw as well, once with each of these changes."""
    request = list(raws.requests_of(script))[-1]
    return dict(script, rounds=[dict(script['rounds'][0], raw=[raws.spelled(dict(request, **change)) for change in changes])])


HI = asked("P1", "c1", ["Alice"], note("Alice", "Alice", "hi"))
HELLO = asked("P1", "c2", ["Alice"], note("Alice", "Alice", "hello"))
NOTE, TWO_NOTES = script(ONE, HI), script(ONE, HI, HELLO)
NOTE_SENT = words('submit', answers('P1'), 'mediator', 'mediator')
NOTE_LOG = ['0 1 request P1 c1 to P1', '1 2 response P1 for 0 0=approve', '2 3 verdict for 0 approved']
NOTE_REPORT = ['entries 3'] + NOTE_LOG + [
    'outcome 0 approved', 'participant P1 clean 3 time 3', 'commit 0', '  create Note.Note(Alice,Alice,"hi")',
    'active 0 Note.Note(Alice,Alice,"hi")', 'end', 'consistent P1']

# the Bank owes Alice 10, and P2 has read that it was approved
C1 = asked("P1", "c1", ["Bank"], iou("Alice", 10))
OWED = words('submit', answers('P1'), decides(2), *['read:P2'] * 3)
OWED_LOG = ['0 1 request P1 c1 to P1 P2', '1 2 response P1 for 0 0=approve', '2 3 verdict for 0 approved']
BOTH_ANSWER = words(OWED, 'submit', answers('P1', 3), answers('P2', 1), decides(4))


def changed(amount):
    return does(known("#P1:c1:0"), "Transfer", ["Alice"], iou("Carol", amount), args=[party("Carol")])


TRANSFER = script(THREE, C1, asked("P2", "t1", ["Alice"], transfer(of='c1')))
WRONG_CHILD = script(THREE, C1, prepared("P2", "w1", ["Alice"], changed(11)))
USED_AFTER = script(THREE, C1, prepared("P2", "x1", ["Alice"], changed(10), fetch(known("#P1:c1:0"), ["Alice"])))
# the transfer comes raw with another list of whom to ask, and isn't framed; then as it is; and then once more
RAW_TRANSFER = with_raws(TRANSFER, {'confirming': ['P1']}, {})
TRANSIENT = script(
    THREE, asked("P2", "n1", ["Alice"], note("Alice", "Carol", "a")),
    asked("P2", "n2", ["Alice"], exercise("Note.Note", "#P2:n1:0", "Flash")))

# P4 observes Alice: it gets what she gets, answers nothing, and doesn't submit for her
OBSERVED = script(FOUR, C1, asked("P4", "o1", ["Alice"], note("Alice", "Alice", "hi")), asked("P2", "t1", ["Alice"], transfer(of='c1')))
OBSERVED_SENT = words(
    'submit', 'submit', answers('P4'), answers('P1'), decides(2), *['read:P2'] * 3, *['read:P4'] * 3, 'submit', answers('P1', 3), answers('P4', 1),
    answers('P2', 1), decides(4))

MOVED = ['commit 0', '  create Iou.Iou(Bank,Alice,10)', 'commit 3',
         '  consume Iou.Iou(Bank,Alice,10) Transfer(Carol) by Alice = ()', '    create Iou.Iou(Bank,Carol,10)']

OWED_STILL = ['commit 0', '  create Iou.Iou(Bank,Alice,10)', 'active 0 Iou.Iou(Bank,Alice,10)']
CAROLS = ['commit 3', '  create Iou.Iou(Bank,Carol,10)', 'active 3 Iou.Iou(Bank,Carol,10)']
ALL_CONSISTENT = ['consistent P1', 'consistent P2', 'consistent P3']


def approved(told):
    """All lines where the transfer is approved, with what is told of Carol's participant."""
    return ['entries 7'] + OWED_LOG + [
        '3 4 request P2 t1 to P1 P2 P3', '4 5 response P1 for 3 0=approve 0.0=approve', '5 6 response P2 for 3 0=approve',
        '6 7 verdict for 3 approved', 'outcome 0 approved', 'outcome 3 approved', 'participant P1 clean 7 time 7'] + MOVED + [
        'active 3 Iou.Iou(Bank,Carol,10)', 'participant P2 clean 7 time 7'] + MOVED + [
        'participant P3 clean 7 time 7'] + told + ['end'] + ALL_CONSISTENT


def rejected(recipients, first, second, decision):
    """All lines where the transfer is rejected."""
    return ['entries 7'] + OWED_LOG + [
        '3 4 request P2 t1 to ' + recipients, '4 5 response P1 for 3 ' + first, '5 6 response P2 for 3 ' + second, '6 7 verdict for 3 ' + decision,
        'outcome 0 approved', 'outcome 3 ' + decision, 'participant P1 clean 7 time 7'] + OWED_STILL + [
        'participant P2 clean 7 time 7'] + OWED_STILL + ['participant P3 clean 7 time 7', 'end'] + ALL_CONSISTENT


# a name, the script, the events, and all lines or, behind None, some that follow one another
CASES = [
    ('lost-reply', NOTE, words('submit', 'read:P1', 'validate:P1', 'lose:P1', 'settle'), NOTE_REPORT),
    ('lost-verdict', NOTE, words(NOTE_SENT, 'lose-verdict', 'verdict', 'settle'), NOTE_REPORT),
    ('last-moment', NOTE, words(NOTE_SENT, 'advance:60000000', 'verdict'),
     [None, '1 2 response P1 for 0 0=approve', '2 60000000 tick', '3 60000001 verdict for 0 approved', 'outcome 0 approved']),
    ('too-late', NOTE, words(NOTE_SENT, 'advance:60000001', 'verdict'),
     [None, '2 60000001 tick', 'outcome 0 undecided', 'participant P1 clean 0 time 0', 'end']),
    ('expired', NOTE, words(NOTE_SENT, 'advance:60000001', 'verdict', 'advance:1'),
     [None, '2 60000001 tick', '3 60000002 tick', 'outcome 0 expired', 'participant P1 clean 4 time 60000002', 'end']),
    ('held-response', NOTE, words('submit', 'read:P1', *['validate:P1'] * 2, *['reply:P1', 'validate:P1'] * 2, decides(2), 'verdict'),
     NOTE_REPORT),
    ('pause', TWO_NOTES, words('pause:P1', 'submit', 'wake:P1', 'submit', 'pause:P1', answers('P1'), decides(2)),
     [None, 'entries 3', '0 1 request P1 c2 to P1', '1 2 response P1 for 0 0=approve', '2 3 verdict for 0 approved', 'outcome 0 approved']),
    ('inner-view', TRANSFER, BOTH_ANSWER, approved(CAROLS)),
    ('raw', RAW_TRANSFER, words(OWED, 'raw', 'raw', 'submit', 'settle'), approved(CAROLS)),
    ('observing-host', OBSERVED, OBSERVED_SENT, ['entries 7', '0 1 request P1 c1 to P1 P2 P4'] + OWED_LOG[1:] + [
        '3 4 request P2 t1 to P1 P2 P3 P4', '4 5 response P1 for 3 0=approve 0.0=approve', '5 6 response P2 for 3 0=approve',
        '6 7 verdict for 3 approved', 'outcome 0 approved', 'outcome 3 approved', 'participant P1 clean 7 time 7'] + MOVED + [
        'active 3 Iou.Iou(Bank,Carol,10)', 'participant P2 clean 7 time 7'] + MOVED + [
        'participant P3 clean 7 time 7', 'commit 3', '  create Iou.Iou(Bank,Carol,10)', 'active 3 Iou.Iou(Bank,Carol,10)',
        'participant P4 clean 7 time 7'] + MOVED + ['end', 'consistent P1', 'consistent P2', 'consistent P3', 'consistent P4']),
    ('wrong-child', WRONG_CHILD, BOTH_ANSWER, [None] + OWED_LOG + [
        '3 4 request P2 w1 to P1 P2 P3', '4 5 response P1 for 3 0=NotConformant 0.0=approve', '5 6 response P2 for 3 0=NotConformant',
        '6 7 verdict for 3 rejected P1 0 NotConformant']),
    ('used-after', USED_AFTER, BOTH_ANSWER, [None] + OWED_LOG + [
        '3 4 request P2 x1 to P1 P2 P3', '4 5 response P1 for 3 0=approve 0.0=approve 1=Unordered',
        '5 6 response P2 for 3 0=approve 1=Unordered', '6 7 verdict for 3 rejected P1 1 Unordered']),
    ('transient', TRANSIENT, words('submit', answers('P2'), decides(2), 'read:P2', 'read:P2', 'submit', answers('P2'), decides(3)), [
        None, '0 1 request P2 n1 to P2 P3', '1 2 response P2 for 0 0=approve', '2 3 verdict for 0 approved',
        '3 4 request P2 n2 to P2 P3', '4 5 response P2 for 3 0=approve 0.0=approve 0.1=approve', '5 6 verdict for 3 approved']),
    ('another-word', NOTE, 'submit,wait', ['no events']),
    ('most-time', NOTE, 'advance:9999999999999999,advance:2', ['too late'])]

# a name, the script, whose job it is, the events, and all lines: the transfer stands at place 3 with time 4, and has expired at place 5,
# whose Tick is later than 60 seconds past that
LATE = [
    ('late-transfer', TRANSFER, 'P1', words(OWED, 'submit', *['read:P1'] * 3, answers('P2'), 'read:P1', 'advance:60000005'), [
        'place 3 left 2', 'pending, woken yes left 1', 'place 3 left 1', 'ready place 3', 'verdict 0 approve', 'verdict 0.0 approve',
        'place 3 left 2', 'pending, woken yes left 1', 'undecided', 'decided at 5', 'too late for 3', 'decided at 5', 'cancelled 3'])]

# A name, how the transfer's request is changed that is handed in in place of its submission, and all lines. The transfer has the views 0,
# which Alice and the Bank confirm, and 0.0, of which Carol and the Bank are informees and which the Bank confirms.
CHANGED = [
    ('no-envelope', {'drop': ['P1']},
     rejected('P1 P2 P3', '0=ViewMissing 0.0=ViewMissing', '0=approve', 'rejected P1 0 ViewMissing')),
    ('another-root', {'damage': ['P1']},
     rejected('P1 P2 P3', '0=RootMismatch 0.0=RootMismatch', '0=approve', 'rejected P1 0 RootMismatch')),
    ('another-sender', {'sender': 'P1'},
     rejected('P1 P2 P3', '0=WrongSender 0.0=WrongSender', '0=WrongSender', 'rejected P1 0 WrongSender')),
    ('unseen-by-carol', {'informees': [([0, 0], ['Bank'])]},
     rejected('P1 P2', '0=approve 0.0=WrongCommon', '0=approve', 'rejected P1 0.0 WrongCommon')),
    ('withheld-from-carol', {'drop': ['P3']}, approved(['withheld 3']))]

# A name, the script, and all lines. The Bank's request stands at place 0 with its two entries behind it, and Alice's at place 3 with two
# responses and a verdict. Who asks at once has seen the entries as far as the own request, and who asks behind the turns all. In a
# turn each participant reads to the end of the log before it checks, so that responses come in the order of participants.
SHARED = {**TRANSFER, "rounds": [{"submits": [submission]} for submission in TRANSFER["rounds"][0]["submits"]]}
SHARING = [
    ('two-sharings', SHARED, [
        'ticket of P1 at 0', 'told undecided over 1', 'told approved over 3', 'seen in the log yes', 'told approved over 3',
        'ticket of P2 at 3', 'told undecided over 4', 'told approved over 7', 'seen in the log yes', 'entries 7'] + OWED_LOG + [
        '3 4 request P2 t1 to P1 P2 P3', '4 5 response P1 for 3 0=approve 0.0=approve', '5 6 response P2 for 3 0=approve',
        '6 7 verdict for 3 approved', 'outcome 0 approved', 'outcome 3 approved', 'end'])]
