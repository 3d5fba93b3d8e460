"""Whole runs of scripts in which participants restart, with the text that is written, worked out by hand: all of it is that of the script
without restarts, but for the lines of whoever restarted.
"""
import json

from tables.commit_runs import THREE
from tables.runs import NOTE, TIMED_OUT, TIMEOUT, TRANSFER, TRANSFERRED, report, submission
from tables.transactions import asked, note, transfer
from tables.trigger_runs import ALICE, BOB, rule
from tables.trigger_runs import script as script_with_rules


def with_rounds(source, change):
    """The script with its rounds changed."""
    script = json.loads(source)
    return json.dumps(dict(script, rounds=change(script['rounds'])), separators=(',', ':'))


def restarting(source, *restarts):
    """The script in whose rounds these participants restart; a round more for each that it hasn't."""
    def change(rounds):
        rounds = rounds + [{} for _ in restarts[len(rounds):]]
        return [dict(round_, restart=names) if names else round_ for round_, names in zip(rounds, list(restarts) + [[]] * len(rounds))]
    return with_rounds(source, change)


CREATED = 'commit 0\n  create Iou.Iou(Bank,Alice,10)\n'
SPENT = 'commit 3\n  consume Iou.Iou(Bank,Alice,10) Transfer(Carol) by Alice = ()\n    create Iou.Iou(Bank,Carol,10)\n'
GOT = 'commit 3\n  create Iou.Iou(Bank,Carol,10)\n'
LEFT = 'active 3 Iou.Iou(Bank,Carol,10)\n'


def parts(one, other, third):
    """The text of the transfer with these lines behind those of the participants."""
    head = TRANSFERRED[:TRANSFERRED.index('participant P1')]
    told = zip(('P1', 'P2', 'P3'), (one, other, third))
    return head + ''.join('participant %s clean 7 time 7\n%s' % each for each in told) + 'end\n'


# P1 has forgotten the first commit, and knows the contract that the second consumes
AFTER_ONE = parts('pruned 3\n' + SPENT + LEFT, CREATED + SPENT, GOT + LEFT)
# P2 consumes what it has forgotten to have been created
OF_ALL = parts('pruned 3\n' + SPENT + LEFT, 'pruned 3\n' + SPENT, 'pruned 3\n' + GOT + LEFT)
# the first restart doesn't show, and the contracts stay
OF_LATE = parts('pruned 7\n' + LEFT, 'pruned 7\n', 'pruned 7\n' + LEFT)

# an undecided request keeps P1's base at its place; P2's request is timed out later
HALTED = TIMED_OUT.replace('participant P2 clean 7 time 30000006\n' + CREATED, 'participant P2 clean 7 time 30000006\npruned 3\n')

# a participant restarts twice in the round in which it first reads something
AT_FIRST = report('hi').replace('participant P1 clean 3 time 3\n', 'participant P1 clean 3 time 3\npruned 0\n')
NOTES = NOTE % ','.join(json.dumps({"submits": [submission('hi', 'n%d' % at)], "restart": ["P1"]}, separators=(',', ':')) for at in range(3))
NOTES_TOLD = '''entries 9
0 1 request P1 n0 to P1
1 2 response P1 for 0 0=approve
2 3 verdict for 0 approved
3 4 request P1 n1 to P1
4 5 response P1 for 3 0=approve
5 6 verdict for 3 approved
6 7 request P1 n2 to P1
7 8 response P1 for 6 0=approve
8 9 verdict for 6 approved
result 0 P1 n0 sent 0
result 1 P1 n1 sent 3
result 2 P1 n2 sent 6
outcome 0 approved
outcome 3 approved
outcome 6 approved
participant P1 clean 9 time 9
pruned 6
commit 6
  create Note.Note(Alice,Alice,"hi")
active 0 Note.Note(Alice,Alice,"hi")
active 3 Note.Note(Alice,Alice,"hi")
active 6 Note.Note(Alice,Alice,"hi")
end
'''

# P2 is paused in both rounds and restarts in the second: its rule sees the note then, is refused, and never fires on it again
NOTED = submission('go', 'c', 'Bob')
PAUSED_RULE = script_with_rules([ALICE, BOB], [rule('r', 'P2', 'Bob')], {"submits": [NOTED], "paused": ["P2"]}, {"paused": ["P2"], "restart": ["P2"]}, {})
RULE_REFUSED = '''entries 3
0 1 request P1 c to P1 P2
1 2 response P1 for 0 0=approve
2 3 verdict for 0 approved
result 0 P1 c sent 0
result 1 P2 r-0 refused Paused
fired 1 r Note.Note(Alice,Bob,"go") as r-0
outcome 0 approved
participant P1 clean 3 time 3
commit 0
  create Note.Note(Alice,Bob,"go")
active 0 Note.Note(Alice,Bob,"go")
participant P2 clean 3 time 3
pruned 3
active 0 Note.Note(Alice,Bob,"go")
end
'''

# a request whose time is past behind the round's Tick, and not where the round begins
HELD = NOTE % ','.join(json.dumps(round_, separators=(',', ':')) for round_ in (
    {"submits": [submission('hi')], "hold_verdicts": True}, {"advance": 60000002, "hold_verdicts": True, "restart": ["P1"]}))
HELD_TOLD = '''entries 3
0 1 request P1 c1 to P1
1 2 response P1 for 0 0=approve
2 60000002 tick
result 0 P1 c1 sent 0
outcome 0 expired
participant P1 clean 3 time 60000002
pruned 0
end
'''

# Bob spends a contract that P2 has forgotten to have been created, and can't spend it again once that is forgotten too
SPENDS = with_rounds(TRANSFER, lambda rounds: rounds + [{"submits": [asked('P2', 't2', ['Alice'], transfer(of='c1'))], "restart": ["P2"]}])
SPENT_TWICE = parts(CREATED + SPENT + LEFT, 'pruned 7\n', GOT + LEFT).replace('outcome 0', 'result 2 P2 t2 refused ContractUnknown\noutcome 0')

# a name, the words, the source, and the text
RUNS = [
    ('a-restart', 'run', restarting(TRANSFER, [], ['P1']), AFTER_ONE),
    ('restarts-of-all', 'run', restarting(TRANSFER, [], ['P3', 'P1', 'P2', 'P1']), OF_ALL),
    ('restarts-again', 'run', restarting(TRANSFER, [], ['P1', 'P2'], ['P1', 'P2', 'P3'], []), OF_LATE),
    ('a-restart-in-front-of-a-tick', 'run', restarting(TIMEOUT, [], [], ['P2']), HALTED),
    ('a-restart-before-a-request-expires', 'run', HELD, HELD_TOLD),
    ('a-restart-at-first', 'run', NOTE % json.dumps({"submits": [submission('hi')], "restart": ["P1", "P1"]}, separators=(',', ':')), AT_FIRST),
    ('restarts-in-each-round', 'run', NOTES, NOTES_TOLD),
    ('restarts-in-each-round-with-workers', 'run,--workers,4', NOTES, NOTES_TOLD),
    ('a-rule-of-a-paused-participant-that-restarts', 'run', PAUSED_RULE, RULE_REFUSED),
    ('a-spent-contract-after-a-restart', 'run', SPENDS, SPENT_TWICE)]

# the same transfer, of which P3's envelope was left out: its changes, who restarts in which round, and P3's lines
WITHHELD = [
    ('withheld-from-one-that-restarts', {'drop': ['P3']}, [[], ['P3']], 'pruned 3\nwithheld 3\n'),
    ('withheld-and-forgotten', {'drop': ['P3']}, [[], [], ['P3']], 'pruned 7\n')]

# P3's note for Bob stays undecided, so nobody but P1 can forget anything
THREE_NOTED = json.dumps(
    {"participants": [{"name": "P1", "parties": ["Alice"]}, {"name": "P2", "parties": ["Bob"]}, {"name": "P3", "parties": ["Carol"]}], "rounds": [
        {"submits": [asked('P3', 'c', ['Carol'], note('Carol', 'Bob', 'a'))], "hold_verdicts": True},
        {"hold_verdicts": True, "restart": ["P1", "P2"]}]},
    separators=(',', ':'))

# what is committed: the words, the source, and the text
COMMITS = [
    ('commitments-after-restarts', 'commitments', restarting(TRANSFER, [], ['P1', 'P2'], ['P3']),
     'pair P1 P2 at 7 count 0 0 equal\npair P1 P3 at 7 count 1 1 equal\npair P2 P3 at 7 count 0 0 equal\nend\n'),
    ('commitments-of-what-is-forgotten', 'commitments', THREE_NOTED,
     'pair P1 P2 pruned 2\npair P1 P3 pruned 2\npair P2 P3 at 0 count 0 0 equal\nend\n')]
