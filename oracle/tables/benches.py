"""Work of which the time is taken, with what it writes. What was counted by hand of a transfer stands beside it."""
from tables.transactions import IOU, asked, iou, transfer

HOSTS = [{"name": "P1", "parties": ["Bank"]}, {"name": "P2", "parties": ["Alice", "Bob"]}, {"name": "P3", "parties": ["Carol"]}]
TRANSFER = {"participants": HOSTS, "packages": [IOU], "rounds": [
    {"submits": [asked("P1", "c1", ["Bank"], iou("Alice", 10))]},
    {"submits": [asked("P2", "t1", ["Alice"], transfer(of='c1'))]}]}
COUNT, FEW = 5, 2

# For each of six leaves a salt and a hash, and a hash for each of two vertices. Then the trees of the Bank and of Alice take the hashes of
# six leaves, two vertices and the whole, Carol's and the mediator's those of three leaves, two vertices and the whole; and the Bank's
# once more for the root.
BLIND = '%d hashes, %d verified' % (FEW * (6 + 6 + 2 + 9 + 9 + 6 + 6 + 9), FEW * 4)
STRINGS = '%d hashes alone' % (FEW * (3 + 1 + 6 + 6 + 2))

# what is encoded by turns: a debt of 10 of the Bank to Alice, and its transfer to Bob
INSTANCE = ('Iou', 'Iou', [('Party', 'Bank'), ('Party', 'Alice'), ('Int', 10)])
ACTIONS = [
    {'kind': 'create', 'id': b'\1' * 32, 'instance': INSTANCE},
    {'kind': 'exercise', 'id': b'\1' * 32, 'salt': b'\2' * 32, 'instance': INSTANCE, 'choice': 'Transfer', 'args': [('Party', 'Bob')],
     'actors': ['Alice'], 'consuming': True, 'result': ('Unit', None)}]

# texts that aren't scripts, and texts as JSON values
FAULTS = [('{"participants":[', 'NotJson'), ('{}', 'Shape')]
VALUES = [('{"a":[1,2]}', 'a value'), ('{"a":', 'NotJson')]
