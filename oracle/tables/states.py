"""Bytes of states of participants, with the place of the first field that can't be read, or with how much is kept of what."""
from tables.bytes import HI, ID, SALT


def place(number):
    return '%016x' % number


def position(base, time, paused='00'):
    return '0100' + place(base) + place(time) + paused


NONE, PATH, HASH = '00000000', '010000', 'dd' * 32
EMPTY = position(0, 0) + NONE * 5
REQUEST = '01' + '02' + '026331' + HASH + '0002' + PATH + PATH + '0001' + PATH
ITEMS = [
    place(10) + '00',
    place(11) + REQUEST + '00',
    place(12) + REQUEST + '01' + '00000003' + '616263',
    place(13) + '02' + place(4) + '00',
    place(14) + '02' + place(4) + '01' + '01' + PATH + '05',
    place(15) + '02' + place(4) + '02' + '02' + '00' + '02']
RESPONSE = '00' + place(3) + '0002' + PATH + '00' + PATH + '01' + '05' + '0003'
FULL = (position(2, 9, '01') + '00000001' + place(1) + SALT + HI + '00000002' + ID + SALT + '00000006' + ''.join(ITEMS)
        + '00000001' + RESPONSE + '00000002' + place(3) + place(5))

CASES = [
    (EMPTY, None, 'base 0 time 0 active 0 gone 0 items 0 responses 0 done 0'),
    (FULL, None, 'base 2 time 9 active 1 gone 2 items 6 responses 1 done 2'),
    ('', 0, None),
    ('02', 0, None),
    ('02' + EMPTY[2:], 0, None),
    (EMPTY[:-2], 35, None),
    (EMPTY + '00', 39, None),
    (position(0, 0, '02') + NONE * 5, 18, None),
    (position(0, 0) + '00000001' + NONE * 4, 31, None),
    (position(0, 0) + NONE + '00000002' + ID + ID + NONE * 3, 59, None),
    (position(0, 0) + NONE + '00000002' + SALT + ID + NONE * 3, 59, None),
    (position(0, 0) + NONE * 2 + '00000001' + place(1) + '03' + NONE * 2, 39, None),
    (position(0, 0) + NONE * 4 + '00000002' + place(3) + place(3), 47, None),
    (position(0, 0) + NONE * 4 + '00000002' + place(5) + place(3), 47, None)]

# what the second participant keeps once the transfer's request is left undecided: the contract, the request and its own response
KEPT = 'base 3 time 3 active 1 gone 0 items 2 responses 0 done 1'
