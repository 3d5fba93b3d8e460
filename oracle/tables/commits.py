"""Calls of trees of commitments, and sets of ids beside one another. What is worked out by hand is what each call answers, and the bucket."""
ZERO, ONE, LAST = '00' * 32, '00' * 31 + '01', 'ff' * 32
MIDDLE, NEXT = '80' + '00' * 31, '81' + '00' * 31
EMPTY_ROOT = 'b3694c484c76e214349351dcf6c4348b5b2e21bcc8417cdaeefb17d5e946aa4e'
ROOT_OF_ZERO = 'b96f30f92430e67d84c7c8db86f9adf35d1cb383004cafe24b86d2df59b2b1e9'
ROOT_OF_THREE = 'aea447480f267b4d12f906bdcf7461357f4da4dc138508d952e0db29340806e6'

# the calls, and the line that answers them
CALLS = [
    (['-' + ZERO], 'no ' + EMPTY_ROOT),
    (['+' + ZERO], 'yes ' + ROOT_OF_ZERO),
    (['+' + ZERO, '+' + ZERO], 'yes no ' + ROOT_OF_ZERO),
    (['+' + ZERO, '-' + ZERO], 'yes yes ' + EMPTY_ROOT),
    (['+' + ZERO, '-' + ZERO, '+' + ZERO], 'yes yes yes ' + ROOT_OF_ZERO),
    (['+' + LAST, '+' + ONE, '+' + ZERO], 'yes yes yes ' + ROOT_OF_THREE),
    (['+' + ZERO, '+' + MIDDLE, '+' + LAST, '-' + MIDDLE, '+' + ONE, '-' + MIDDLE], 'yes yes yes yes yes no ' + ROOT_OF_THREE),
    (['+' + NEXT, '+' + MIDDLE, '-' + ZERO], None),
]

# two sets, and the line for the first bucket in which they differ
DIFFERENCES = [
    ([ZERO, ONE, LAST], [LAST, ZERO, ONE], 'equal'),
    ([ZERO, ONE, LAST], [ZERO, LAST], 'differ 0'),
    ([ZERO, MIDDLE, LAST], [ZERO, LAST], 'differ 128'),
    ([MIDDLE, LAST], [MIDDLE, NEXT, LAST], 'differ 129'),
    ([ZERO], [ZERO, LAST], 'differ 255'),
    ([MIDDLE, LAST], [NEXT], 'differ 128'),
]
