"""What the layer load of crates/layer_cases has to write: the job that words ask for, and the script of a count and a seed."""
from itertools import islice

from language import NOTE
from tables.transactions import IOU

MULTIPLIER, INCREMENT = 6364136223846793005, 1442695040888963407
PARTICIPANTS = 4
MOST_DIGITS, MOST_WORKERS, MOST_LOG, MOST_COUNT, MOST_SEED = 20, 8, 20480, 1024, 2 ** 64 - 1
OVER_A_SCRIPT = ('workers', 'log')
OPTIONS = {'run': OVER_A_SCRIPT, 'commitments': OVER_A_SCRIPT, 'dump': OVER_A_SCRIPT, 'audit': (), 'gen': ('workers',)}
# of more than FEW submissions of a round the LAST are shown
FEW, LAST = 10, 4


# --- words

class Usage(Exception):
    """The words ask for no job."""


def number(text, low, high):
    if not 1 <= len(text) <= MOST_DIGITS or any(digit not in '0123456789' for digit in text) or not low <= int(text) <= high:
        raise Usage()
    return int(text)


def option_of(word, after):
    """The name and the text of an option, and how many words it takes."""
    if '=' in word:
        name, text = word[2:].split('=', 1)
        return name, text, 1
    if not after or after[0].startswith('-'):
        raise Usage()
    return word[2:], after[0], 2


def given(words, names):
    """The options by their names, and the positionals, of the words after the command."""
    options, positionals = {}, []
    while words:
        if words[0] == '--':
            return options, positionals + words[1:]
        taken = 1
        if words[0].startswith('--'):
            name, text, taken = option_of(words[0], words[1:])
            if name not in names or name in options:
                raise Usage()
            options[name] = text
        elif words[0].startswith('-'):
            raise Usage()
        else:
            positionals.append(words[0])
        words = words[taken:]
    return options, positionals


def job(words):
    if not words or words[0] not in OPTIONS:
        raise Usage()
    command = words[0]
    options, positionals = given(words[1:], OPTIONS[command])
    if len(positionals) != (2 if command == 'gen' else 0):
        raise Usage()
    workers = number(options.get('workers', '0'), 0, MOST_WORKERS)
    if command == 'audit':
        return command
    if command != 'gen':
        return '%s workers %d log %d' % (command, workers, number(options.get('log', str(MOST_LOG)), 1, MOST_LOG))
    numbers = number(positionals[0], 1, MOST_COUNT), number(positionals[1], 0, MOST_SEED)
    return 'gen count %d seed %d workers %d' % (numbers + (workers,))


def job_line(words):
    try:
        return job(words)
    except Usage:
        return 'usage'


# --- generated scripts

def numbers_after(seed):
    while True:
        seed = (seed * MULTIPLIER + INCREMENT) % 2 ** 64
        yield seed


def debt(turn, x):
    owes, owed = turn % PARTICIPANTS + 1, (turn + 1) % PARTICIPANTS + 1
    return 'G%d c%d as A%d now create Iou.Iou(A%d,A%d,%d)' % (owes, turn, owes, owes, owed, 1 + x % 1000)


def transfer(turn):
    owes, owed, then = turn % PARTICIPANTS + 1, (turn + 1) % PARTICIPANTS + 1, (turn + 2) % PARTICIPANTS + 1
    return 'G%d t%d as A%d now exercise Iou.Iou #G%d:c%d:0 Transfer(A%d)' % (owed, turn, owed, owes, turn, then)


def package_lines():
    for package in (NOTE, IOU):
        yield 'package ' + package['name']
        for template in package['templates']:
            yield ' '.join(['template', template['name']] + [field['name'] for field in template['fields']])


def script_lines(count, seed):
    for place in range(1, PARTICIPANTS + 1):
        yield 'participant G%d hosts A%d observes 0 vets Note,Iou' % (place, place)
    yield 'times 30000000 30000000 60000000'
    yield from package_lines()
    debts = [debt(turn, x) for turn, x in enumerate(islice(numbers_after(seed), count))]
    for submits in debts, [transfer(turn) for turn in range(count)]:
        yield 'round advance 0 paused 0 verdicts given submits %d raws 0' % count
        yield from submits if count <= FEW else submits[-LAST:]
