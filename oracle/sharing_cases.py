"""What the layer sharing of crates/layer_cases has to write: what clients of a shared synchroniser are told of what they submit."""
from world_cases import World

TURNS = 64


def sent(world, submission):
    """Where the request of a submission stands, whose participant has read all."""
    world.read[submission['participant']], world.left = len(world.log), [submission]
    world.submit()
    return len(world.log) - 1


def told_line(world, place):
    """What a client is told of a request whose participant reads all entries then."""
    world.read[world.log[place]['request'].sender] = len(world.log)
    return 'told %s over %d' % (world.outcome(place).split(' ')[0], len(world.log))


def turn(world):
    """Each participant, and then the mediator, reads to the end of the log and does one thing that is due."""
    for host in world.hosts:
        name = host['name']
        while world.read[name] < len(world.log):
            world.happen('read:' + name)
        owes = set(world.owed(name, world.read[name])) - world.taken[name]
        world.happen(('validate:' if owes else 'reply:') + name)
    while world.told < len(world.log):
        world.happen('mediator')
    world.happen('verdict')


def sharing_lines(world, submission, before):
    """A client asks by the ticket of the last sharing, and another one submits, and asks before and after turns."""
    if before is not None:
        yield told_line(world, before)
    place = sent(world, submission)
    yield 'ticket of %s at %d' % (submission['participant'], place)
    yield told_line(world, place)
    for _ in range(TURNS):
        turn(world)
    yield told_line(world, place)
    yield 'seen in the log yes'


def case_lines(script):
    world, before = World(script), None
    for round_ in script['rounds'][:2]:
        yield from sharing_lines(world, round_['submits'][0], before)
        before = next(place for place, _ in reversed(world.requests(len(world.log))))
    yield from world.log_lines()
    yield 'end'
