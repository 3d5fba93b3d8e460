"""The rules of a script, as the program answers for them: Flash of each note that says go, once for each contract."""
from terms import instance_text

GO = ('Text', 'go')


def due(world, rule, end, fired):
    """The contracts on which a rule fires whose participant has read up to an end, in order of creation."""
    name = rule['participant']
    for _, contract in world.active(name, world.clean_before(name, end), end):
        package, template, fields = contract['instance']
        if (package, template, fields[-1]) == ('Note', 'Note', GO) and contract['id'] not in fired:
            yield contract


def command(rule, fires):
    """The command id of what a rule causes that has fired so often."""
    return '%s-%d' % (rule['name'], fires)


def submission(rule, contract, fires):
    """What a rule asks for on a contract."""
    flash = {'template': 'Note.Note', 'contract': contract['id'].hex(), 'choice': 'Flash', 'args': []}
    return {'participant': rule['participant'], 'command': command(rule, fires), 'act_as': [rule['party']], 'commands': [{'exercise': flash}]}


def fired_line(number, rule, contract, fires):
    """What a report says of it."""
    return 'fired %d %s %s as %s' % (number, rule['name'], instance_text(contract['instance']), command(rule, fires))
