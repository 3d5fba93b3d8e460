"""Whom a participant of a script hosts, and for whom it confirms."""


def confirmed(host):
    """The parties for which a participant confirms."""
    return host['parties']


def hosted(host):
    """The parties that a participant hosts, to confirm for them or only to observe."""
    return host['parties'] + host.get('observing', [])


def that_host(script, parties):
    """The participants that host one of the parties."""
    return [h['name'] for h in script['participants'] if set(hosted(h)) & set(parties)]


def that_confirm(script, parties):
    """The participants that confirm for one of the parties."""
    return [h['name'] for h in script['participants'] if set(confirmed(h)) & set(parties)]
