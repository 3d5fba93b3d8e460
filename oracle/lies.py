"""Scripts in which a sender lies: the request of a submission, worked out by the rules and then changed, stands among its round's raw ones."""
import copy

import raws
import trees


def handed_in(script, command=None, show=(), damage=(), drop=(), **lies):
    """A script with the request of its last submission, or of the last one of a command, as a raw one; the envelopes to some participants are
    those of other scripts' requests, have another last byte, or are left out."""
    script = copy.deepcopy(script)
    parts = last_parts(script, command)
    lie(parts, **lies)
    request = parts.request()
    envelopes = dict(request['envelopes'])
    for name, other in show:
        envelopes[name] = dict(last_parts(other).request()['envelopes'])[name]
    for name in damage:
        envelopes[name] = envelopes[name][:-1] + bytes([envelopes[name][-1] ^ 1])
    for name in drop:
        del envelopes[name]
    names = [host['name'] for host in script['participants'] if host['name'] in envelopes]
    put(script, parts, dict(request, envelopes=[(name, envelopes[name]) for name in names]))
    return script


def last_parts(script, command=None):
    return [parts for parts in raws.parts_of(script) if command in (None, parts.command)][-1]


def lie(parts, sender=None, requesters=None, informees=(), confirmers=()):
    """Changes what all trees of a request say: whom the common leaf names, the requesters, and the roles of views, each a path and parties."""
    parts.name = sender or parts.name
    parts.by = parts.by if requesters is None else sorted(requesters)
    views = {tuple(view['path']): view for view in trees.all_views(parts.views)}
    for kind, told in (('informees', informees), ('confirmers', confirmers)):
        for path, parties in told:
            views[tuple(path)][kind] = sorted(parties)


def put(script, parts, request):
    """Puts a request into the round of its submission, which is taken out."""
    changed = next(round_ for round_ in script['rounds'] if any(parts.submission is s for s in round_.get('submits', [])))
    changed['submits'] = [submission for submission in changed['submits'] if submission is not parts.submission]
    if not changed['submits']:
        del changed['submits']
    changed.setdefault('raw', []).append(raws.spelled(request))
