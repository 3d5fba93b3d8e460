"""Writes the input and the expected output of crates/layer_cases from the tables of this folder.

What a table says of a case by hand is compared with what is computed here, where both are there.
"""
import json
import os

import bench_cases
import check_cases
import dumps
import form_cases
import framed
import language
import lies
import load_cases
import plain_run
import raws
import sharing_cases
import states
import tree_cases
import trees
import world_cases
from tables import bytes as byte_tables
from tables import states as state_tables
from tables import (
    benches, checks, commit_runs, commits, dump_runs, edges, expressions, frames, openings, package_faults, raw_runs, requests, restart_runs, runs, script_faults, transactions, trigger_runs, words, worlds)

CRATE = os.path.join(os.path.dirname(os.path.dirname(os.path.abspath(__file__))), 'crates', 'layer_cases')


def compact(form):
    return json.dumps(form, separators=(',', ':'), ensure_ascii=False)


def agreed(text, computed, worked):
    """What was computed, where it is what was worked out by hand or nothing was."""
    if worked is not None and computed != worked:
        raise SystemExit('%s\n  computed   %s\n  worked out %s' % (text[:300], computed, worked))
    return computed


def script_row(name, text, fault=None):
    """The line of a script and those that answer it: its first fault, or what its submissions show."""
    lines = list(tree_cases.script_lines(json.loads(text))) if fault is None else ['fault ' + fault]
    return 'script %s %s' % (name, text), ['script ' + name] + lines


def commitment_rows():
    """Calls of trees of commitments, and the first bucket in which two sets differ."""
    for calls, worked in commits.CALLS:
        yield 'commitments ' + ' '.join(calls), [agreed(' '.join(calls), form_cases.calls_line(calls), worked)]
    for mine, theirs, worked in commits.DIFFERENCES:
        words = ','.join(mine) + ' ' + ','.join(theirs)
        yield 'difference ' + words, [agreed(words, form_cases.difference_line(mine, theirs), worked)]


def tree_rows():
    """The line of each transaction's case and those that answer it."""
    for table in (transactions, requests):
        for name, script in table.NAMED:
            row = script_row(name, compact(script))
            for worked in table.WORKED.get(name, []):
                if worked not in row[1]:
                    raise SystemExit('%s has no line %s' % (name, worked))
            yield row
    for at, (text, fault) in enumerate(script_faults.cases()):
        yield script_row('fault-%d' % at, text, fault)


def check_line(packages):
    try:
        language.Check().packages(packages)
    except language.CheckFault as fault:
        return fault.text
    return 'no fault'


def in_script(fault):
    """A fault of packages as one of the script that has them. That of their check has its place in the list of packages still."""
    words = fault.split(' ')
    return fault if words[0] in ('Package', 'NotJson') else ' '.join(words[:-1] + ['/packages' + words[-1]])


def package_rows():
    """Scripts of packages alone."""
    for at, (text, fault, worked) in enumerate(package_faults.cases()):
        if fault is package_faults.READ:
            computed = agreed(text, check_line(json.loads(text)), worked)
            fault = None if computed == 'no fault' else computed
        script = '{"participants":[{"name":"P1","parties":["Alice","Bank","Bob","Carol"]}],"packages":%s,"rounds":[]}' % text
        yield script_row('packages-%d' % at, script, None if fault is None else in_script(fault))


def expression_rows():
    """A script whose choices have the expressions as results."""
    script, worked = expressions.script()
    row = script_row('expressions', compact(script))
    for command, lines in worked.items():
        at = row[1].index('submission P1 ' + command) + 1
        agreed(command, row[1][at:at + len(lines)], lines)
    yield row


def byte_rows():
    for word, digits, fault, worked in byte_tables.cases():
        computed = form_cases.bytes_line(word, bytes.fromhex(digits))
        if (fault is not None or computed.startswith('bad at')) and computed != 'bad at %s' % fault:
            raise SystemExit('%s %s\n  computed   %s\n  worked out bad at %s' % (word, digits, computed, fault))
        if worked is not None and ' %s spelled' % worked not in computed:
            raise SystemExit('%s %s\n  computed   %s\n  worked out %s' % (word, digits, computed, worked))
        yield '%s %s' % (word, digits), [computed]


def state_rows():
    """Bytes of states, and those of the state of a participant that restarts while a request is undecided."""
    script = json.loads(runs.TIMEOUT)
    last = dict(script['rounds'].pop(), advance=0, restart=['P2'])
    run = plain_run.Run(dict(script, rounds=script['rounds'] + [last]), 20480)
    kept = states.state_bytes(states.kept(run, 'P2')).hex()
    for digits, fault, worked in state_tables.CASES + [(kept, None, state_tables.KEPT)]:
        computed = form_cases.bytes_line('state', bytes.fromhex(digits))
        agreed(digits, computed, 'bad at %d' % fault if worked is None else '%s spelled %s' % (worked, digits))
        yield ('state ' + digits).rstrip(), [computed]


def opening_row(root, paths, with_requesters, data, worked):
    lines = agreed(data.hex(), list(form_cases.opened_lines(root, paths, with_requesters, data)), worked)
    return 'opened-for %s %s %s %s' % (root.hex(), paths, tree_cases.yes(with_requesters), data.hex()), lines


def opening_rows():
    """Envelopes with what they open."""
    for digits, paths, with_requesters, worked in openings.OF_ITS_ROOT:
        data = bytes.fromhex(digits)
        yield opening_row(trees.read_tree_hash(framed.tree_of(data)), paths, with_requesters, data, worked)
    for digits in openings.OF_ANOTHER_ROOT + openings.NO_TREES:
        yield opening_row(bytes(32), '0', True, bytes.fromhex(digits), openings.MISMATCH)
    sent = list(raws.requests_of(json.loads(runs.TRANSFER)))[1]
    right, data = trees.read_tree_hash(framed.tree_of(sent['mediator'])), dict(sent['envelopes'])
    for name, paths, with_requesters, is_right, worked in openings.TRANSFER:
        yield opening_row(right if is_right else bytes(32), paths, with_requesters, data[name], worked)


def frame_rows():
    """A script of raw requests, of which some are framed."""
    row = script_row('framed', compact(frames.SCRIPT))
    told = [line for line in row[1] if line.startswith('framed ')]
    for (raw, worked), line in zip(frames.ROWS, told):
        agreed(raw['command'], line, 'framed ' + tree_cases.yes(worked))
    agreed('raws', len(told), len(frames.ROWS))
    yield row
    sent = list(raws.requests_of(json.loads(runs.TRANSFER)))
    row = script_row('framed-transfer', compact(raws.script_of(json.loads(runs.TRANSFER)['participants'], sent + [dict(sent[1], confirming=['P1'])])))
    agreed('framed transfer', [line for line in row[1] if line.startswith('framed ')], ['framed yes', 'framed yes', 'framed no'])
    yield row


def facts_word(facts):
    return ','.join('%d.%s%s' % (number, status, '!' if held else '') for number, status, held in facts) or '-'


def path_word(paths):
    return ','.join(map(tree_cases.path_text, paths))


def view_rows():
    """Jobs of one view each."""
    for name, script, me, time, path, facts, worked in checks.VIEWS:
        yield job_row(name, script, me, 3, time, [path], facts, ['place 3 left 1', 'ready place 3', 'verdict %s %s' % (path_word([path]), worked)])


def job_row(name, script, me, place, time, paths, facts, worked):
    lines = list(check_cases.job_lines(name, script, me, place, time, paths, facts))
    agreed(name, lines[1:], worked)
    return 'job %s %d %s %d %d %s %s' % (name, place, path_word(paths), me, time, facts_word(facts), compact(script)), lines


def job_rows():
    for case in checks.JOBS:
        yield job_row(*case)


def call_rows(word, kind, calls):
    """The calls of a kind, and the word for one that begins anew."""
    called = kind()
    for words, worked in calls:
        if words == 'new':
            called = kind()
            yield 'new', ['new']
            continue
        line = called.line(*words.split())
        agreed(words, line.split(' - ')[1], worked)
        yield '%s %s' % (word, words), [line]


def word_rows():
    for bars, worked in words.WORDS:
        yield 'words' + bars, ['words' + bars, agreed(bars, load_cases.job_line(bars.split('|')[1:]), worked)]


def generated_rows():
    for count, seed, worked in words.GENERATED:
        name = 'gen %d %d' % (count, seed)
        lines = [name] + list(load_cases.script_lines(count, seed))
        for line in worked:
            agreed('%s has the line %s' % (name, line), line in lines, True)
        yield name, lines


def plain_text(words, source):
    """What a run without workers writes of a script."""
    words = words.split(',')
    text = plain_run.report if words[0] == 'run' else plain_run.commitments_text
    return text(json.loads(source), int(words[words.index('--log') + 1]) if '--log' in words else 20_480)


def lying_transfer(changes):
    """The worked transfer, whose second request is a raw one with changes."""
    return compact(lies.handed_in(json.loads(runs.TRANSFER), **changes))


def raw_run_cases():
    """Runs of scripts with raw requests, in the form of those of the table of runs."""
    for name, changes, text in raw_runs.LIES:
        yield name, 'run', lying_transfer(changes), 0, 0, 0, None, text
    spelled = [raws.spelled(request) for request in raws.requests_of(json.loads(raw_runs.TWO))]
    for name, words, script_over, text in raw_runs.BESIDE:
        yield name, words, script_over(spelled), 0, 0, 0, None, text
    for name, words, source, text in raw_runs.UNREAD:
        yield name, words, source, 0, 0, 0, None, text


def commit_run_cases():
    """Runs of which the commitments are written, in the same form."""
    yield from commit_runs.RUNS
    for name, changes, text in commit_runs.LIES:
        yield name, 'commitments', lying_transfer(changes), 0, 0, 0, None, text
    yield from commit_runs.FAILING


def trigger_run_cases():
    """Runs of scripts with rules, in the same form."""
    for name, words, source, text in trigger_runs.RUNS:
        yield name, words, source, 0, 0, 0, None, text


def restart_run_cases():
    """Runs of scripts in which participants restart, in the same form."""
    for name, words, source, text in restart_runs.RUNS + restart_runs.COMMITS:
        yield name, words, source, 0, 0, 0, None, text
    for name, changes, restarts, lines in restart_runs.WITHHELD:
        text = plain_text('run', lying_transfer(changes))
        own = text.index('participant P3')
        told = text[:text.index('\n', own) + 1] + lines + 'end\n'
        yield name, 'run', restart_runs.restarting(lying_transfer(changes), *restarts), 0, 0, 0, None, told


def audited(name, data, line):
    """The audit of a dump, in the form of the runs of the tables, with bytes as digits."""
    return name, 'audit', '0x' + data.hex(), 0, 0, 0, None, line + '\n'


def dumped(script, change=None, rules=None):
    """The dump of a script's run, its log changed; or its log behind a script with rules and no rounds."""
    log = dumps.log_of(script.encode())
    source = script if rules is None else compact({**json.loads(script), 'triggers': rules, 'rounds': []})
    return dumps.dump_bytes(source.encode(), log if change is None else change(log))


def dump_run_cases():
    """Dumps and audits, in the same form. What an audit says is computed as well, where the script has no fault."""
    for name, words, script in dump_runs.DUMPS:
        yield name, words, script, 0, 0, 0, None, '0x' + dumped(script).hex()
    for name, script, change, line in dump_runs.AUDITS:
        data = dumped(script, change)
        yield audited(name, data, agreed(name, dumps.audit(data), line))
    for name, submits, rules, line in dump_runs.WITH_RULES:
        data = dumped(dump_runs.script(*submits), rules=rules)
        yield audited(name, data, agreed(name, dumps.audit(data), line))
    for name, data, line in dump_runs.BYTES:
        yield audited(name, data, line)
    for name, script, off, behind, at in dump_runs.ENDS:
        data = dumped(script)
        cut = data[:len(data) - off] + behind
        yield audited(name, cut, agreed(name, dumps.audit(cut), 'bad %d' % (len(data) + at)))
    yield from dump_runs.FAILING


def run_rows(cases):
    for name, words, source, take, put, status, line, text in cases:
        if status == 0 and words.startswith(('run', 'commitments')):
            agreed(name, plain_text(words, source), text)
        lines = ['run ' + name, 'status %d' % status] + ([] if line is None else [line])
        yield 'run %s %d %d %s %s' % (name, take, put, words, source), lines + ['|' + written for written in text.splitlines()]


def sure_run_rows():
    lying = [(name, lying_transfer(changes), text) for name, changes, text in raw_runs.SURE]
    for name, source, text in runs.SURE_RUNS + lying + trigger_runs.SURE:
        agreed(name, plain_text('run', source), text)
        lines = ['run ' + name, 'status 0'] + ['|' + written for written in text.splitlines()]
        yield 'surely %s %d run %s' % (name, len(text), source), lines
    for name, source, text in commit_runs.SURE:
        lines = ['run ' + name, 'status 0'] + ['|' + written for written in text.splitlines()]
        yield 'surely %s %d commitments %s' % (name, len(text), source), lines
    for name, source, line in runs.RUNS_WITHOUT_ROOM:
        yield 'surely %s 0 run %s' % (name, source), ['run ' + name, 'status 5', line]


def count_rows():
    lying = [(name, 'run,--workers,4', lying_transfer(changes), patterns) for name, changes, patterns in raw_runs.COUNTED]
    for name, words, source, patterns in edges.COUNTS + lying:
        spelled = ';'.join(pattern.replace(' ', '_') for pattern, _ in patterns)
        lines = ['run ' + name, 'status 0'] + ['%d of %s' % (count, pattern) for pattern, count in patterns]
        yield 'count %s %s %s %s' % (name, spelled, words, source), lines


def cut_rows():
    for name, source in edges.CUTS:
        yield 'cut %s %s' % (name, source), ['cut ' + name, '%d of %d are canton_cli: script NotJson' % (len(source), len(source))]


def log_rows():
    for name, capacity, script, changes, worked in edges.LOGS:
        script = json.loads(script)
        requests_ = list(raws.requests_of(script))
        handed = raws.script_of(script['participants'], [dict(requests_[at], **change) for at, change in changes])
        lines = agreed(name, list(raws.appended(handed, capacity)), worked)
        yield 'append %s %d %s' % (name, capacity, compact(handed)), ['append ' + name] + lines


def gate_rows():
    for name, words, source, looks, noted in edges.GATES:
        yield 'gate %s %d %s %s' % (name, looks, words, source), ['run ' + name, 'status 0', noted]


def native_rows():
    for name, text, source, report, said in edges.NATIVES:
        lines = ['run ' + name, 'status 0'] + ['|' + written for written in report.splitlines()]
        yield 'native %s %s run %s' % (name, text, source), lines + [said]


def world_rows():
    for name, script, words, worked in worlds.CASES:
        lines = world_cases.case_lines(script, words)
        if worked[0] is None:
            said = worked[1:]
            agreed('%s has the lines %s' % (name, said), any(lines[at:at + len(said)] == said for at in range(len(lines))), True)
        else:
            agreed(name, lines, worked)
        yield 'play %s %s %s' % (name, words, compact(script)), ['play ' + name] + lines
    for name, lie, worked in worlds.CHANGED:
        script, words_ = lies.handed_in(worlds.TRANSFER, **lie), worlds.OWED + ',raw,settle'
        lines = agreed(name, world_cases.case_lines(script, words_), worked)
        yield 'play %s %s %s' % (name, words_, compact(script)), ['play ' + name] + lines
    for name, script, who, words, worked in worlds.LATE:
        lines = agreed(name, world_cases.case_lines(script, words, who), worked)
        yield 'late %s %s %s %s' % (name, who, words, compact(script)), ['late ' + name] + lines


def sharing_rows():
    for name, script, worked in worlds.SHARING:
        lines = agreed(name, list(sharing_cases.case_lines(script)), worked)
        yield 'share %s %s' % (name, compact(script)), ['share ' + name] + lines


def bench_rows():
    """The work of which bench/ takes the time, done a few times."""
    count, few = benches.COUNT, benches.FEW
    yield 'hash %d' % count, [bench_cases.last_hash(count, bench_cases.LONG)]
    yield 'short %d' % count, [bench_cases.last_hash(count, bench_cases.SHORT)]
    yield 'wire %d %s' % (count, bench_cases.digits(benches.ACTIONS)), [bench_cases.wire_line(count, benches.ACTIONS)]
    yield 'blind %d' % few, [benches.BLIND]
    yield 'request %d' % few, [bench_cases.request_line(benches.TRANSFER, few)]
    yield 'strings %d' % few, [benches.STRINGS]
    yield 'commit %d' % count, [bench_cases.commit_line(count)]
    yield 'buckets %d' % count, [bench_cases.buckets_line(count)]
    script = compact(benches.TRANSFER)
    yield 'script %d %s' % (few, script), [bench_cases.script_line(script)]
    for text, fault in benches.FAULTS:
        yield 'script 1 ' + text, ['%d bytes, %s' % (len(text), fault)]
    for text, told in benches.VALUES:
        yield 'json %d %s' % (few, text), ['%d bytes, %s' % (len(text), told)]


def below(line, cases):
    """Cases below a line that is written again."""
    yield line, [line]
    yield from cases


def layer_rows():
    """The cases of each layer, below the line that says which it is."""
    tables = {
        'form': {'Actions and trees as bytes': byte_rows(), 'States as bytes': state_rows(), 'What envelopes open': opening_rows(), 'Commitments': commitment_rows()},
        'tree': {
            'Transactions, and scripts with their first fault': tree_rows(), 'Raw requests': frame_rows(), 'Expressions': expression_rows(), 'Packages': package_rows()},
        'load': {'Words': word_rows(), 'Generated scripts': generated_rows()},
        'check': {
            'Views': view_rows(), 'Jobs': job_rows(),
            'Trackers': call_rows('tracker', check_cases.Tracker, checks.TRACKERS),
            'Stores': call_rows('store', check_cases.Store, checks.STORES),
            'Requests beside plain lists': call_rows('requests', check_cases.Requests, checks.REQUESTS)},
        'world': {'Events': world_rows()},
        'sharing': {'Clients of a shared synchroniser': sharing_rows()},
        'run': {
            'Whole runs': run_rows(runs.cases()), 'Whole runs with raw requests': run_rows(raw_run_cases()),
            'Whole runs that commit': run_rows(commit_run_cases()), 'Whole runs with rules': run_rows(trigger_run_cases()),
            'Whole runs with restarts': run_rows(restart_run_cases()),
            'Dumps and audits': run_rows(dump_run_cases()),
            'Whole runs within room': sure_run_rows(),
            'Whole runs with workers in any order': count_rows(), 'Whole runs that pass a gate': gate_rows(), 'Whole runs with natives': native_rows(),
            'Beginnings of a script': cut_rows(), 'Logs': log_rows(), 'Sources that fail': edges.SOURCES, 'Sinks that fail': edges.SINKS},
        'bench': {'Work of which the time is taken': bench_rows()}}
    for layer, parts in tables.items():
        yield from below('layer ' + layer, headed(parts))


def headed(parts):
    """Cases of several parts, each below its heading."""
    for heading, cases in parts.items():
        yield from below('# ' + heading, cases)


def main():
    asked, answered = [], []
    for line, lines in layer_rows():
        asked.append(line)
        answered += lines
    for name, lines in [('stdin', asked), ('stdout', answered)]:
        with open(os.path.join(CRATE, name), 'w') as out:
            out.write('\n'.join(lines) + '\n')


if __name__ == '__main__':
    main()
