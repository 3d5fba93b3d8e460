#!/usr/bin/env python3
"""Whether runs with workers keep the rules, of which a test of one run shows little: a built program runs again and again.

    oracle/worker_runs.py PROGRAM [COUNT [FOLDER..]]

Of two spends of one contract with 4 workers, COUNT times (100), the first has to be approved, and the second rejected as Locked or Inactive
or refused as ContractUnknown; gen 1 7 and gen 1000 7 with 4 workers have to write as often what one thread writes; and twice as many
runs of scripts with 1 to 8 workers, drawn from a seed, have to end with status 0. Scripts are made here, half of them with raw requests, half
of them with rules and some with restarts, and in each second run one is taken from the folders: NAME.json, with the words in the lines of NAME.args, which one thread
runs to status 0. The report of each script is tried by report_check.py, which knows the rules and not the program. The dump of each, from a run of its
own, has to be judged yes by the program's audit and by dumps.py, with one line."""
import glob
import json
import os
import random
import subprocess
import sys

import dumps
import raws
from hostile_requests import Hostile
from report_check import misfit

EXAMPLES = os.path.join(os.path.dirname(os.path.abspath(__file__)), '..', 'examples')
PROGRAM = sys.argv[1] if len(sys.argv) > 1 else sys.exit(__doc__)
COUNT = int(sys.argv[2]) if len(sys.argv) > 2 else 100
FOLDERS = sys.argv[3:]
MOST_SECONDS = 1200


def end_of(words, source=b''):
    """The status of a run and what it writes."""
    done = subprocess.run([PROGRAM, *map(str, words)], input=source, stdout=subprocess.PIPE, stderr=subprocess.PIPE, timeout=MOST_SECONDS)
    return done.returncode, done.stdout


def written(words, source=b''):
    """The bytes that a run writes, which has to end with status 0."""
    status, data = end_of(words, source)
    if status != 0:
        keep('failed', source, data)
        sys.exit(f'worker_runs: {words} ended with {status}; its script is in failed.json')
    return data


def run(words, source=b''):
    """The text that a run writes."""
    return written(words, source).decode()


def keep(name, source, data):
    """Keeps a script and what a run of it wrote for somebody to look at."""
    for kind, what in (('json', source), ('report', data)):
        with open(f'{name}.{kind}', 'wb') as file:
            file.write(what)


def report_of(name, source, words):
    """The report of a script, which has to fit the rules."""
    text = run(words, source)
    capacity = int(words[words.index('--log') + 1]) if '--log' in words else 20_480
    why = misfit(json.loads(source), text, capacity)
    if why is not None:
        keep('misfit', source, text.encode())
        sys.exit(f'worker_runs: {name} by {words}, in misfit.json and misfit.report: {why}')
    return text


def audited(name, source, options):
    """The line of an audit of the script's dump, which has to be a yes, and that of the oracle."""
    dump = written(['dump'] + options, source)
    line, own = run(['audit'], dump).rstrip('\n'), dumps.audit(dump)
    if line != own or not line.startswith('yes '):
        keep('misfit', source, dump)
        sys.exit(f'worker_runs: {name} by dump {options}, in misfit.json and misfit.report: {line}, and {own} by the oracle')
    return line


def spends(source):
    """How the second of two spends came out, where the first was approved."""
    lines = report_of('two spends', source, ['run', '--workers', 4]).split('\n')
    results = [line.split(' ')[4:] for line in lines if line.startswith('result 1 ')]
    outcomes = {line.split(' ')[1]: line.split(' ')[2:] for line in lines if line.startswith('outcome ')}
    answers = [outcomes[answer[1]] if answer[0] == 'sent' else answer for answer in results]
    if answers[0] != ['approved']:
        sys.exit(f'worker_runs: the first of two spends is {answers[0]}')
    word = next((word for word in answers[1] if word in ('Locked', 'Inactive', 'ContractUnknown')), None)
    return word or sys.exit(f'worker_runs: the second of two spends is {answers[1]}')


def given_scripts():
    """The scripts of the folders that one thread runs to status 0, each with its words."""
    for path in sorted(path for folder in FOLDERS for path in glob.glob(os.path.join(folder, '*.json'))):
        with open(path, 'rb') as file:
            source = file.read()
        words = ['run']
        if os.path.exists(path[:-5] + '.args'):
            with open(path[:-5] + '.args', encoding='utf-8', errors='surrogateescape') as file:
                words = file.read().split('\n')[:-1]
        if words[:1] == ['run'] and '--' not in words and not any(word.startswith('--workers') for word in words) and end_of(words, source)[0] == 0:
            yield os.path.basename(path), source, words


# --- scripts that are made

PARTIES = ['Bank', 'Alice', 'Bob', 'Carol', 'Dave', 'Eve', 'Fay', 'Gil']


class Made:
    """A script made from a seed."""

    def __init__(self, seed, packages):
        self.random = random.Random(seed)
        count = self.random.randint(1, 6)
        self.hosts = [{'name': f'P{n + 1}', 'parties': [p for k, p in enumerate(PARTIES) if k % count == n]} for n in range(count)]
        if self.random.random() < 0.2:
            self.random.choice(self.hosts)['vetted'] = []
        if self.random.random() < 0.4:
            self.observe(self.random.choice(self.hosts))
        self.issued, self.packages, self.commands = [], packages, 0
        self.rules = [self.rule(f'r{n}') for n in range(self.random.randint(1, 3))] if self.random.random() < 0.5 else []

    def observe(self, host):
        """A participant also hosts some parties only to observe them."""
        others = [party for party in PARTIES if party not in host['parties']]
        host['observing'] = self.random.sample(others, self.random.randint(0, min(3, len(others))))

    def rule(self, name):
        """A rule, mostly for a party of its participant."""
        host = self.random.choice(self.hosts)
        parties = host['parties'] if self.random.random() < 0.9 else PARTIES
        return {'name': name, 'participant': host['name'], 'party': self.random.choice(parties)}

    def home(self, party):
        return next(h['name'] for h in self.hosts if party in h['parties'])

    def submission(self, party, command):
        self.commands += 1
        name = f'c{self.commands}' if self.random.random() < 0.9 else f'c{self.random.randint(1, self.commands)}'
        return {'participant': self.home(party), 'command': name, 'act_as': [party], 'commands': [command]}

    def submit(self):
        party, other = self.random.choice(PARTIES), self.random.choice(PARTIES)
        kind = self.random.random()
        if kind < (0.4 if self.rules else 0.2):
            text = 'go' if self.random.random() < 0.7 else 'hi'
            return self.submission(party, {'create': {'template': 'Note.Note', 'fields': [{'party': party}, {'party': other}, text]}})
        if kind < 0.5 or not self.issued:
            amount = self.random.randint(0 if self.random.random() < 0.1 else 1, 99)
            made = self.submission(party, {'create': {'template': 'Iou.Iou', 'fields': [{'party': party}, {'party': other}, amount]}})
            self.issued.append((other, '#%s:%s:0' % (made['participant'], made['command'])))
            return made
        owner, label = self.random.choice(self.issued[-6:])
        spent = self.submission(owner if self.random.random() < 0.9 else party, {
            'exercise': {'template': 'Iou.Iou', 'contract': label, 'choice': 'Transfer', 'args': [{'party': other}]}})
        self.issued.append((other, '#%s:%s:0.0' % (spent['participant'], spent['command'])))
        return spent

    def round(self):
        made = {'submits': [self.submit() for _ in range(self.random.randint(0, 8))]}
        if self.random.random() < 0.3:
            made['advance'] = self.random.choice([1, 1000, 30_000_001, 60_000_002])
        if self.random.random() < 0.3:
            made['paused'] = [h['name'] for h in self.hosts if self.random.random() < 0.4]
        if self.random.random() < 0.15:
            made['hold_verdicts'] = True
        if self.random.random() < 0.3:
            made['restart'] = [h['name'] for h in self.hosts if self.random.random() < 0.5]
        return made

    def lie(self, script):
        """Hands in requests like those of some submissions as raw ones, which mostly are changed."""
        parts = [each for each in raws.parts_of(script) if self.random.random() < 0.3]
        requests = [each.request() for each in parts]
        hostile = Hostile(self.random, [request['mediator'] for request in requests])
        for each in parts:
            round_ = next(r for r in script['rounds'] if any(each.submission is s for s in r['submits']))
            round_.setdefault('raw', []).append(raws.spelled(hostile.request(script, each)))
            if self.random.random() < 0.5:
                round_['submits'] = [s for s in round_['submits'] if s is not each.submission]

    def source(self):
        script = {'participants': self.hosts, 'packages': self.packages, 'triggers': self.rules,
                  'rounds': [self.round() for _ in range(self.random.randint(1, 5))]}
        if self.random.random() < 0.5:
            self.lie(script)
        return json.dumps(script).encode()


def drawn_runs(packages):
    """Runs of made and of given scripts, with 1 to 8 workers."""
    given, names = list(given_scripts()), set()
    for seed in range(2 * COUNT):
        name, source, words = f'the script of seed {seed}', Made(seed, packages).source(), ['run']
        if given and seed % 2 == 1:
            name, source, words = random.Random(seed).choice(given)
            names.add(name)
        options = words[1:] + ['--workers', str(1 + seed % 8 if seed % 2 == 0 else random.Random(seed).randint(1, 8))]
        report_of(name, source, ['run'] + options)
        audited(name, source, options)
    return len(given), len(names)


def main():
    with open(os.path.join(EXAMPLES, 'two-spends.json'), 'rb') as file:
        two = file.read()
    words = [spends(two) for _ in range(COUNT)]
    print('two spends: ' + ', '.join(f'{words.count(word)} times {word}' for word in sorted(set(words))), flush=True)
    given, names = drawn_runs(json.loads(two)['packages'])
    print(f'{2 * COUNT} reports of drawn scripts fit the rules and their dumps are judged yes, {given} scripts were given and {names} of them drawn', flush=True)
    for count in (1, 1000):
        alone = run(['gen', count, 7])
        for _ in range(COUNT):
            if run(['gen', count, 7, '--workers', 4]) != alone:
                sys.exit(f'worker_runs: gen {count} 7 writes another text with 4 workers')
        print(f'gen {count} 7: {COUNT} times the text of one thread', flush=True)


if __name__ == '__main__':
    main()
