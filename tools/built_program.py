"""The programs of this repository: what each is built of, whether it is old, and how it is proved and built."""
import contextlib
import ctypes
import fcntl
import hashlib
import json
import os
import re
import shutil
import signal
import subprocess
import sys
import time

ROOT = os.path.dirname(os.path.dirname(os.path.realpath(__file__)))
LOCK = os.path.join(ROOT, 'crates', 'canton_cli', 'out', 'build.lock')
NOT_BUILT, NO_KIT = 126, 127
# how long a build from nothing took, when it was measured, and how many crates there were then
MEASURED, MEASURED_CRATES = 'a build from nothing took 127 minutes on four processors, beside other work', 41
# gigabytes: what the check of any crate but one stays below, what that one takes, and what a build leaves on the disk
LEAST_MEMORY, MOST_MEMORY, LEAST_DISK = 5, 10, 3
SECONDS_TO_END = 5
LAST_LINES = 20


class Ended(Exception):
    """The end of a call before its program runs: a status, the program's own line if it has one, and what was expected."""

    def __init__(self, status, expected, line=None):
        super().__init__(expected)
        self.status, self.expected, self.line = status, expected, line


def say(text):
    print(f'canton: {text}', file=sys.stderr, flush=True)


# --- what a program is built of

def crates():
    """The lines of crates.txt: each crate with what it stands on."""
    table = {}
    with open(os.path.join(ROOT, 'crates.txt'), encoding='utf-8') as file:
        for line in file:
            name, _, below = line.partition('#')[0].partition(':')
            if name.strip():
                table[name.split()[0]] = below.split()
    return table


def crates_below(name, table):
    """A crate and all those of the repository that it stands on."""
    found = [name]
    for crate in found:
        found += [below for below in table[crate] if below in table and below not in found]
    return found


def sources_of(crate):
    """The files of a crate that are proved, in order."""
    for part in ('src', 'specs', 'proofs'):
        for folder, folders, names in os.walk(os.path.join(ROOT, 'crates', crate, part)):
            folders.sort()
            yield from (os.path.join(folder, name) for name in sorted(names) if name.endswith(('.rt', '.antt')))


def look_of(names, table):
    """What is seen of crates without reading them. Where it is as before, nothing has changed."""
    seen = hashlib.sha256()
    for crate in names:
        seen.update(repr((crate, table[crate])).encode())
        for path in sources_of(crate):
            stat = os.stat(path)
            seen.update(f'{path} {stat.st_size} {stat.st_mtime_ns}\n'.encode())
    return seen.hexdigest()


def digests_of(names, table):
    """A hash of the text of each crate, and of what it stands on."""
    found = {}
    for crate in names:
        text = hashlib.sha256(repr(table[crate]).encode())
        for path in sources_of(crate):
            with open(path, 'rb') as file:
                text.update(f'\n{os.path.relpath(path, ROOT)}\n'.encode() + file.read())
        found[crate] = text.hexdigest()
    return found


def kit_mark():
    """Which command of the kit is on the path, if there is one, and when it came there."""
    command = shutil.which('rt')
    return command and [os.path.realpath(command), os.stat(command).st_ctime_ns]


def kit_line():
    """What the kit says that it is."""
    try:
        return subprocess.run(['rt', 'version'], stdin=subprocess.DEVNULL, capture_output=True, text=True).stdout.strip()
    except OSError:
        return ''


# --- programs

class Program:
    """One of the two programs, with what is kept beside it: the record of its build, and a note of what it was built of."""

    def __init__(self, name):
        self.name = name
        self.folder = os.path.join(ROOT, 'crates', name)
        self.out = os.path.join(self.folder, 'out')
        self.path, self.record, self.note = (os.path.join(self.out, file) for file in (name, 'build.txt', 'build.json'))
        self.table = crates()
        self.crates = crates_below(name, self.table)

    def noted(self):
        """What is noted of the program that is there, or nothing."""
        try:
            with open(self.note, encoding='utf-8') as file:
                noted = json.load(file)
            return noted if noted['program'] == self.mark() else {}
        except (OSError, ValueError, KeyError, TypeError):
            return {}

    def mark(self):
        stat = os.stat(self.path)
        return [stat.st_size, stat.st_mtime_ns]

    def write_note(self, look, digests, kit, rt):
        noted = {'program': self.mark(), 'look': look, 'digests': digests, 'kit': kit, 'rt': rt}
        with contextlib.suppress(OSError), open(self.note, 'w', encoding='utf-8') as file:
            json.dump(noted, file)

    def changed(self, old):
        """The crates whose text isn't the one that was noted."""
        new = digests_of(self.crates, self.table)
        return [crate for crate in new if new[crate] != old.get(crate)] + [crate for crate in old if crate not in new]

    def why_old(self):
        """Why the program has to be built; nothing where it is there and no older than what it is built of."""
        if not os.access(self.path, os.X_OK):
            return 'is not built'
        noted = self.noted()
        if not noted:
            return self.why_older_than_files() or self.adopt()
        look, rt, changed = look_of(self.crates, self.table), kit_mark(), []
        if look == noted['look'] and rt in (None, noted['rt']):
            return None
        kit = kit_line() if rt else noted['kit']
        if noted['kit'] and kit != noted['kit']:
            return f'was built with {noted["kit"]}, and the kit is {kit}'
        if look != noted['look']:
            changed = self.changed(noted['digests'])
        if not changed:
            return self.write_note(look, noted['digests'], kit, rt or noted['rt'])
        return 'is older than the text of ' + ', '.join(changed[:4]) + (' and others' if len(changed) > 4 else '')

    def why_older_than_files(self):
        """The same of a program of which nothing is noted, as one that the gate has built."""
        built = os.stat(self.path).st_mtime_ns
        for path in [os.path.join(ROOT, 'crates.txt')] + [path for crate in self.crates for path in sources_of(crate)]:
            if os.stat(path).st_mtime_ns > built:
                return 'is older than ' + os.path.relpath(path, ROOT)
        return None

    def adopt(self):
        """Notes that the program is of what there is now."""
        look, digests = look_of(self.crates, self.table), digests_of(self.crates, self.table)
        self.write_note(look, digests, kit_line(), kit_mark())

    def cost(self):
        """What is to be said of how long a build takes."""
        noted = self.noted()
        changed = set(self.changed(noted['digests'])) if noted else set()
        above = [crate for crate in self.crates if changed & set(crates_below(crate, self.table))]
        if changed:
            return f'{len(above)} of {len(self.crates)} crates have changed or stand on one that has'
        return f'{MEASURED}, when there were {MEASURED_CRATES} crates; there are {len(self.crates)} now'


# --- children

def die_with_parent():
    ctypes.CDLL(None).prctl(1, signal.SIGTERM)


def below(number):
    """The processes that a process has started, those of its session, and what these have started."""
    parents, found = {}, [number]
    for process in filter(str.isdigit, os.listdir('/proc')):
        with contextlib.suppress(OSError, IndexError), open(f'/proc/{process}/stat') as file:
            fields = file.read().rpartition(')')[2].split()
            parents[int(process)] = (int(fields[1]), int(fields[3]))
    for process in found:
        found += [other for other, above in parents.items() if process in above and other not in found]
    return [process for process in found if process in parents and process != os.getpid()]


def end(child, has_session):
    """Ends a child, and all that it has started where it leads a session: asks it first, and kills then what is left."""
    left = set(below(child.pid)) if has_session else {child.pid}
    for number in (signal.SIGINT, signal.SIGTERM, signal.SIGKILL):
        for process in [child.pid] if number == signal.SIGINT else left:
            with contextlib.suppress(OSError):
                os.kill(process, number)
        until = time.monotonic() + SECONDS_TO_END
        while left and time.monotonic() < until:
            time.sleep(0.05)
            child.poll()
            left |= set(below(child.pid)) if has_session else set()
            left = {process for process in left if os.path.exists(f'/proc/{process}')}


@contextlib.contextmanager
def started(words, has_session=False, **how):
    """A child that is ended where this call is."""
    child = subprocess.Popen(words, start_new_session=has_session, preexec_fn=die_with_parent, **how)
    try:
        yield child
        child.wait()
    except BaseException:
        end(child, has_session)
        raise


def status_of(child):
    return child.returncode if child.returncode >= 0 else 128 - child.returncode


# --- building

def need_kit():
    if not shutil.which('rt'):
        raise Ended(NO_KIT, 'the program has to be built, and the command rt of the Rattle kit is not on the path')


def free_memory():
    """Gigabytes that are free, those of swap too."""
    with open('/proc/meminfo') as file:
        kibibytes = dict(re.findall(r'(\w+):\s+(\d+) kB', file.read()))
    return (int(kibibytes['MemAvailable']) + int(kibibytes['SwapFree'])) * 1024 / 1e9


def need_room():
    """Refuses a build for which memory or disk would be wanting."""
    with contextlib.suppress(OSError, KeyError):
        memory = free_memory()
        if memory < LEAST_MEMORY:
            raise Ended(NOT_BUILT, f'{memory:.1f} GB of memory are free, and a check takes up to {LEAST_MEMORY}, one {MOST_MEMORY}')
        if memory < MOST_MEMORY:
            say(f'{memory:.1f} GB of memory are free, and the check of one crate takes up to {MOST_MEMORY}: it may be ended for want of it')
    disk = shutil.disk_usage(ROOT).free / 1e9
    if disk < LEAST_DISK:
        raise Ended(NOT_BUILT, f'{disk:.1f} GB of the disk are free, and a build takes {LEAST_DISK} and more')


@contextlib.contextmanager
def only_build():
    """Waits until no other call builds."""
    os.makedirs(os.path.dirname(LOCK), exist_ok=True)
    with open(LOCK, 'w') as file:
        try:
            fcntl.flock(file, fcntl.LOCK_EX | fcntl.LOCK_NB)
        except OSError:
            say('another call is building; waiting for its end')
            fcntl.flock(file, fcntl.LOCK_EX)
        yield


def elapsed(begun):
    seconds = int(time.monotonic() - begun)
    return f'{seconds} s' if seconds < 60 else f'{seconds // 60} min'


def follow(lines, record, count, begun):
    """Copies lines to the record, and says when a crate is done, by the line of its modules."""
    done = []
    for line in lines:
        record.write(line)
        record.flush()
        found = re.match(rb'crate (\w+): modules ', line)
        if found and found[1] not in done:
            done.append(found[1])
            print(f'{len(done)} of {count} {found[1].decode()}, {elapsed(begun)}', file=sys.stderr, flush=True)


def prove_and_build(program):
    """Proves the crates that the program stands on, one after another with as many jobs as processors and memory allow, builds it, and
    gives the status of that."""
    script = os.path.join(ROOT, 'examples', 'empty.json') if program.name == 'canton_cli' else os.devnull
    words = ['rt', 'run', '--'] + (['run'] if program.name == 'canton_cli' else ['chart', '--help'])
    begun = time.monotonic()
    with open(program.record, 'wb') as record, open(script, 'rb') as source:
        with started(words, True, cwd=program.folder, stdin=source, stdout=subprocess.PIPE, stderr=subprocess.STDOUT) as child:
            follow(child.stdout, record, len(program.crates), begun)
    return status_of(child)


def why_not_built(record, status):
    """The cause of a failed build, as far as its record tells it."""
    if re.search(r'No space left', record):
        return 'the disk is full'
    if status == 137 or re.search(r'[Oo]ut of memory|was killed', record):
        return f'a check was ended, most likely for want of memory ({free_memory():.1f} GB are free now)'
    refused = re.search(r'^(\S+:\d+:\d+: error.*)', record, re.MULTILINE)
    return f'refused: {refused[1]}' if refused else f'status {status}'


def build(program):
    """Builds a program, and notes of what. What is edited during the build makes the next call build again."""
    need_room()
    kit, rt, now = kit_line(), kit_mark(), time.time_ns()
    look, digests = look_of(program.crates, program.table), digests_of(program.crates, program.table)
    say(f'{program.name} {program.why_old()}: proving and building it on {os.cpu_count()} processors; {program.cost()}')
    say(f'the record is {program.record}')
    status = prove_and_build(program)
    if status != 0 or not os.access(program.path, os.X_OK):
        with open(program.record, encoding='utf-8', errors='replace') as file:
            record = file.read()
        say(f'the program was not built: {why_not_built(record, status)}; the end of {program.record}:')
        raise Ended(NOT_BUILT, None, '\n'.join(record.rstrip('\n').split('\n')[-LAST_LINES:]))
    os.utime(program.path, ns=(now, now))
    program.write_note(look, digests, kit, rt)


def ready(program):
    """Builds the program where that is lacking."""
    if not program.why_old():
        return
    need_kit()
    try:
        with only_build():
            if program.why_old():
                build(program)
    except OSError as error:
        raise Ended(NOT_BUILT, f'the program was not built: {error}') from None
