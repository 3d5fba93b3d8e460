"""Asks the built program of crates/layer_cases."""
import os
import resource
import subprocess
import tempfile

CRATE = os.path.join(os.path.dirname(os.path.dirname(os.path.abspath(__file__))), 'crates', 'layer_cases')
BUILT = os.path.join(CRATE, 'out', 'layer_cases')


def build():
    """Builds the proved program."""
    subprocess.run(['rt', 'run'], cwd=CRATE, input=b'layer form\n', stdout=subprocess.DEVNULL, check=True)


def run(layer, lines, program=BUILT):
    """What the program writes of each line, and how many seconds of a processor it took."""
    asked = 'layer %s\n' % layer + ''.join('%s\ncase x%d\n' % (line, at) for at, line in enumerate(lines))
    with tempfile.TemporaryFile() as file:
        file.write(asked.encode())
        file.seek(0)
        before = spent()
        done = subprocess.run([program], stdin=file, stdout=subprocess.PIPE)
        took = spent() - before
    written = done.stdout.decode().split('\n')
    if done.returncode != 0:
        raise SystemExit('status %d after %d lines' % (done.returncode, len(written)))
    answers, at = [], 1
    for number in range(len(lines)):
        end = written.index('case x%d' % number, at)
        answers.append(written[at:end])
        at = end + 1
    return answers, took


def spent():
    """The seconds of a processor that programs took so far."""
    usage = resource.getrusage(resource.RUSAGE_CHILDREN)
    return usage.ru_utime + usage.ru_stime
