"""What the tests share: the list of them, the choice of the program, and one run of it.

A test takes its own words, and after `--` the command to run instead of ./rasta. For other words it prints its usage and ends with status 2.
"""
import os
import re
import subprocess
import sys
import time
from glob import glob

TOP = os.path.dirname(os.path.dirname(os.path.abspath(__file__)))


def scripts():
    """Returns the path of each test in the repository, by its name: the scripts of tests/ and of its folders whose names have no suffix."""
    paths = sorted(os.path.relpath(path, TOP) for pattern in ('tests/*', 'tests/*/*') for path in glob(f'{TOP}/{pattern}'))
    return {os.path.basename(path): path for path in paths
            if '.' not in os.path.basename(path) and os.path.isfile(f'{TOP}/{path}') and os.access(f'{TOP}/{path}', os.X_OK)}


def built():
    """Returns the command of the program, which is proved and built first if necessary."""
    if subprocess.run([os.path.join(TOP, 'rasta'), '--prove'], stdin=subprocess.DEVNULL).returncode:
        sys.exit(1)
    return [os.path.join(TOP, 'crates', 'rasta_cli', 'out', 'rasta_cli')]


def usage(doc):
    """Prints the usage lines of a script's head, and ends with status 2."""
    forms = re.findall(r'^ {4}((?:tests|tools|bench)/.*?)(?: {4}.*)?$', doc, re.M)
    print('usage: ' + '\n       '.join(forms), file=sys.stderr)
    sys.exit(2)


def must_fit(doc, words, *patterns):
    """Prints the usage and ends if there are more words than patterns, or if one does not match its pattern."""
    if len(words) > len(patterns) or not all(re.fullmatch(pattern, word) for pattern, word in zip(patterns, words)):
        usage(doc)


def words_and_program(doc, words, *patterns):
    """Returns the test's own words, which match these patterns in turn, and the command of the program."""
    place = words.index('--') if '--' in words else len(words)
    own, program = words[:place], words[place + 1:]
    must_fit(doc, own, *patterns)
    return own, program or built()


def waiting():
    """Returns for each UDP port that is bound in this network how many octets of memory wait there."""
    with open('/proc/net/udp', encoding='ascii') as file:
        rows = [line.split() for line in file.readlines()[1:]]
    return {int(row[1].split(':')[1], 16): int(row[4].split(':')[1], 16) for row in rows}


def await_ports(run, ports, seconds=60):
    """Waits until these UDP ports are bound, or the process has ended. What is sent before is lost, and a connection is requested only once."""
    until = time.monotonic() + seconds
    while not set(ports) <= set(waiting()) and run.poll() is None and time.monotonic() < until:
        time.sleep(0.001)


def answered(command, timeout=600):
    """Runs a command: returns standard output, standard error and exit status; a negative status is a signal."""
    done = subprocess.run(command, stdin=subprocess.DEVNULL, capture_output=True, timeout=timeout)
    return done.stdout.decode('utf-8', 'replace'), done.stderr.decode('utf-8', 'replace'), done.returncode


def ended(passed, failed):
    """Prints the last line of a test and returns its status. A test that tried nothing has failed."""
    if passed + failed == 0:
        print('FAILED: there was nothing to try')
        failed = 1
    print(f'{passed} passed, {failed} failed')
    return 1 if failed else 0


def played(program, path, text):
    """Writes a script of `sim` to the path and runs it."""
    with open(path, 'w', encoding='utf-8', newline='') as file:
        file.write(text)
    return answered(program + ['sim', path])
