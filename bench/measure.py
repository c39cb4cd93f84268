"""Runs the built programs, and writes the rows of the tables of docs/PERFORMANCE.md.

GTRBAC and GTRBACD name other programs than those that are built here. The last cell of a row has the
letter of the machine (MACHINE, A where it is not given) and the load when the row was written, as A3.
With SHORT=1 each measure is of a small size, so that it is seen in seconds that it runs.
"""
import collections
import os
import subprocess
import sys

TOP = os.path.dirname(os.path.dirname(os.path.abspath(__file__)))
SHORT = os.environ.get('SHORT') == '1'
Took = collections.namedtuple('Took', 'seconds kilobytes status')
# The program is the child of a small process, since a child's memory counts from its parent's.
RUNNER = '''
import os, sys
pid = os.fork()
if pid == 0:
    os.execv(sys.argv[1], sys.argv[1:])
_, status, used = os.wait4(pid, 0)
told = used.ru_utime + used.ru_stime, used.ru_maxrss, os.waitstatus_to_exitcode(status)
print('\\n%f %d %d' % told, file=sys.stderr)
'''


def program(crate):
    """The built program of a crate; the script ends with status 3 where there is none."""
    path = os.environ.get(crate.upper()) or os.path.join(TOP, 'crates', crate, 'out', crate)
    if not os.access(path, os.X_OK):
        how = 'bin/' + crate if crate in ('gtrbac', 'gtrbacd') else '`rt run` in crates/' + crate
        print('there is no %s: %s builds it' % (path, how), file=sys.stderr)
        sys.exit(3)
    return path


def sized(whole, small):
    """The size of a measure, or a small one with SHORT."""
    return small if SHORT else whole


def head(*cells):
    """The head of a table."""
    print('| %s | on |\n%s|' % (' | '.join(cells), '|---' * (len(cells) + 1)), flush=True)


def row(*cells):
    """A row of a table."""
    on = '%s%.0f' % (os.environ.get('MACHINE', 'A'), os.getloadavg()[0])
    print('| %s | %s |' % (' | '.join(cells), on), flush=True)


def figure(number):
    """A number in three digits, or whole."""
    return '%.0f' % number if number >= 99.5 else '%.3g' % number


def span(seconds):
    """A time in its unit."""
    for unit, factor in (('s', 1), ('ms', 1e3), ('µs', 1e6)):
        if seconds * factor >= 0.995:
            return '%s %s' % (figure(seconds * factor), unit)
    return '%s ns' % figure(max(seconds, 0) * 1e9)


def memory(kilobytes):
    """The memory of a run."""
    return '<10 MB' if kilobytes < 10_000 else '%.0f MB' % (kilobytes / 1000)


def once(words, given=None, into=None):
    """One run of a program: its processor time, its memory and its status."""
    with open(given or os.devnull, 'rb') as text, open(into or os.devnull, 'wb') as told:
        words = [sys.executable, '-S', '-c', RUNNER] + words
        done = subprocess.run(words, stdin=text, stdout=told, stderr=subprocess.PIPE, check=True)
    seconds, kilobytes, status = done.stderr.split()[-3:]
    return Took(float(seconds), int(kilobytes), int(status))


def best(words, rounds=3, given=None, into=None):
    """The run of least processor time among some."""
    return min(once(words, given, into) for _ in range(sized(rounds, 1)))


def run(policy, lines, rounds=3, words='run policy'):
    """The best of some runs of gtrbac; the lines stand in the files `policy` and `script` here."""
    with open('policy', 'w', encoding='utf-8') as file:
        file.write(policy)
    with open('script', 'w', encoding='utf-8') as file:
        file.write('\n'.join(lines) + '\n')
    took = best([program('gtrbac')] + words.split(), rounds, 'script', 'replies')
    if took.status != 0:
        print('`gtrbac %s` ended with %d' % (words, took.status), file=sys.stderr)
    return took
