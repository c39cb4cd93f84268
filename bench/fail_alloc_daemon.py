#!/usr/bin/env python3
"""Refuses the allocations of a run of the server one at a time: bench/fail_alloc_daemon.py [ROUNDS]

The run is the test `two_workers_are_told` of daemon_checks: two workers over links in memory, once. It is run with the Nth
allocation refused, for N from 1 until none was refused in a run and as far as any run went; all of it ROUNDS times, 10 where
it is not given, since threads make the order of allocations vary. Each run must end with the status 0 or 8. The replies of
each connection must be those to its lines, or `no memory`. At 0, and at 8 where a log was written, the log must have an
entry with the same reply for each line that got a reply and none for one that got `no memory`, in order; the minutes must
be those of its ticks. At 8 a front of it will do. Runs in which the test itself, which makes the links and tells the run,
lacked memory tell nothing and are counted apart. Needs cc, and `rt test` in crates/daemon_checks before.
"""
import collections
import os
import re
import subprocess
import sys
import tempfile

TOP = os.path.dirname(os.path.dirname(os.path.abspath(__file__)))
PROGRAM = os.path.join(TOP, 'crates', 'daemon_checks', 'out', 'daemon_checks_tests')
TEST = 'tests::two_workers_are_told'

# What each connection of a worker sends, and the readings of its clock, of which the last one stays.
SENDS = [[['as u', 'open'], ['as u', 'now']], [['as u', 'now', 'now']]]
READINGS = [['2026-01-05T10:00'], ['2026-01-05T10:05', '2026-01-05T10:00']]
BIRTH = '2026-01-05T10:00'

LINK = re.compile(r'((?:[^|\n]*\n)*)\| ([a-z ]+), asked (\d+), denied (\d+)\n')
WORKER = re.compile(r'(\d+) links, ([a-z ]+)\n')
LOG = re.compile(r'((?:(?:born|tick|ask) .*\n)*)status (\d+)\n')


class Wrong(Exception):
    """What is told is none of what may be."""


def ask(holds, what):
    if not holds:
        raise Wrong(what)


def read_worker(text, at):
    """The links of a worker, each with its replies, its end and its two counts, how it ended, and what stands behind it."""
    links = []
    while True:
        worker = WORKER.match(text, at)
        if worker:
            ask(int(worker[1]) == len(links), 'a link is passed over')
            return links, worker[2], worker.end()
        link = LINK.match(text, at)
        ask(link, 'no worker is told')
        replies, end, asked, denied = link.groups()
        links.append((replies.splitlines(), end, int(asked), int(denied)))
        at = link.end()


def accepted_of(number, links):
    """The requests of a worker that were accepted, each with its connection, reply and reading."""
    readings = iter(READINGS[number] + READINGS[number][-1:] * 9)
    found = []
    for conn, (replies, end, asked, denied) in enumerate(links, 1):
        sends = SENDS[number][conn - 1]
        ask(end == 'ended', 'a link has not ended')
        ask(len(replies) == len(sends) and replies[0] == 'ok', 'the replies are not those to the lines')
        requests = list(zip(sends[1:], replies[1:], readings))
        found += [(conn,) + request for request in requests if request[1] != 'no memory']
        ask(denied == replies.count('no memory'), 'the lines that were not accepted are counted otherwise')
        ask(asked == len(requests) - denied, 'the lines that were accepted are counted otherwise')
    return found


def judge_log(log, accepted):
    """Looks through the lines of a log, of these requests of each worker; gives those that are left without an entry."""
    left = [list(requests) for requests in accepted]
    now, sessions = BIRTH, 0
    ask(log[0] == 'born ' + BIRTH, 'the log has another birth')
    for line in log[1:]:
        tick = re.fullmatch(r'tick (\d)\.(\d) to (\S+) bound (\S+)', line)
        entry = re.fullmatch(r'ask (\d)\.(\d) u (\S+) = (.+)', line)
        ask(tick or entry, 'the log has the line ' + line)
        if tick:
            ask(tick[3] == tick[4] and tick[4] in READINGS[int(tick[1])] and now < tick[3], 'a tick to no reading')
            now = tick[3]
            continue
        ask(left[int(entry[1])], 'an entry of no line')
        conn, request, reply, reading = left[int(entry[1])].pop(0)
        ask((int(entry[2]), entry[3], entry[4]) == (conn, request, reply), 'an entry of another line: ' + line)
        ask(reading <= now, 'an entry before its reading: ' + line)
        sessions += request == 'open'
        ask(reply == {'open': 'session %d' % sessions, 'now': 'now ' + now}[request], 'a reply of another point: ' + line)
    return left


def judge(text):
    """Looks through what a run told; gives its status, and how many lines were not accepted."""
    zero, end_of_zero, at = read_worker(text, 0)
    one, end_of_one, at = read_worker(text, at)
    told = LOG.match(text, at)
    ask(told, 'no status is told')
    log, status = told[1], int(told[2])
    ends = {end_of_zero, end_of_one}
    ask(status in (0, 8), 'the status is %d' % status)
    ask(ends <= {'fresh', 'done', 'memory'}, 'a worker ended otherwise')
    ask(status == 8 or (ends == {'done'} and (len(zero), len(one)) == (2, 1)), 'a worker did not come to its end')
    accepted = [accepted_of(0, zero), accepted_of(1, one)]
    if status == 0 or log.endswith('\n'):
        left = judge_log(log.splitlines(), accepted)
        ask(left == [[], []], 'a line that was accepted has no entry')
    else:
        ask(log == '', 'the log ends within a line')
    return status, sum(link[3] for link in zero + one)


def run(number, shim, words=(PROGRAM, TEST)):
    """What the run tells where this allocation is refused, none for 0, and how many there were."""
    with tempfile.NamedTemporaryFile() as count:
        names = dict(os.environ, LD_PRELOAD=shim, FAIL_ALLOC=str(number), COUNT_FILE=count.name)
        done = subprocess.run(words, env=names, stdout=subprocess.PIPE, stderr=subprocess.DEVNULL, timeout=60)
        # A test that fails does not come to its end, where the number is written: then it is not known.
        calls = int(count.read() or 0)
    return done.stdout.decode(), calls


def main():
    rounds = int(sys.argv[1]) if len(sys.argv) > 1 else 10
    ends, refused, wrong = collections.Counter(), 0, 0
    with tempfile.TemporaryDirectory() as work:
        shim = os.path.join(work, 'shim.so')
        subprocess.run(['cc', '-shared', '-fPIC', '-O2', '-o', shim, os.path.join(TOP, 'bench', 'fail_alloc.c')], check=True)
        most = max(run(0, shim)[1] for _ in range(20))
        for number in range(1, most + 1) if most else []:
            for _ in range(rounds):
                text, calls = run(number, shim)
                refused += calls == 0 or number <= calls
                if 'status ' not in text:
                    ends['the test lacked memory'] += 1
                    continue
                try:
                    status, denied = judge(text)
                    ends['status %d, %s' % (status, 'each line accepted' if denied == 0 else 'a line got no memory')] += 1
                except (Wrong, KeyError, IndexError) as fault:
                    wrong += 1
                    print('allocation %d: %s\n%s' % (number, fault, text), file=sys.stderr)
    print('%d allocations at most, each refused %d times, in %d runs one was' % (most, rounds, refused))
    for end, count in sorted(ends.items()):
        print('%6d runs: %s' % (count, end))
    print('%6d runs: wrong' % wrong)
    sys.exit(wrong > 0 or most == 0)


if __name__ == '__main__':
    main()
