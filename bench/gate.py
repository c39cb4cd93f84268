#!/usr/bin/env python3
"""Tells where the gate spends its time: bench/gate.py [--anew] [--log FILE] [NAME..], or bench/gate.py --read FILE

Runs `rt ci` with these words and times each of its tasks; FILE gets a line for each, behind those that stand in it, and
--read tells FILE again without a run. So a whole run may be put together from runs over parts, a few crates NAME at a
time: of a task that several runs had, the run counts in which it took the most of a processor, since one that an earlier
run on this machine passed is not done again without --anew. Printed are, behind what `rt ci` says, for each crate of FILE
the seconds of its proof, of its tests' proof, of the base of its edits (the check that they begin with, and the one that
ends them) and of the edits; then the longest chain of tasks that wait for one another. Seconds stand as
ELAPSED/PROCESSOR. A processor's second depends on the load of the machine far less than an elapsed one. The status is
that of `rt ci`.
"""
import concurrent.futures
import contextvars
import importlib.machinery
import importlib.util
import os
import shutil
import sys
import tempfile
import threading
import time

TOP = os.path.dirname(os.path.dirname(os.path.abspath(__file__)))
# the kinds of tasks of `rt ci`, by the column that they count in
COLUMNS = {'proof': 'proof', 'tests': 'tests', 'seed': 'base', 'sound': 'base', 'edits': 'edits', 'again': 'edits'}
# the processors' seconds of the task that a thread works on, in a list of one
working = contextvars.ContextVar('working')


def loaded(path):
    """The kit's rt as a module."""
    loader = importlib.machinery.SourceFileLoader('rt', path)
    rt = importlib.util.module_from_spec(importlib.util.spec_from_loader('rt', loader))
    sys.modules['rt'] = rt
    sys.dont_write_bytecode = True
    loader.exec_module(rt)
    return rt


class Pool(concurrent.futures.ThreadPoolExecutor):
    """A pool whose threads work on the task that hands them their work."""

    def submit(self, call, *given, **named):
        return super().submit(contextvars.copy_context().run, call, *given, **named)


def count_processors(rt):
    """Has the seconds of a processor of each command that a task runs added to the task."""
    def waitpid(pid, flags):
        ended, status, used = os.wait4(pid, flags)
        task = working.get(None)
        if ended and task:
            task[0] += used.ru_utime + used.ru_stime
        return ended, status

    os.waitpid = waitpid
    rt.rtlib.ThreadPoolExecutor = Pool


def timed(rt, log):
    """Has the tasks timed that rt runs, each with those that it waits for, from when those in the log have ended."""
    log.seek(0)
    began = time.time() - max((it[1] for it in read(log).values()), default=0)
    run, turn = rt.in_lanes, threading.Lock()

    def called(key, waits, call):
        def with_time(given, jobs):
            used, since = [0.0], time.time()
            working.set(used)
            try:
                return call(given, jobs)
            finally:
                words = ['.'.join(map(str, it)) for it in (key, *waits)]
                with turn:
                    print(words[0], '%.1f %.1f %.1f %d' % (since - began, time.time() - began, used[0], jobs), *words[1:], file=log, flush=True)
        return with_time

    def in_lanes(tasks):
        return run({key: (waits, lines, needs, called(key, waits, call)) for key, (waits, lines, needs, call) in tasks.items()})

    rt.in_lanes = in_lanes


def read(lines):
    """The tasks: from when, to when, the processors' seconds, and what each waits for; those that took most count."""
    tasks = {}
    for line in lines:
        name, since, until, used, _, *waits = line.split()
        key = tuple(name.split('.'))
        if key not in tasks or tasks[key][2] <= float(used):
            tasks[key] = float(since), float(until), float(used), [tuple(it.split('.')) for it in waits]
    return tasks


def chain(tasks):
    """The longest chain of tasks that wait for one another, by seconds elapsed."""
    best = {}

    def longest(key):
        if key not in best:
            below = max((longest(it) for it in tasks[key][3] if it in tasks), key=lambda it: it[0], default=(0, []))
            best[key] = below[0] + tasks[key][1] - tasks[key][0], below[1] + [key]
        return best[key]

    sys.setrecursionlimit(10_000)
    return max((longest(key) for key in tasks), key=lambda it: it[0], default=(0, []))


def tell(tasks):
    sums, edits = {}, {}
    for (crate, kind, *_), (since, until, used, _) in tasks.items():
        edits[crate] = edits.get(crate, 0) + (kind == 'edits')
        for row in crate, 'all':
            cell = sums.setdefault(row, {}).setdefault(COLUMNS[kind], [0, 0])
            cell[0], cell[1] = cell[0] + until - since, cell[1] + used
    whole = sums.pop('all', {})
    sums['all'] = whole
    columns = list(dict.fromkeys(COLUMNS.values()))
    print('%-18s %11s %11s %11s %11s %5s' % ('crate', *columns, ''))
    for crate, row in sums.items():
        cells = ['%.0f/%.0f' % tuple(row.get(column, (0, 0))) for column in columns]
        print('%-18s %11s %11s %11s %11s %5d' % (crate, *cells, sum(edits.values()) if crate == 'all' else edits[crate]))
    seconds, links = chain(tasks)
    print('from the first task to the last %.0f s in all; the longest chain is %.0f s:' % (max((it[1] for it in tasks.values()), default=0), seconds))
    print('  ' + ', '.join('%s %s %.0f' % (key[0], ' '.join(key[1:]), tasks[key][1] - tasks[key][0]) for key in links))


def main():
    words, path = sys.argv[1:], None
    if '--read' in words:
        with open(words[words.index('--read') + 1], encoding='utf-8') as lines:
            tell(read(lines))
        return 0
    if '--log' in words:
        at = words.index('--log')
        path = words[at + 1]
        del words[at:at + 2]
    with open(path, 'a+', encoding='utf-8') if path else tempfile.TemporaryFile('w+') as log:
        rt = loaded(shutil.which('rt'))
        count_processors(rt)
        timed(rt, log)
        os.chdir(TOP)
        status = rt.main(['ci'] + words)
        log.seek(0)
        tell(read(log))
    return status


if __name__ == '__main__':
    sys.exit(main())
