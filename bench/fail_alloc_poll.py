#!/usr/bin/env python3
"""Refuses the allocations of a run of the polling server one at a time: bench/fail_alloc_poll.py

The run is the test `each_link_begins_as_nobody` of daemon_checks: three links, each over before the next one comes. It is run
with the Nth allocation refused, for each N. Each run must end with the status 0 or 8; with 8 at one N alone where a link has
come, that of the first one, since the others have its memory. Runs in which the test itself lacked memory tell nothing. Needs
cc, and `rt test` in crates/daemon_checks before.
"""
import collections
import os
import subprocess
import sys
import tempfile

from fail_alloc_daemon import TOP, run

TEST = os.path.join(TOP, 'crates', 'daemon_checks', 'out', 'daemon_checks_tests'), 'poll_tests::each_link_begins_as_nobody'


def end_of(text):
    """Whether a link came, and the status."""
    if 'status ' not in text:
        return 'the test lacked memory'
    return ('a link came' if '| ' in text else 'no link came') + ', status ' + text.rpartition('status ')[2].strip()


def main():
    with tempfile.TemporaryDirectory() as work:
        shim = os.path.join(work, 'shim.so')
        subprocess.run(['cc', '-shared', '-fPIC', '-O2', '-o', shim, os.path.join(TOP, 'bench', 'fail_alloc.c')], check=True)
        count = run(0, shim, TEST)[1]
        ends = collections.Counter(end_of(run(number, shim, TEST)[0]) for number in range(1, count + 1))
    for end, runs in sorted(ends.items()):
        print('%4d runs: %s' % (runs, end))
    allowed = {'the test lacked memory', 'no link came, status 8', 'a link came, status 0', 'a link came, status 8'}
    sys.exit(ends['a link came, status 8'] != 1 or not set(ends) <= allowed)


if __name__ == '__main__':
    main()
