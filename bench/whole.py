#!/usr/bin/env python3
"""Proves a program with all its libraries in one run of the checker: bench/whole.py [PROGRAM [JOBS]]

PROGRAM is gtrbac where it is not given, JOBS the number of processors. Each library is passed as source, so none waits for
another, and one verdict covers them all. Nothing is built and nothing is kept. The verdict's last line, the seconds
elapsed, and those of the processors are written; the status is the checker's. It takes some 14 GB of memory.
"""
import os
import resource
import subprocess
import sys
import tempfile
import time

TOP = os.path.dirname(os.path.dirname(os.path.abspath(__file__)))
KIT = '/opt/rattle'


def stands_on():
    found = {}
    with open(os.path.join(TOP, 'crates.txt'), encoding='utf-8') as file:
        for line in file:
            head, colon, below = line.split('#')[0].partition(':')
            if colon:
                found[head.split()[0]] = below.split()
    return found


def in_order(crate, below, order):
    for lower in below.get(crate, []):
        if lower in below and lower not in order:
            in_order(lower, below, order)
    order.append(crate)
    return order


def main():
    program = sys.argv[1] if len(sys.argv) > 1 else 'gtrbac'
    jobs = sys.argv[2] if len(sys.argv) > 2 else str(len(os.sched_getaffinity(0)))
    below = stands_on()
    order = in_order(program, below, [])
    words = [KIT + '/bin/rattle', 'check', '--crate-name', program, 'src/main.rt', '-L', 'dependency=%s/rlibs' % KIT]
    for name in sorted({'std'} | {lower for crate in order for lower in below[crate] if lower not in below}):
        words += ['--extern', '%s=%s/rlibs/%s.rlib' % (name, KIT, name)]
    for crate in order[:-1]:
        words += ['--lib', '%s:%s=%s/crates/%s/src/lib.rt' % (crate, ','.join(below[crate] + ['std']), TOP, crate)]
    words += ['--antt-project', KIT + '/rattle/logic/antt-project.json', '--logic-built', KIT + '/logic_built', '--jobs', jobs]
    since = time.time()
    with tempfile.TemporaryDirectory() as kept:
        done = subprocess.run(words + ['--incremental', kept], cwd=os.path.join(TOP, 'crates', program), stdout=subprocess.PIPE)
    used = resource.getrusage(resource.RUSAGE_CHILDREN)
    print(done.stdout.decode().splitlines()[-1])
    print('%d s elapsed, %d s of the processors' % (time.time() - since, used.ru_utime + used.ru_stime))
    sys.exit(done.returncode)


main()
