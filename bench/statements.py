#!/usr/bin/env python3
"""What crates gain where the libraries below them are written as statements: bench/statements.py CRATE..

Each CRATE is a library, and its libraries stand before it in the list. Each is proved from nothing, with
one job, two times: over libraries that hold their checked proofs, as bin/build makes them, and over
libraries that the kit wrote with `--statements`, as its verdict does. A row has the processor's seconds,
the elapsed ones and the bytes of the library, both ways. Nothing outside .build/statements is written.
"""
import os
import resource
import shutil
import subprocess
import sys
import time

TOP = os.path.dirname(os.path.dirname(os.path.abspath(__file__)))
MADE = os.path.join(TOP, '.build', 'statements')
KIT = '/opt/rattle'


def stands_on():
    found = {}
    with open(os.path.join(TOP, 'crates.txt'), encoding='utf-8') as file:
        for line in file:
            head, colon, below = line.split('#')[0].partition(':')
            if colon:
                found[head.split()[0]] = below.split()
    return found


def all_below(crate, below):
    found = []
    for lower in below.get(crate, []):
        found += [it for it in all_below(lower, below) + [lower] if it not in found]
    return found


def place(way, crate):
    return os.path.join(MADE, way, crate, crate + '.rlib')


def size(path):
    found = [path] if os.path.isfile(path) else [os.path.join(it, name) for it, _, names in os.walk(path) for name in names]
    return sum(os.path.getsize(name) for name in found)


def build(way, crate, below):
    """The processor's seconds, the elapsed ones and the bytes of the library."""
    words = [KIT + '/bin/rattle', 'build', '--crate-name', crate, 'src/lib.rt']
    lower = all_below(crate, below)
    for name in ['std'] + below[crate]:
        if name in below:
            words += ['--extern', '%s=%s' % (name, place(way, name))]
        else:
            words += ['--extern', '%s=%s/rlibs/%s.rlib' % (name, KIT, name)]
    words += ['-L', 'dependency=%s/rlibs' % KIT]
    for name in lower:
        if name in below:
            words += ['-L', 'dependency=' + os.path.dirname(place(way, name))]
    words += ['--antt-project', KIT + '/rattle/logic/antt-project.json', '--logic-built', KIT + '/logic_built']
    words += ['--jobs', '1', '-o', place(way, crate)] + ['--statements'] * (way == 'statements')
    os.makedirs(os.path.dirname(place(way, crate)), exist_ok=True)
    before, since = resource.getrusage(resource.RUSAGE_CHILDREN), time.time()
    folder = os.path.join(TOP, 'crates', crate)
    done = subprocess.run(words, cwd=folder, stdout=subprocess.PIPE, stderr=subprocess.STDOUT, check=False)
    took, after = time.time() - since, resource.getrusage(resource.RUSAGE_CHILDREN)
    if done.returncode != 0:
        sys.exit('%s, %s: not built\n%s' % (crate, way, done.stdout.decode(errors='replace')))
    used = after.ru_utime + after.ru_stime - before.ru_utime - before.ru_stime
    return used, took, size(place(way, crate))


def main():
    below = stands_on()
    shutil.rmtree(MADE, ignore_errors=True)
    print('load %s' % open('/proc/loadavg', encoding='ascii').read().split()[0])
    print('%-20s %28s %28s' % ('', 'proofs', 'statements'))
    for crate in sys.argv[1:]:
        row = '%-20s' % crate
        for way in 'proofs', 'statements':
            row += ' %6.1f s %6.1f s %9d' % build(way, crate, below)
        print(row, flush=True)
    shutil.rmtree(MADE, ignore_errors=True)


main()
