#!/usr/bin/env python3
"""Tells where a check spends its time: bench/checks.py [NUMBER] CRATE..

For each crate, what `rt check --jobs 1` from nothing left under crates/CRATE/out/incremental: seconds by kind of module
and the NUMBER dearest modules (20 where none is given), taken from the times at which their files were written, with the
bytes of each. Modules that a later check took over are left out, so remove crates/CRATE/out first. The bytes don't depend
on the load. Kinds: Lts and Tie are the borrow checker's part of a function, Proof its goals without a written answer,
Answers those with one, Layout, Reads, Kinds, Named, Mir and Code tables of it; specs are clauses and definitions, proofs
lemma files, and loading what passed before the first file.
"""
import collections
import os
import sys

TOP = os.path.dirname(os.path.dirname(os.path.abspath(__file__)))
OF_FUNCTIONS = ('Lts', 'Tie', 'Proof', 'Answers', 'Goals', 'Layout', 'Reads', 'Kinds', 'Named', 'Mir', 'Code')


def modules(crate):
    """The modules in the order of their writing: seconds since the one before, name, bytes."""
    kept = os.path.join(TOP, 'crates', crate, 'out', 'incremental')
    newest = max((os.path.join(kept, name) for name in os.listdir(kept)), key=os.path.getmtime)
    files = sorted((it.stat().st_mtime, it.name, it.stat().st_size) for it in os.scandir(newest) if it.name.endswith('.oantt'))
    before = files[0][0]
    for when, name, size in files:
        yield when - before, name.replace('Rattle-%s-' % crate, '')[:-len('.oantt')], size
        before = when


def kind_of(name):
    parts = name.split('.')
    if parts[0].startswith('Rattle'):
        return 'loading'
    if parts[-1] in OF_FUNCTIONS and len(parts) > 2:
        return parts[-1]
    return parts[0]


def main():
    words = sys.argv[1:]
    number = int(words.pop(0)) if words and words[0].isdigit() else 20
    for crate in words:
        found = list(modules(crate))
        seconds = collections.Counter()
        for took, name, _ in found:
            seconds[kind_of(name)] += took
        print('%s: %d modules, %.0f s, %d bytes' % (crate, len(found), sum(seconds.values()), sum(size for _, _, size in found)))
        print('  ' + ', '.join('%s %.1f' % pair for pair in seconds.most_common()))
        for took, name, size in sorted(found, reverse=True)[:number]:
            print('  %6.2f s %9d bytes  %s' % (took, size, name))


main()
