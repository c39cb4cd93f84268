#!/bin/sh
# Times the minutes that are charged to activations: bench/charges.sh [COUNT]
# A century in one line over 1,000 users with an activation each, with and without a cap on the
# minutes of a day; and a tick over so many activations of one user (10,000 if left out) in ten roles,
# without a cap, with a cap on how many a user has, and with one on the minutes of a day.
set -eu
here=$(cd "$(dirname "$0")" && pwd)
work=$(mktemp -d)
trap 'rm -rf "$work"' EXIT
cd "$work"
PYTHONPATH="$here" python3 - "$@" <<'PY'
import sys
from measure import head, memory, row, run, sized, span

COUNT = int(sys.argv[1]) if len(sys.argv) > 1 else sized(10_000, 100)


def century(cap):
    policy = 'policy 1\nrole desk\n' + ''.join('user u%d\n' % i for i in range(1000))
    policy += cap + 'enabled desk\n' + ''.join('assigned u%d desk\n' % i for i in range(1000))
    lines = ['@ 2000-01-01T00:01']
    for i in range(1000):
        lines += ['as u%d' % i, 'open', 'activate %d desk' % (i + 1)]
    took = run(policy, lines + ['@ 2099-12-31T23:59'])
    name = 'a century over 1,000 activations, ' + (' '.join(cap.split()[:2]) or 'no cap')
    row(name, span(took.seconds), memory(took.kilobytes), '-')


def ticks(cap, roles):
    names = ['r%d' % i for i in range(roles)]
    policy = 'policy 1\n' + ''.join('role %s\n' % r for r in names) + 'user ada\n'
    policy += ''.join(cap % r for r in names if cap) + ''.join('enabled %s\n' % r for r in names)
    policy += ''.join('assigned ada %s\n' % r for r in names)
    lines = ['@ 2026-01-05T00:01', 'as ada'] + ['open'] * (COUNT // roles)
    lines += ['activate %d %s' % (i + 1, r) for i in range(COUNT // roles) for r in names]
    first = run(policy, lines)
    more = run(policy, lines + ['@ 2026-01-05T00:%02d' % m for m in range(2, 12)])
    name = '{:,} activations of one user, {}'.format(COUNT, ' '.join(cap.split()[:2]) or 'no cap')
    row(name, span(first.seconds), memory(first.kilobytes), span(max(more.seconds - first.seconds, 0) / 10))


head('work', 'time', 'memory', 'a tick more')
century('')
century('cap day desk 1440\n')
for cap in '', 'cap user %%s %d\n' % COUNT, 'cap day %s 1000000\n':
    ticks(cap, 10)
PY
