#!/bin/sh
# Decisions a second, and sessions, by scripts over the built gtrbac: bench/sessions.sh
# A run's time has its policy and its lines read. The first table has decisions in hierarchies, the
# second what a request costs over 10,000 sessions of as many users.
set -eu
here=$(cd "$(dirname "$0")" && pwd)
work=$(mktemp -d)
trap 'rm -rf "$work"' EXIT
cd "$work"
PYTHONPATH="$here" python3 - <<'PY'
import random
from measure import head, row, run, sized, span


def roles_of(n):
    return ''.join('role r%d\n' % i for i in range(n)) + 'user u\nperm p\nperm q\n'


def rest_of(n):
    enabled = ''.join('enabled r%d\n' % i for i in range(n))
    return 'assigned u r0\ngranted p r%d\n' % (n - 1) + enabled


def chain(n):
    edges = ''.join('edge ia weak r%d r%d\n' % (i, i + 1) for i in range(n - 1))
    return roles_of(n) + edges + rest_of(n)


def wide(n, edges, seed):
    draw = random.Random(seed)
    pairs = set()
    while len(pairs) < edges:
        a, b = sorted(draw.sample(range(n), 2))
        pairs.add((a, b))
    return roles_of(n) + ''.join('edge ia weak r%d r%d\n' % pair for pair in sorted(pairs)) + rest_of(n)


head('hierarchy', 'permitted a second', 'denied a second', 'permitted, above a `now`', 'denied')
birth = ['@ 2026-01-05T08:00', 'as u', 'open', 'activate 1 r0']
for name, policy, count in (('a chain of 10 roles', chain(10), 300_000),
                            ('a chain of 50', chain(50), 300_000),
                            ('a chain of 200', chain(200), 100_000),
                            ('1,000 roles, 4,000 edges at random', wide(1000, 4000, 7), 50_000)):
    count = sized(count, count // 100)
    plain, yes, no = (run(policy, birth + [line] * count).seconds for line in ('now', 'check 1 p', 'check 1 q'))
    row(name, *('{:,.0f}'.format(count / took) for took in (yes, no)),
        *(span(max(took - plain, 0) / count) for took in (yes, no)))

print()
users = sized(10_000, 100)
policy = 'role a\nenabled a\n' + ''.join('user u%d\nassigned u%d a\n' % (i, i) for i in range(users))
birth = ['@ 2026-01-05T08:00']
opened = [line for i in range(users) for line in ('as u%d' % i, 'open')]
active = [line for i in range(users) for line in ('as u%d' % i, 'activate %d a' % (i + 1))]
closed = [line for i in range(users) for line in ('as u%d' % i, 'close %d' % (i + 1))]
dropped = ['as -', 'request 50:disable a', '@ 2026-01-05T08:02', 'status enabled a']
busy = policy + 'role b\nperiod always * * all.Minutes\neach always 50:enable b\n'
none, first, second, third, drop = (run(policy, birth + lines).seconds for lines in (
    [], opened, opened + active, opened + active + closed, opened + active + dropped))
quiet, many = (run(busy, birth + opened + active + [end]).seconds
               for end in ('@ 2026-01-05T08:01', '@ 2026-01-05T23:01'))
head('sessions with an activation', 'an opening', 'an activation', 'a closing', 'a minute that drops all',
     'that drops nothing')
row('{:,}'.format(users), *(span(took / users) for took in (first - none, second - first, third - second)),
    span(drop - second), span((many - quiet) / 900))
PY
