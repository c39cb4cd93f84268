#!/bin/sh
# Times and memory of what is said behind a script, and of long replies: bench/late.sh
# A forecast over days in each minute of which something is raised and nothing changes, without edges
# and with a chain of them; a script over a chain of 1,998 triggers, played alone and with a question
# why behind it, the triggers in the order of their causes and in the opposite one; the same with one
# instant of many events, for a size and for four times as much; and checks that are permitted along a
# path of 1,000 roles. Where memory could grow, for a size and for twice as much.
set -eu
here=$(cd "$(dirname "$0")" && pwd)
work=$(mktemp -d)
trap 'rm -rf "$work"' EXIT
cd "$work"
PYTHONPATH="$here" python3 - <<'PY'
import random
from measure import head, memory, row, run, sized, span


def told(name, took, number):
    row(name, span(took.seconds), memory(took.kilobytes), span(took.seconds / number))


def forecast(days, edges=0):
    policy = 'policy 1\nrole a\nrole b\n' + ''.join('role r%d\n' % i for i in range(edges + 1))
    policy += 'period p * * all.Minutes\n'
    policy += ''.join('edge i weak r%d r%d\n' % (i, i + 1) for i in range(edges))
    policy += 'enabled a\neach p 50:enable a\n'
    took = run(policy, ['@ 2026-01-05T08:00'], 1, 'forecast policy %d enabled a' % days)
    name = 'a forecast over {:,} days of minutes'.format(days)
    told(name + (', {:,} edges'.format(edges) if edges else ''), took, days * 1440)


def why(instants, opposite=False):
    policy = 'policy 1\n' + ''.join('role r%d\n' % i for i in range(1000))
    for verb in 'enable', 'disable':
        rule = 'when %s r%d then 50:%s r%d\n'
        rules = [rule % (verb, i, verb, i + 1) for i in range(999)]
        policy += ''.join(reversed(rules) if opposite else rules)
    lines = ['@ 2026-01-05T00:00']
    for i in range(instants):
        lines.append('request 50:%s r0' % ('disable' if i % 2 else 'enable'))
        lines.append('@ 2026-01-05T%02d:%02d' % divmod(i + 1, 60))
    order = ', opposite order' if opposite else ''
    told('`run`, %d instants of 1,000 events%s' % (instants, order), run(policy, lines), instants)
    told('`why` behind it', run(policy, lines, 3, 'why policy enable r999'), instants)


def instant(count):
    policy = 'policy 1\n' + ''.join('role r%d\n' % i for i in range(1000))
    policy += ''.join('user u%d\n' % i for i in range(100))
    chosen = random.Random(1)
    lines = ['@ 2026-01-05T00:00']
    for i in chosen.sample(range(100_000), count):
        lines.append('request %d:assign u%d r%d' % (chosen.randrange(101), i // 1000, i % 1000))
    lines.append('@ 2026-01-05T00:01')
    told('`run`, an instant of {:,} events'.format(count), run(policy, lines, 1), count)
    told('`why` behind it', run(policy, lines, 1, 'why policy enable r999'), count)


def replies(count):
    policy = 'policy 1\n' + ''.join('role r%d\n' % i for i in range(1000)) + 'user u\nperm p\n'
    policy += ''.join('edge i weak r%d r%d\n' % (i, i + 1) for i in range(999))
    policy += ''.join('enabled r%d\n' % i for i in range(1000)) + 'assigned u r0\ngranted p r999\n'
    lines = ['@ 2026-01-05T00:00', 'as u', 'open', 'activate 1 r0'] + ['check 1 p'] * count
    told('{:,} permits by a path of 1,000 roles'.format(count), run(policy, lines, 1), count)


head('work', 'time', 'memory', 'each')
for part, whole, small in (forecast, 500, 5), (forecast, 1_000, 10), (replies, 20_000, 20), (replies, 40_000, 40), \
        (instant, 20_000, 20), (instant, 80_000, 80):
    part(sized(whole, small))
forecast(sized(50, 1), sized(997, 9))
for opposite in False, True:
    why(sized(400, 2), opposite)
PY
