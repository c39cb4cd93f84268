#!/bin/sh
# Closes of the timeline, by scripts over the built gtrbac: bench/time.sh
# The time of reading the policy is left out where a row says so much of one close.
set -eu
here=$(cd "$(dirname "$0")" && pwd)
work=$(mktemp -d)
trap 'rm -rf "$work"' EXIT
cd "$work"
PYTHONPATH="$here" python3 - <<'PY'
from datetime import datetime, timedelta
from measure import head, memory, row, run, sized, span


def at(minutes):
    return '@ ' + (datetime(2000, 1, 1) + timedelta(minutes=minutes)).strftime('%Y-%m-%dT%H:%M')


def closes(name, policy, to, number, lines=(), rounds=3):
    read = run(policy, [at(0)], rounds)
    took = run(policy, [at(0), at(to), *lines], rounds)
    more = max(took.seconds - read.seconds, 0)
    row(name, span(took.seconds), memory(took.kilobytes), span(more / number))


def chained(n):
    rule = 'when enable r%d then 50:enable r%d\nwhen disable r%d then 50:disable r%d\n'
    return ''.join('role r%d\n' % i for i in range(n + 1)) \
        + 'period even * * all.Days + {1,3,5,7,9,11,13,15,17,19,21,23}.Hours > 1.Hours\n' \
        + 'span even 50:enable r0\n' + ''.join(rule % (i, i + 1, i, i + 1) for i in reversed(range(n)))


def full(entries, periods, triggers, limits):
    period = 'period p%d * * all.Days + {%d}.Hours + {%d}.Minutes'
    rule = 'when enable r%d and enabled r%d then 50:enable r%d after 30'
    out = ['role r%d' % i for i in range(1000)]
    out += [period % (i, i % 24 + 1, i // 24 % 60 + 1) for i in range(periods)]
    out += ['limit l%d 90 enabled r%d max %d' % (i, i % 1000, 100 + i) for i in range(limits)]
    out += ['armed l%d' % i for i in range(limits)]
    out += ['each p%d %d:%s r%d' % (i % periods, i % 90, ('enable', 'disable')[i % 2], i % 1000)
            for i in range(entries)]
    out += [rule % (i % 1000, (i + 1) % 1000, (i * 7) % 1000) for i in range(triggers)]
    return '\n'.join(out) + '\n'


always = 'role a\nperiod always * * all.Minutes\neach always 50:enable a\n'
head('what happens', 'time', 'memory', 'a close')
for number in 10_000, 1_000_000:
    number = sized(number, number // 100)
    closes('one periodic event, {:,} closes'.format(number), always, number, number)
large = always + 'user u0\n' + ''.join('user v%d\n' % i for i in range(1000)) \
    + ''.join('role q%d\n' % i for i in range(50)) + ''.join('perm p%d\n' % i for i in range(1000)) \
    + ''.join('assigned v%d q%d\n' % (i % 1000, i // 1000) for i in range(50000)) \
    + ''.join('granted p%d q%d\n' % (i % 1000, i // 1000) for i in range(10000))
number = sized(100_000, 1_000)
closes('the same with 60,000 fluents on, {:,}'.format(number), large, number, number)
leap = 'policy 1\n' + ''.join('role r%d\n' % i for i in range(1000)) \
    + 'period leap * * all.Years + {2}.Months + {29}.Days\n' \
    + ''.join('start leap 50:enable r%d\n' % i for i in range(1000))
closes('1,000 `start` events of leap days, a century', leap, 52_595_999, 25)
number = sized(960, 10)
for n in 250, 999:
    closes('a chain of {} triggers, {} closes'.format(n, number), chained(n), number * 60, number)
for name, sizes in (('4,000 periodic events over 1,000 periods', (4000, 1000, 0, 0)),
                    ('the same and 1,000 limits', (4000, 1000, 0, 1000)),
                    ('the same and 4,000 triggers', (4000, 1000, 4000, 1000))):
    closes(name + ', a day', full(*sizes), sized(1440, 60), 1)
PY
