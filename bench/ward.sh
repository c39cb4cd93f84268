#!/bin/sh
# Times a day of a large ward: bench/ward.sh
# 1,000 users, five roles in three shifts, a session and an activation each, and checks through the
# day, 500,000 lines in all; also a tenth of it, so that it is seen what grows.
set -eu
here=$(cd "$(dirname "$0")" && pwd)
work=$(mktemp -d)
trap 'rm -rf "$work"' EXIT
cd "$work"
PYTHONPATH="$here" python3 - <<'PY'
from measure import head, memory, row, run, sized, span

ROLES = ['early', 'late', 'night', 'nurse', 'ward']
policy = 'policy 1\n' + ''.join('role %s\n' % r for r in ROLES)
policy += ''.join('user u%d\n' % i for i in range(1000)) + ''.join('perm p%d\n' % i for i in range(20))
for name, hour in ('first', 7), ('second', 15), ('third', 23):
    policy += 'period %s 2000-01-01T00:00 2099-12-31T23:59 all.Days + {%d}.Hours > 8.Hours\n' % (name, hour)
policy += 'edge ia weak early nurse\nedge ia weak late nurse\nedge ia weak night nurse\n'
policy += 'edge ia weak nurse ward\ncap day nurse 600\nenabled nurse\nenabled ward\n'
policy += ''.join('assigned u%d %s\n' % (i, ROLES[i % 3]) for i in range(1000))
policy += ''.join('granted p%d %s\n' % (i, 'ward' if i % 2 else 'nurse') for i in range(20))
policy += 'span first 50:enable early\nspan second 50:enable late\nspan third 50:enable night\n'


def day(lines):
    out = ['@ 2026-01-05T06:00']
    for i in range(1000):
        out += ['as u%d' % i, 'open']
    minute, i = 6 * 60, 0
    while len(out) < lines:
        minute = min(minute + 1, 1439)
        out.append('@ 2026-01-05T%02d:%02d' % divmod(minute, 60))
        shift = 0 if minute < 900 else 1 if minute < 1380 else 2
        for _ in range(max(1, lines // 1080 // 3)):
            user = (i * 3 + shift) % 999
            out += ['as u%d' % user, 'activate %d %s' % (user + 1, ROLES[shift]),
                    'check %d p%d' % (user + 1, i % 20)]
            i += 1
    return out[:lines]


head('a day of a ward, lines', 'time', 'memory', 'a line')
for lines in 50_000, 500_000:
    lines = sized(lines, lines // 20)
    took = run(policy, day(lines))
    row('{:,}'.format(lines), span(took.seconds), memory(took.kilobytes), span(took.seconds / lines))
PY
