#!/bin/sh
# Times `gtrbac run` on long scripts, and `gtrbac gen`: bench/run.sh
# 100,000 request and status lines over 1,000 roles, with a tick after each 100; 1,000,000 entries, for
# the bytes of an entry; and the generator's 100,000 rounds.
set -eu
here=$(cd "$(dirname "$0")" && pwd)
work=$(mktemp -d)
trap 'rm -rf "$work"' EXIT
cd "$work"
PYTHONPATH="$here" python3 - <<'PY'
from datetime import datetime, timedelta
from measure import best, head, memory, program, row, run, sized, span

BIRTH = datetime(2026, 1, 5, 8, 0)


def at(minutes):
    return '@ ' + (BIRTH + timedelta(minutes=minutes)).strftime('%Y-%m-%dT%H:%M')


def asks(count):
    lines = [at(0)]
    for i in range(count):
        role, event = (i * 7919) % 1000, 'enable' if i % 3 else 'disable'
        request = 'request %d:%s r%d' % (i % 101, event, role)
        lines.append('status enabled r%d' % role if i % 2 else request)
        if i % 100 == 99:
            lines.append(at(i // 100 + 1))
    return lines


head('script', 'time', 'memory', 'a line')
roles = ''.join('role r%d\n' % i for i in range(1000))
asked = asks(sized(100_000, 1_000))
entries = [at(0)]
for i in range(sized(333_333, 333)):
    entries += ['request 1:enable a', at(2 * i + 2)]
for name, policy, lines in (('requests and questions over 1,000 roles', roles, asked),
                            ('a history of {:,} entries'.format(3 * (len(entries) // 2)), 'role a\n', entries)):
    took = run(policy, lines)
    row(name, span(took.seconds), memory(took.kilobytes), span(took.seconds / len(lines)))
rounds = sized(100_000, 100)
took = best([program('gtrbac'), 'gen', '7', str(rounds)])
row('`gen 7 %d`, a round' % rounds, span(took.seconds), memory(took.kilobytes), span(took.seconds / rounds))
PY
