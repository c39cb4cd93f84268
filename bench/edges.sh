#!/bin/sh
# Times periods that are inside for long: bench/edges.sh
# Each period is asked for its next edge before the first tick: one and 100 periods without an edge
# all century, whose begins follow each other closely, 100 with a gap each month, and one whose
# stretches of four years have 700,000 begins, once and over a century.
set -eu
here=$(cd "$(dirname "$0")" && pwd)
work=$(mktemp -d)
trap 'rm -rf "$work"' EXIT
cd "$work"
PYTHONPATH="$here" python3 - <<'PY'
from measure import head, memory, row, run, span


def periods(name, exprs, last='2099-12-31T23:59', end='2000-01-02T00:00'):
    policy = 'policy 1\nrole desk\n'
    for i, expr in enumerate(exprs):
        policy += 'period p%d 2000-01-01T00:00 %s %s\n' % (i, last, expr)
    policy += ''.join('span p%d 50:enable desk\n' % i for i in range(len(exprs)))
    took = run(policy, ['@ 2000-01-01T00:01', '@ ' + end])
    row(name, span(took.seconds), memory(took.kilobytes))


def numbers(first, past, step):
    return '{%s}' % ','.join(str(n) for n in range(first, past, step))


head('periods', 'time', 'memory')
whole = 'all.Months + %s.Minutes > 90.Minutes' % numbers(1, 44641, 90)
periods('one period, inside all century', [whole])
periods('100 periods, inside all century', [whole] * 100)
gap = 'all.Months + %s.Minutes > 90.Minutes' % numbers(1, 40321, 90)
periods('100 periods with a gap on the 29th', [gap] * 100)
# each day of a year but the leap day, by begins of every third minute: an edge every fourth year
days = 'all.Years + %s.Days + %s.Minutes > 3.Minutes' % (numbers(1, 366, 1), numbers(1, 1441, 3))
periods('four years to an edge, by 700,000 begins', [days], end='2003-01-01T00:00')
periods('a century of such edges', [days], end='2099-12-31T23:59')
PY
