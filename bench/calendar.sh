#!/bin/sh
# Times the calendar's `next` calls: bench/calendar.sh [TIMES]
# Each line asks one call TIMES times (1,000 if left out; the cheap ones 10 to 100 times as often), each
# time after its last answer, and from the begin again where there is none.
set -eu
here=$(cd "$(dirname "$0")" && pwd)
work=$(mktemp -d)
trap 'rm -rf "$work"' EXIT
cd "$work"
PYTHONPATH="$here" python3 - "$@" <<'PY'
import sys
from measure import best, head, program, row, sized, span

OFTEN = int(sys.argv[1]) if len(sys.argv) > 1 else sized(1_000, 10)
PROBE = program('calendar_probe')


def took(times, call, after, expr):
    with open('asked', 'w', encoding='utf-8') as file:
        file.write('%d %s * * %s %s\n' % (times, call, after, expr))
    return best([PROBE], given='asked').seconds


head('call', 'time')
for factor, call, after, expr, name in (
        (100, 'start', '2026-01-01T00:00', 'all.Days + {9}.Hours > 8.Hours', None),
        (25, 'start', '2000-01-01T00:00', 'all.Years + {2}.Months + {29}.Days', None),
        (1, 'start', '2000-01-01T00:00', 'all.Years + {2,4,6,9,11}.Months + {43201}.Minutes', None),
        (100, 'edge', '2026-01-01T00:00', 'all.Days + {9}.Hours > 8.Hours', None),
        (10, 'edge', '2000-01-01T00:00',
         'all.Months + {%s}.Minutes > 90.Minutes' % ','.join(map(str, range(1, 44641, 90))),
         'all.Months + {1,91,181,..}.Minutes > 90.Minutes'),
        (0.01, 'edge', '2000-01-01T00:00', 'all.Years + {%s}.Days + {%s}.Minutes > 3.Minutes'
         % (','.join(map(str, range(1, 366))), ','.join(map(str, range(1, 1441, 3)))),
         'all.Years + {1,2,..,365}.Days + {1,4,..}.Minutes > 3.Minutes')):
    times = max(round(factor * OFTEN), 1)
    one = max(took(times + 1, call, after, expr) - took(1, call, after, expr), 0) / times
    row('`next_%s` of `%s`' % (call, name or expr), span(one))
PY
