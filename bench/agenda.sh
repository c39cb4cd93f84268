#!/bin/sh
# Times requests with a delay: bench/agenda.sh [COUNT]
# So many requests (200,000 if left out), each with a delay of its own, in rising, falling and mixed
# order, then all of them due; and half of them, so that it is seen how the time grows.
set -eu
here=$(cd "$(dirname "$0")" && pwd)
work=$(mktemp -d)
trap 'rm -rf "$work"' EXIT
cd "$work"
PYTHONPATH="$here" python3 - "$@" <<'PY'
import random
import sys
from measure import head, memory, row, run, sized, span

COUNT = int(sys.argv[1]) if len(sys.argv) > 1 else sized(200_000, 2_000)


def script(delays, end=None):
    lines = ['@ 2026-01-05T00:00'] + ['request 50:enable desk after %d' % delay for delay in delays]
    return lines + (['@ ' + end] if end else [])


head('requests with a delay', 'rising', 'falling', 'mixed', 'mixed, all due', 'memory')
for count in COUNT // 2, COUNT:
    rising = list(range(1, count + 1))
    mixed = rising[:]
    random.Random(38).shuffle(mixed)
    scripts = script(rising), script(rising[::-1]), script(mixed), script(mixed, '2027-01-05T00:00')
    took = [run('policy 1\nrole desk\n', lines) for lines in scripts]
    row('{:,}'.format(count), *(span(t.seconds) for t in took), memory(took[-1].kilobytes))
PY
