#!/bin/sh
# Looks what grows faster than the work: bench/growth.sh [CASE..]
# Each case is measured for a size and for four times as much, and a row has how many times the time
# that takes. What is above five is said at the end, and the status is then 1. CASE is a part of a
# name; without any all are measured, within some minutes.
set -eu
here=$(cd "$(dirname "$0")" && pwd)
work=$(mktemp -d)
trap 'rm -rf "$work"' EXIT
cd "$work"
PYTHONPATH="$here" python3 - "$@" <<'PY'
import sys
from measure import figure, head, row, run, sized, span

MOST = 5
USERS = ['u%d' % i for i in range(10_000)]


def numbered(word, count):
    return ''.join('%s%d\n' % (word, i) for i in range(count))


def crowd(roles):
    """A policy of roles, and of 10,000 users."""
    return 'policy 1\n' + numbered('role r', roles) + numbered('user u', len(USERS))


def many_events(count):
    """Requests that have so many events come in one minute, and then that minute."""
    events = ['assign u%d r%d' % (i % len(USERS), i // len(USERS)) for i in range(count)]
    asked = ['request 50:' + event for event in events]
    return ['@ 2026-01-05T00:00'] + asked + ['@ 2026-01-05T00:01'], events


def looked_up(count):
    lines, events = many_events(count)
    return run(crowd(8), lines + ['event ' + event for event in events]).seconds


def explained(count):
    return run(crowd(8), many_events(count)[0], words='why policy assign u0 r0').seconds


def ticked(count):
    """200 minutes that charge an activation each of so many users, beyond what opens them."""
    policy = crowd(1) + 'cap day r0 1440\nenabled r0\n'
    policy += ''.join('assigned %s r0\n' % user for user in USERS)
    lines = ['@ 2026-01-05T00:00']
    for i, user in enumerate(USERS[:count]):
        lines += ['as ' + user, 'open', 'activate %d r0' % (i + 1)]
    later = ['@ 2026-01-05T%02d:%02d' % divmod(minute, 60) for minute in range(1, 201)]
    return run(policy, lines + later).seconds - run(policy, lines).seconds


def delayed(delays, end):
    asked = ['request 50:enable r after %d' % delay for delay in delays]
    return run('policy 1\nrole r\n', ['@ 2026-01-05T00:00'] + asked + end).seconds


def falling(count):
    return delayed(range(count, 0, -1), [])


def rising(count):
    return delayed(range(1, count + 1), ['@ 2027-01-05T00:00'])


def triggered(count):
    """So many triggers that are met in each of 1,000 minutes, each sooner than the one before."""
    policy = 'policy 1\nrole a\nrole b\nperiod p * * all.Minutes\neach p 50:enable a\n'
    policy += ''.join('when enable a then 50:enable b after %d\n' % (2000 * (count - i))
                      for i in range(count))
    return run(policy, ['@ 2026-01-05T00:00', '@ 2026-01-05T16:40'], 1).seconds


def capped(kind):
    def activated(count):
        """So many activations of a user in one role."""
        policy = 'policy 1\nrole r\nuser u\ncap %s r 1000000\nenabled r\nassigned u r\n' % kind
        lines = ['@ 2026-01-05T00:00', 'as u'] + ['open'] * count
        return run(policy, lines + ['activate %d r' % (i + 1) for i in range(count)]).seconds
    return activated


CASES = [
    ('`event` lines over as many events', looked_up, 20_000),
    ('200 ticks under `cap day`, an activation each of users', ticked, 2_500),
    ('`why` behind an instant of events', explained, 20_000),
    ('requests with falling delays', falling, 125_000),
    ('requests with rising delays, all due', rising, 112_500),
    ('triggers with falling delays, met in 1,000 minutes', triggered, 1_000),
    ('activations of one user under `cap user`', capped('user'), 2_500),
    ('activations of one user under `cap total`', capped('total'), 2_500),
]

above = []
head('what', 'many', 'time', 'four times as many', 'quotient')
for name, took, count in CASES:
    if sys.argv[1:] and not any(word in name for word in sys.argv[1:]):
        continue
    count = sized(count, count // 50)
    once, four = took(count), took(4 * count)
    quotient = four / max(once, 1e-6)
    row(name, '{:,}'.format(count), span(once), span(four), figure(quotient))
    if quotient > MOST:
        above.append(name)
print('\nabove %d: %s' % (MOST, '; '.join(above) or 'none'))
sys.exit(1 if above else 0)
PY
