#!/bin/sh
# Times `gtrbac fmt` and `gtrbac check` on large policies: bench/policies.sh
# At every limit: 1,000 roles, periods and limits, 10,000 users, permissions and administrators, 4,000
# edges, entries and triggers, 50,000 distinct assignments and grants, four caps a role; 4,194,304
# bytes, most of them repeated opening lines; 4,000 triggers that follow one another through all
# roles; and a million blank lines.
set -eu
here=$(cd "$(dirname "$0")" && pwd)
work=$(mktemp -d)
trap 'rm -rf "$work"' EXIT
cd "$work"
PYTHONPATH="$here" python3 - <<'PY'
from measure import best, head, memory, program, row, span


def text_of(lines):
    return ''.join(line + '\n' for line in lines)


def at_limits():
    edges = ['edge %s %s r%d r%d' % (('i', 'a', 'ia')[k % 3], ('weak', 'strong')[k % 2], i, i + k)
             for k in range(1, 5) for i in range(1000 - k)]
    edges += ['edge i weak r%d r%d' % (i, i + 5) for i in range(4000 - len(edges))]
    period = 'period d%d 2026-01-01T00:00 2027-12-31T23:59 all.Weeks + {1,2,3,4,5}.Days + {%d}.Hours > 8.Hours'
    rise = 'when enable r%d and enabled r%d then %d:enable r%d'
    fall = 'when disable r%d and assigned u%d r%d then %d:disable r%d after %d'
    grant = 'when activate u%d r%d then 1:grant p%d r%d'
    triggers = [rise % (i, 999 - i, i % 100, i + 1) for i in range(999)]
    triggers += [fall % (i % 1000, i, i % 1000, i % 100, (i + 1) % 1000, i % 7)
                 for i in range(3001) if (i + 1) % 1000]
    triggers += [grant % (i, i % 1000, i, i % 1000) for i in range(4000 - len(triggers))]
    return text_of(
        ['policy 1'] + roles + users + ['perm p%d' % i for i in range(10000)]
        + [period % (i, i % 24 + 1) for i in range(1000)]
        + ['limit l%d %d enabled r%d max %d during d%d' % (i, i % 100, i, i + 1, i) for i in range(1000)]
        + edges
        + ['cap %s r%d %d' % (k, i, i + 1) for i in range(1000) for k in ('total', 'user', 'length', 'day')]
        + ['admin u%d' % i for i in range(10000)] + assigned
        + ['granted p%d r%d' % (i % 10000, (i * 7 + i // 10000) % 1000) for i in range(50000)]
        + ['%s d%d %d:enable r%d' % (('each', 'start', 'span')[i % 3], i % 1000, i % 100, i * 7 % 1000)
           for i in range(4000)]
        + triggers)


def four_megabytes():
    text = text_of(roles + users + ['enabled r%d' % i for i in range(1000)])
    more = text_of(assigned)
    text += more * ((4_194_304 - len(text)) // len(more) + 1)
    cut = text.rfind('\n', 0, 4_194_304) + 1
    return text[:cut] + '#' * (4_194_304 - cut)


roles = ['role r%d' % i for i in range(1000)]
users = ['user u%d' % i for i in range(10000)]
assigned = ['assigned u%d r%d' % (i % 10000, (i * 7 + i // 10000) % 1000) for i in range(50000)]
chain = text_of(roles + ['when enable r%d then 50:enable r%d' % (i % 999, i % 999 + 1) for i in range(4000)])
GTRBAC = program('gtrbac')
head('policy', 'bytes, lines', '`fmt`', '`check`', 'a line', 'memory')
for name, text in (('at every limit', at_limits()), ('the same assignments again and again', four_megabytes()),
                   ('4,000 triggers one behind the other', chain), ('blank lines', '\n' * 1_000_000)):
    with open('policy', 'w', encoding='utf-8') as file:
        file.write(text)
    laid, checked = (best([GTRBAC, verb, 'policy'], into='told') for verb in ('fmt', 'check'))
    lines = text.count('\n')
    size = '{:,}, {:,}'.format(len(text), lines)
    row(name, size, span(laid.seconds), span(checked.seconds), span(checked.seconds / lines), memory(laid.kilobytes))
PY
