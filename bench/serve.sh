#!/bin/sh
# Lines a second of the built gtrbacd over one, two and four connections, one a port, and over its
# viewers, beside a Redis server's inline PING over as many: bench/serve.sh [SECONDS]
# Needs cc, and Debian's redis-server for the cells PING. A cell is the median of three rounds of so
# many seconds (0.4 if left out). It has the replies a second, with 1 line in flight on each connection
# and with 64, and the median and the 99th percentile of a batch in microseconds. With `views` stand
# one and two viewers, whose lines add no entry, and the workers while nobody is at the viewers, while
# two clients are connected to them and silent, and while both ask without a pause. Then come the bytes
# of an entry, of a connection that was served and of a viewer's reply, and what a full history takes.
set -eu
here=$(cd "$(dirname "$0")" && pwd)
work=$(mktemp -d)
trap 'rm -rf "$work"' EXIT
cd "$work"
PYTHONPATH="$here" python3 - "$@" <<'PY'
import contextlib
import socket
import subprocess
import sys
import threading
from measure import head, program, row, sized
from servers import BEN, COLUMNS, NURSE, PORT, REDIS, VIEWERS, WORKERS, Beside, Served
from servers import asked, compiled, middle, say, told

SECONDS = float(sys.argv[1]) if len(sys.argv) > 1 else sized(0.4, 0.3)
DEPTHS = 1, 64
CHECK = 'check 1 read-chart'
WHAT = 'an entry', 'a connection', 'a reply', 'connections'
sizes = {}


def load(depth, line, ports, first):
    return asked(['./load', SECONDS, depth, line, *ports, '--', *first])


@contextlib.contextmanager
def silent():
    links = [socket.create_connection(('127.0.0.1', port)) for port in VIEWERS]
    yield
    for link in links:
        link.close()


@contextlib.contextmanager
def asking():
    words = ['./load', str(SECONDS + 1), '1', 'now', *map(str, VIEWERS), '--', *BEN]
    with subprocess.Popen(words, stdout=subprocess.DEVNULL):
        yield


def working(line, ports, first, mode=(), beside=contextlib.nullcontext):
    def measure(depth):
        with Served(*mode) as server:
            with beside():
                found = load(depth, line, ports, first)
        sizes['an entry', mode] = server.grown / max(server.entries, 1)
        return found
    return [middle(lambda: measure(depth)) for depth in DEPTHS]


def viewing(line, ports):
    def measure(depth):
        with Served('views') as server:
            say(PORT, NURSE)
            before = server.resident()
            found = load(depth, line, ports, BEN)
            sizes['a reply', ('views',)] = (server.resident() - before) / (found[0] * SECONDS)
        return found
    return [middle(lambda: measure(depth)) for depth in DEPTHS]


def full(mode):
    count = sized(1_000_001, 1_001)
    with Served(*mode) as server, socket.create_connection(('127.0.0.1', PORT)) as link:
        text = b'as ben\n' + b'now\n' * count
        threading.Thread(target=link.sendall, args=(text,), daemon=True).start()
        lines = 0
        while lines < count + 1:
            lines += link.recv(1 << 20).count(b'\n')
        held = server.resident()
    return '%.0f MB' % (held / 1e6), '%.2f s' % server.stopped


def sized_row(name, mode):
    held, stopped = full(mode)
    row(name, *('{:,.0f}'.format(sizes[what, mode]) if (what, mode) in sizes else '-' for what in WHAT), held, stopped)


program('gtrbacd')
compiled('load')
with Beside() as redis:
    def ping(ports):
        if not redis.server:
            return None, None
        return [middle(lambda: load(depth, 'PING', [REDIS] * len(ports), [])) for depth in DEPTHS]

    pings = {number: ping(WORKERS[:number]) for number in (1, 2, 4)}
    head('lines, connections', *COLUMNS)
    for number in 1, 2, 4:
        for name, line, first in ('now', 'now', BEN), ('check', CHECK, NURSE):
            told('`%s`, %d' % (name, number), working(line, WORKERS[:number], first), pings[number])
    print()
    head('with `views`: lines, connections', *COLUMNS)
    for number in 1, 2:
        for name, line in ('now', 'now'), ('check', CHECK):
            told('viewers: `%s`, %d' % (name, number), viewing(line, VIEWERS[:number]), pings[number])
    for name, beside in (('no viewers\' clients', contextlib.nullcontext), ('silent ones', silent), ('asking ones', asking)):
        rates = working('now', WORKERS, BEN, ('views',), beside)
        told('workers: `now`, 4; ' + name, rates, pings[4])
with Served() as server:
    number = sized(5_000, 10)
    sizes['connections', ()], = asked(['./load', number, 0, 'as ben', *WORKERS])
    sizes['a connection', ()] = (server.resident() - server.begun) / (4 * number)
print()
head('the server', 'bytes for an entry', 'for a connection served', "for a viewer's reply", 'connections a second',
     'a full history', 'its stop')
sized_row('`gtrbacd`', ())
sized_row('`gtrbacd views`', ('views',))
PY
