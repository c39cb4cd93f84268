#!/bin/sh
# Lines a second of the built `gtrbacd poll` over 4, 64 and 1,000 connections, beside a Redis server's
# inline PING with the same client: bench/poll.sh [SECONDS]
# Needs cc, and Debian's redis-server for the cells PING. A cell is the median of three rounds of so
# many seconds (0.3 if left out), as in bench/serve.sh. Below stand how long a `now` of one connection
# takes while another sends 64 MB without a pause, and the bytes that an open connection takes.
set -eu
here=$(cd "$(dirname "$0")" && pwd)
work=$(mktemp -d)
trap 'rm -rf "$work"' EXIT
cd "$work"
PYTHONPATH="$here" python3 - "$@" <<'PY'
import socket
import sys
import threading
import time
from measure import head, program, row, sized, span
from servers import BEN, COLUMNS, NURSE, PORT, REDIS, Beside, Served, asked, compiled, middle, say, told

SECONDS = float(sys.argv[1]) if len(sys.argv) > 1 else sized(0.3, 1)


def many(depth, connections, port, line, first=()):
    return asked(['./many', SECONDS, depth, connections, port, line, *first])


def served(line, connections):
    def measure(depth):
        with Served('poll'):
            say(PORT, NURSE)
            return many(depth, connections, PORT, line, BEN)
    return [middle(lambda: measure(depth)) for depth in (1, 64)]


def beside(noise):
    """The times of a `now` of one connection while another sends so many bytes."""
    with Served('poll'), socket.create_connection(('127.0.0.1', PORT)) as busy, \
            socket.create_connection(('127.0.0.1', PORT)) as calm:
        text = b'# noise\n' * (noise // 8)
        threading.Thread(target=busy.sendall, args=(text,), daemon=True).start()
        calm.setsockopt(socket.IPPROTO_TCP, socket.TCP_NODELAY, 1)
        calm.sendall(b'as ben\n')
        calm.recv(100)
        times = []
        for _ in range(200):
            since = time.monotonic()
            calm.sendall(b'now\n')
            calm.recv(100)
            times.append(time.monotonic() - since)
        return sorted(times)


def room(connections):
    """The bytes that an open connection takes, from its first line on."""
    with Served('poll') as server:
        asked(['./many', 0.2, 1, connections, PORT, 'as ben', 'as ben'])
        return (server.resident() - server.begun) / connections


program('gtrbacd')
compiled('many')
head('lines, connections', *COLUMNS)
with Beside() as redis:
    for connections in 4, 64, sized(1_000, 100):
        ping = [None, None]
        if redis.server:
            ping = [middle(lambda: many(depth, connections, REDIS, 'PING')) for depth in (1, 64)]
        for name, line in ('now', 'now'), ('check', 'check 1 read-chart'):
            told('`{}`, {:,}'.format(name, connections), served(line, connections), ping)
print()
head('with `poll`', 'median', 'at most')
times = beside(sized(67_000_000, 670_000))
row('a `now` beside 64 MB of comments', span(times[100]), span(times[-1]))
row('bytes for an open connection', '{:,.0f}'.format(room(sized(1_000, 100))), '-')
PY
