"""Starts the built gtrbacd, and a Redis server beside it, and lets clients in C ask them.

All files are made in the folder that the script runs in. A history holds 1,000,000 entries and a line
that asks adds one, so each measure has a server of its own, and must not last longer than its history.
"""
import os
import resource
import shutil
import socket
import subprocess
import sys
import time
from measure import TOP, program, row, sized

POLICY = os.path.join(TOP, 'examples', 'ward.policy')
PORT, WORKERS, VIEWERS, REDIS = 7743, [7743, 7744, 7745, 7746], [7753, 7754], 7799
BEN = ['as ben']
NURSE = ['as ben', 'open', 'activate 1 nurse']
COLUMNS = ('1 in flight', 'µs', 'PING', '64 in flight', 'µs', 'PING')


def compiled(client):
    """The client in C of this name."""
    source = os.path.join(TOP, 'bench', client + '.c')
    subprocess.run(['cc', '-O2', '-pthread', '-o', client, source], check=True)
    most = resource.getrlimit(resource.RLIMIT_NOFILE)[1]
    resource.setrlimit(resource.RLIMIT_NOFILE, (most, most))


def asked(words):
    """What a client writes, as numbers."""
    told = subprocess.run([str(word) for word in words], capture_output=True, text=True, check=True)
    return [float(word) for word in told.stdout.split()]


def say(port, lines):
    """Has a server's port answer these lines; it is waited for where it does not listen yet."""
    for _ in range(100):
        try:
            link = socket.create_connection(('127.0.0.1', port))
            break
        except ConnectionRefusedError:
            time.sleep(0.05)
    with link, link.makefile('rb') as replies:
        link.sendall(''.join(line + '\n' for line in lines).encode())
        return [replies.readline() for _ in lines]


class Served:
    """A server with these words before its policy, until the end of a `with`."""

    def __init__(self, *mode):
        self.mode = mode

    def __enter__(self):
        if os.path.exists('gtrbacd.stop'):
            os.remove('gtrbacd.stop')
        with open('log', 'wb') as log:
            self.server = subprocess.Popen([program('gtrbacd'), *self.mode, POLICY], stdout=log)
        for port in [PORT] if 'poll' in self.mode else WORKERS + VIEWERS * ('views' in self.mode):
            say(port, ['as -'])
        self.begun = self.resident()
        return self

    def resident(self):
        """The bytes that it has in memory."""
        with open('/proc/%d/status' % self.server.pid, encoding='ascii') as file:
            return next(int(line.split()[1]) for line in file if line.startswith('VmRSS')) * 1024

    def __exit__(self, *fault):
        self.grown = self.resident() - self.begun
        since = time.monotonic()
        with open('gtrbacd.stop', 'wb'):
            pass
        status = self.server.wait()
        self.stopped = time.monotonic() - since
        with open('log', 'rb') as log:
            self.entries = sum(1 for _ in log) - 1
        if status != 0:
            print('gtrbacd ended with status %d' % status, file=sys.stderr)
        if self.entries >= 1_000_000:
            print('the history was full: take fewer seconds', file=sys.stderr)


class Beside:
    """A Redis server, where one is installed, until the end of a `with`."""

    def __enter__(self):
        self.server, words = None, ['redis-server', '--port', str(REDIS), '--save', '', '--appendonly', 'no']
        if shutil.which(words[0]):
            self.server = subprocess.Popen(words, stdout=subprocess.DEVNULL)
            time.sleep(0.5)
        else:
            print('no redis-server is installed (Debian: redis-server), so nothing stands beside', file=sys.stderr)
        return self

    def __exit__(self, *fault):
        if self.server:
            self.server.terminate()
            self.server.wait()


def middle(measure):
    """The measure of median rate among three rounds."""
    rounds = sorted(measure() for _ in range(sized(3, 1)))
    return rounds[len(rounds) // 2]


def told(name, measures, pings):
    """A row: the rate and the batch with 1 line in flight and with 64, each beside Redis's PING."""
    cells = []
    for (rate, half, most), ping in zip(measures, pings):
        cells += ['{:,.0f}'.format(rate), '%.1f; %.1f' % (half, most), '{:,.0f}'.format(ping[0]) if ping else '-']
    row(name, *cells)
