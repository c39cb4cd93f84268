"""The decision log: a line of JSON for each line and evaluation that is answered.

It is written before the answer leaves, to a file that is only appended to, or to the journal.
"""
import json
import os
import socket
import time

from .base import tell

JOURNAL = '/run/systemd/journal/socket'
quoted = json.encoder.encode_basestring_ascii


def made_once():
    """What json.dumps does, which makes an encoder for each call; this one is made once."""
    try:
        parts = json.encoder.c_make_encoder(None, None, quoted, None, ': ', ', ', False, False,
                                            True)
        return lambda told: ''.join(parts(told, 0))
    except TypeError:
        return json.dumps


dumps = made_once()


def instant():
    """The time in UTC, with milliseconds."""
    at = time.time()
    return '%s.%03dZ' % (time.strftime('%Y-%m-%dT%H:%M:%S', time.gmtime(at)), at * 1000 % 1000)


def as_json(fields):
    """Pairs of names and texts, numbers or None, as an object on one line; None is left out."""
    return '{%s}' % ', '.join(
        '"%s": %s' % (name, quoted(value) if type(value) is str else dumps(value))
        for name, value in fields if value is not None)


class Record:
    """Where it goes. `required` says that nothing is answered that is not written."""

    def __init__(self, table):
        self.table, self.path, self.journal = table, table['file'], table['journal']
        self.required = table['log_required']
        self.file = self.socket = None
        self.torn = self.failed = False
        self.lost, self.tried = 0, 0.0
        self.reopen()

    def __bool__(self):
        return bool(self.path or self.journal)

    def reopen(self):
        """Opens the file by its name, which may be another one's since."""
        self.close()
        self.torn = False
        try:
            if self.path:
                self.file = os.open(self.path, os.O_WRONLY | os.O_APPEND | os.O_CREAT
                                    | os.O_CLOEXEC | os.O_NOFOLLOW, 0o600)
            elif self.journal:
                self.socket = socket.socket(socket.AF_UNIX, socket.SOCK_DGRAM)
                self.socket.setblocking(False)
                self.socket.connect(JOURNAL)
        except OSError as fault:
            self.fails(fault)

    def close(self):
        if self.file is not None:
            os.close(self.file)
        if self.socket:
            self.socket.close()
        self.file = self.socket = None

    def write(self, lines):
        """Whether what depends on these lines may be answered: they are written, or need not be."""
        try:
            if self.path:
                self.append('\n'.join(lines) + '\n')
            else:
                for line in lines:
                    self.socket.send(('MESSAGE=%s\nPRIORITY=6\nSYSLOG_IDENTIFIER=gtrbac-front\n'
                                      'GTRBAC_DECISION=1\n' % line).encode())
        except (OSError, AttributeError, TypeError) as fault:
            self.lost += len(lines)
            self.fails(fault)
            return not self.required
        if self.failed:
            self.failed = False
            tell('the decision log is written again; %d lines were lost', self.lost)
        return True

    def append(self, text):
        """All of it, or a fault. Half a line that a full disk left is ended first."""
        data = (('\n' if self.torn else '') + text).encode()
        done = os.write(self.file, data)
        self.torn = 0 < done < len(data) or self.torn and not done
        if done < len(data):
            raise OSError('it was written by half')

    def fails(self, fault):
        if not self.failed:
            tell('THE DECISION LOG CAN\'T BE WRITTEN: %s', fault)
        self.failed = True

    def bars(self):
        """Whether nothing may be asked now, since its record could not be written. A log that is
        broken is tried again each second, by a line of its own."""
        if not self.failed or not self.required:
            return False
        if time.monotonic() - self.tried > 1:
            self.tried = time.monotonic()
            if self.file is None and self.socket is None:
                self.reopen()
            self.write([as_json([('time', instant()), ('note', 'the log is tried again')])])
        return self.failed
