#!/usr/bin/env python3
"""A client of gtrbacd in a few lines: sends each line given and prints its reply.

    client.py [--port PORT] LINE..          client.py 'as ben' 'open' 'activate 1 nurse'

PORT is 7743 where it is not given. Of `gtrbacd views` 7753 and 7754 are viewers', who answer what
only asks and tell everything else `view only`.

One connection speaks for whoever `as USER` names, so the program that holds it must know who its
user is. A line that asks is answered by one line; one without words, or a comment, is answered by
nothing, so it is not sent. A session is not bound to the connection that opened it: it stays open,
and what is active in it counts, until its user closes it by its number. So `Client` is best used
in its `with` form, which closes the sessions that were opened through it:

    with Client() as client:
        client.ask('as ben')
        session = client.ask('open').split()[1]
        client.ask('activate %s nurse' % session)

Exits with 1 where the server is gone, a line got no reply or would get none.
"""
import argparse
import socket
import sys


class Client:
    """A connection. `sessions` has those opened through it and not closed, each with its user."""

    def __init__(self, port=7743, host='127.0.0.1', timeout=10):
        self.socket = socket.create_connection((host, port), timeout)
        self.file = self.socket.makefile('rb')
        self.user, self.sessions = '-', {}

    def __enter__(self):
        return self

    def __exit__(self, kind, fault, trace):
        """Closes the sessions, as far as the server is there, and then the connection."""
        try:
            self.close_sessions()
        except OSError:
            # where something else went wrong before, that is to be told and not this
            if kind is None:
                raise
        finally:
            self.close()

    def ask(self, line):
        """The reply to a line that says something and has no line feed."""
        words = line.split()
        if not words or words[0].startswith('#') or '\n' in line:
            raise ValueError('no line that is answered: %r' % line)
        self.socket.sendall(line.encode() + b'\n')
        reply = self.file.readline()
        if not reply.endswith(b'\n'):
            raise ConnectionError('the server closed the connection')
        reply = reply[:-1].decode()
        self.note(words, reply)
        return reply

    def note(self, words, reply):
        if words[0] == 'as' and reply == 'ok':
            self.user = words[1]
        elif words == ['open'] and reply.startswith('session '):
            self.sessions[reply.split()[1]] = self.user
        elif words[0] == 'close' and reply == 'ok':
            self.sessions.pop(words[1], None)

    def close_sessions(self):
        """Closes each session as the user that opened it, and is this user then."""
        for number, user in list(self.sessions.items()):
            if user != self.user:
                self.ask('as ' + user)
            self.ask('close ' + number)
            self.sessions.pop(number, None)

    def close(self):
        self.file.close()
        self.socket.close()


def main():
    given = argparse.ArgumentParser(description='Sends lines to gtrbacd.')
    given.add_argument('--port', type=int, default=7743)
    given.add_argument('lines', nargs='+')
    asked = given.parse_args()
    try:
        client = Client(asked.port)
        for line in asked.lines:
            print(client.ask(line))
        client.close()
    except (OSError, ValueError) as fault:
        print('client.py: %s' % fault, file=sys.stderr)
        sys.exit(1)


if __name__ == '__main__':
    main()
