"""Names, faults, and what is said on the standard error."""
import re
import sys
import time

MOST_LINE = 512                 # bytes of a line, as the server has it
MOST_SESSION = (1 << 32) - 1
MOST_ROLES = 32                 # of one session that is kept
NAME = re.compile(r'[A-Za-z][A-Za-z0-9_.-]{0,31}')
NO_SERVER, NO_REPLY, NO_ROOM = b'no server', b'no reply', b'no room'
SAID_A_MINUTE = 60              # refusals that are told one by one, for each place


class Fault(Exception):
    """What is wrong with the tables."""


class Wrong(Exception):
    """A request over HTTP that is refused: with its status, further headers, and its own id where
    it was read."""

    def __init__(self, text, status=400, *headers, request_id=None):
        super().__init__(text)
        self.status, self.headers, self.request_id = status, headers, request_id


def tell(text, *values):
    print('gtrbac-front: ' + text % values, file=sys.stderr, flush=True)


now = time.monotonic            # the loop's clock is the same one


def host_port(text):
    host, _, port = text.rpartition(':')
    return host.strip('[]'), int(port)


class Teller:
    """Tells what may come as often as a stranger likes: so many a minute, and then how many."""

    def __init__(self, where):
        self.where, self.minute, self.count, self.total = where, 0, 0, 0

    def tell(self, text, *values):
        self.total += 1
        self.turn()
        self.count += 1
        if self.count <= SAID_A_MINUTE:
            tell('%s: ' + text, self.where, *values)

    def turn(self):
        """At a new minute says how many were not told."""
        if int(now() / 60) != self.minute:
            if self.count > SAID_A_MINUTE:
                tell('%s: %d more were refused in that minute', self.where,
                     self.count - SAID_A_MINUTE)
            self.minute, self.count = int(now() / 60), 0
