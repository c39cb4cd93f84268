"""The server: a few kept connections, each of which is one user's at a time."""
import asyncio
import calendar
import random
import re
import secrets
import socket
import time
from collections import deque

from . import peers
from .base import NO_REPLY, NO_ROOM, NO_SERVER, host_port, now, tell
from .shares import MOST_ENTRIES, MOST_OPEN, NOBODY, Shares

MOST_REPLY = 1 << 20            # bytes of a reply; the longest path has some 33,000
MOST_SENT = 60_000_000          # bytes to one connection; the server takes 67,108,864
TURNS = 32                      # batches that wait for replies at once, for each connection
FEW = 4                         # batches behind which another connection is looked for
STAY = 20                       # seconds until a silent connection to a server says something
TOLD_AT = (50, 80, 90, 95)      # percent of a history at which it is said how full it is
CLOCKS_APART = 2                # minutes between the server's clock and one's own that are borne
CONNECTED = 'connected'
LOOKS = 10                      # minutes between two looks at the clock where each is an entry


class Batch:
    """Lines that went to a server in one write: so many `as` lines, and then a caller's."""

    def __init__(self, run, said, lines):
        self.run, self.said, self.lines = run, said, lines
        self.replies = []
        self.done = asyncio.get_running_loop().create_future()

    def finish(self):
        self.replies += [NO_REPLY] * (self.lines - len(self.replies))
        if not self.done.done():
            self.done.set_result(None)


def answered(reply, lines):
    """The batch of lines that were not sent."""
    batch = Batch(None, 0, len(lines))
    batch.replies = [reply] * len(lines)
    return batch


class Link(asyncio.Protocol):
    """A kept connection to a server. Where it is lost it is made again, later each time."""

    def __init__(self, house, place, view):
        self.house, self.place, self.view = house, place, view
        self.transport = self.ended = self.fault = self.listener = None
        self.serves = self.retired = False
        self.batches, self.rest = deque(), b''
        self.actor = None       # whose it is once the server has read all that was written
        self.sent = self.run = self.moved = 0

    def stays(self):
        """Whether it is a connection to the server that the house has now."""
        return (self.serves and not self.retired and self.run == self.house.run
                and not self.transport.is_closing())

    def usable(self):
        return (self.serves and not self.retired and self.run == self.house.run
                and self.sent < MOST_SENT and not self.transport.is_closing())

    def say(self, said, lines):
        """Writes the lines in one piece, with nothing between; the batch of their replies."""
        text = b'\n'.join(said + lines) + b'\n'
        if text.count(b'\n') != len(said) + len(lines):
            raise ValueError('a line with a line feed')
        if not self.batches:
            self.moved = now()
        batch = Batch(self.run, len(said), len(lines))
        self.batches.append(batch)
        self.sent += len(text)
        self.transport.write(text)
        return batch

    def ask(self, user, lines):
        """As this user. Nobody comes first: where the policy lacks the user, the lines are then
        nobody's, and not those of the user before."""
        said = [] if self.actor == user else [b'as -', b'as ' + user]
        self.actor = user
        return self.say(said, lines)

    def take(self, reply):
        """A reply belongs to the oldest line that has none."""
        if not self.batches:
            raise ConnectionError('a reply that nobody asked for')
        batch = self.batches[0]
        if batch.said:
            if reply != b'ok' and (reply != b'bad name' or not self.serves):
                raise ConnectionError('no reply to an `as` line' if self.serves
                                      else 'not a gtrbacd')
            batch.said -= 1
        else:
            batch.replies.append(reply)
        if not batch.said and len(batch.replies) == batch.lines:
            self.batches.popleft().finish()

    def connection_made(self, transport):
        self.transport = transport

    def data_received(self, chunk):
        *replies, self.rest = (self.rest + chunk).split(b'\n')
        self.moved = now()
        try:
            if len(self.rest) > MOST_REPLY:
                raise ConnectionError('a reply without an end')
            for reply in replies:
                self.take(reply)
        except ConnectionError as fault:
            self.fault = fault
            self.transport.abort()
        if self.serves and not self.batches and not self.usable():
            self.retire()

    def connection_lost(self, fault):
        if not self.ended.done():
            self.ended.set_result(self.fault or fault or ConnectionError('closed'))

    def look(self):
        """Each second: lets go what does not answer or is worn; stays in touch where all rests."""
        if not self.serves or self.transport.is_closing():
            return
        if self.batches:
            if now() - self.moved > self.house.limits['reply']:
                self.fault = ConnectionError('it does not reply')
                self.transport.abort()
        elif not self.usable():
            self.retire()
        elif now() - self.moved > STAY:
            self.actor = None
            self.say([b'as -'], [])

    def retire(self):
        """Ends a connection that is not used any more, to make a new one at once. Where no other
        one stays, nothing says that the server is the same one then."""
        if self.retired or self.transport.is_closing():
            return
        self.retired, self.house.gone = True, now()
        self.transport.close()
        if self.run == self.house.run and not any(link.stays() for link in self.house.links):
            self.house.renew()

    async def connect(self):
        """Connects, looks who it is that answers there, and says the first line."""
        loop = asyncio.get_running_loop()
        unix = self.place.startswith('/')
        made = socket.socket(socket.AF_UNIX if unix else socket.AF_INET)
        made.setblocking(False)
        try:
            async with asyncio.timeout(10):
                await loop.sock_connect(made, self.place if unix else host_port(self.place))
            self.listener = await peers.prove(made, self.house.server)
            self.ended, self.fault, self.rest = loop.create_future(), None, b''
            self.actor, self.sent, self.run = None, 0, self.house.run
            # A port that serves somebody else has taken the connection, and does not answer.
            async with asyncio.timeout(30):
                await loop.create_connection(lambda: self, sock=made)
                await self.say([b'as -'], []).done
        except BaseException:
            if not self.transport:      # which has the socket from then on
                made.close()
            raise
        if self.ended.done():
            raise self.ended.result()
        self.serves, self.run, self.moved = True, self.house.run, now()

    def drop(self):
        self.serves = False
        if self.transport:
            self.transport.abort()
        self.transport = None
        while self.batches:
            self.batches.popleft().finish()

    async def keep(self):
        wait = 0.1
        while True:
            served, self.retired = False, False
            try:
                await self.connect()
                served, wait = True, 0.1
                self.house.is_up(self)
                fault = await self.ended
                if not self.retired:
                    self.house.is_lost(self, fault, served)
            except OSError as fault:    # a time that is out is one
                self.house.is_lost(self, self.fault or fault, served)
            finally:
                self.drop()
            if not self.retired:
                await asyncio.sleep(wait * random.uniform(0.75, 1.25))
                wait = min(2 * wait, 5)


class House:
    """One server, with one policy and one history."""

    def __init__(self, name, table, limits, shares):
        self.name, self.links, self.kept = name, [], []
        self.shares = Shares(shares)
        # Rises where a connection is lost. As long as it does not, one of them has always stayed,
        # so the server is the same one.
        self.run = 0
        self.up, self.waiting = asyncio.Event(), deque()
        self.last = {False: None, True: None}   # the worker and the viewer that were asked last
        self.turns = self.free = 0      # how many batches may wait for replies, in all and now
        self.gone = now()       # when a connection was last lost or retired
        self.told = {}          # by place: what was last told of it
        self.apart = None       # minutes that the server's clock is before one's own
        self.looked = 0
        self.table = None
        self.doubt, self.listeners = True, {}   # whether the server may be another one; by place
        self.name_run()
        self.begin()
        self.set(table, limits)

    def set(self, table, limits):
        """Takes the table's values, at the start or anew. At other places, or where another account
        may answer, it is another server."""
        if self.table and any(table[key] != self.table[key] for key in ('at', 'views', 'server')):
            self.renew()
        self.table, self.limits, self.server = table, limits, table['server']
        self.admins = frozenset(user.encode() for user in table['admins'])
        self.watcher = table['watcher'].encode()
        self.policy = None      # what is read of the policy, once it is asked for
        wanted = [(place, False) for place in table['at'] for _ in range(table['links'])]
        wanted += [(place, True) for place in table['views'] for _ in range(table['links'])]
        for link in list(self.links):
            if (link.place, link.view) in wanted:
                wanted.remove((link.place, link.view))
            else:
                self.links.remove(link)
                self.stop(link)
        self.links += [Link(self, *place) for place in wanted]
        self.free += TURNS * len(self.links) - self.turns
        self.turns = TURNS * len(self.links)
        if self.kept:
            self.start()

    def start(self):
        """Keeps each connection that is not kept yet."""
        for link in self.links:
            if not any(link is of for of, _ in self.kept):
                self.kept.append((link, asyncio.create_task(link.keep())))

    def stop(self, link=None):
        for of, task in list(self.kept):
            if link in (None, of):
                self.kept.remove((of, task))
                task.cancel()

    def name_run(self):
        self.mark = time.strftime('%Y%m%dT%H%M', time.gmtime()) + '-' + secrets.token_hex(4)

    def begin(self):
        """Another run of the server: its history and its sessions begin anew."""
        self.sent, self.since, self.full_told = 0, now(), 0
        self.room = 0           # how many lines users who are no administrators may send
        self.shares.renew()

    def renew(self):
        """Another run of the server, perhaps. Sessions of before are not used any more. What was
        counted stands until it is seen who listens now."""
        self.run, self.gone, self.doubt = self.run + 1, now(), True
        self.name_run()

    def is_up(self, link):
        same = link.listener and link.listener == self.listeners.get(link.place)
        if self.doubt and not same:
            self.begin()
        self.doubt, self.listeners[link.place] = False, link.listener
        if self.told.get(link.place) != CONNECTED:
            tell('%s: connected to %s', self.name, link.place)
            self.told[link.place] = CONNECTED
        self.up.set()

    def is_lost(self, link, fault, served):
        if served and link.run == self.run:
            # Sessions of before may be somebody else's now: no connection of before is used again.
            self.renew()
            for other in self.links:
                if other is not link:
                    other.look()
        fault = str(fault) or type(fault).__name__
        if self.told.get(link.place) != fault:
            tell('%s: not connected to %s: %s', self.name, link.place, fault)
            self.told[link.place] = fault

    def is_served(self):
        return any(link.stays() for link in self.links if not link.view)

    def pick(self, user, view):
        """The one that was asked last, where it is this user's and has little to do; else the one
        with the least to do."""
        best = self.last[view]
        if best and best.actor == user and len(best.batches) < FEW and best.usable():
            return best
        best, least = None, 1 << 30
        for link in self.links:
            if link.view is view and link.usable():
                load = 2 * len(link.batches) + (link.actor != user)
                if load < least:
                    best, least = link, load
        self.last[view] = best
        return best

    async def ask(self, user, lines, run=None, payer=NOBODY, view=False):
        """The batch of these lines, made as this user, with all its replies: `no server` where
        nothing was sent, `no reply` where a line was sent and nobody knows what became of it;
        `no room` where a share of the payer is spent, `no steps` where the history has room for
        administrators alone. None where the server's run is not the one given."""
        if self.free > 0 and not self.waiting:
            self.free -= 1
        elif not await self.turn():
            return answered(NO_SERVER, lines)
        try:
            link = self.pick(user, view) or await self.come_up(user, view)
            if not link:
                return answered(NO_SERVER, lines)
            # Nothing else runs between the choice of a connection and its write.
            if run not in (None, self.run):
                return None
            if not view:
                refused = self.bar(len(lines), payer)
                if refused:
                    return answered(refused, lines)
                payer.spend(len(lines))
                self.sent += len(lines)
            batch = link.ask(user, lines)
            await batch.done
            return batch
        finally:
            self.pass_on()

    async def turn(self):
        """Waits, in the order of those who came, until one batch less waits for replies. Whether it
        came to that in time."""
        waiter = asyncio.get_running_loop().create_future()
        self.waiting.append(waiter)
        try:
            async with asyncio.timeout(self.limits['patience']):
                await waiter
            return True
        except (TimeoutError, asyncio.CancelledError) as fault:
            if not waiter.cancelled():      # the turn came, and is not used
                self.pass_on()
            if isinstance(fault, TimeoutError):
                return False
            raise

    def pass_on(self):
        """Hands one's turn to whoever has waited longest."""
        while self.waiting:
            waiter = self.waiting.popleft()
            if not waiter.done():
                return waiter.set_result(None)
        self.free += 1
        return None

    async def come_up(self, user, view):
        try:
            async with asyncio.timeout_at(self.gone + self.limits['patience']):
                while not (link := self.pick(user, view)):
                    self.up.clear()
                    await self.up.wait()
                return link
        except TimeoutError:
            return None

    def told_by_policy(self):
        """The names of the policy's permissions, and by user the roles that are assigned at first;
        none where the file that the table names can't be read."""
        if self.policy is None:
            permissions, assigned = [], {}
            try:
                with open(self.table['policy'], encoding='utf-8', errors='replace') as file:
                    for words in map(str.split, file):
                        if words[:1] == ['perm'] and len(words) == 2:
                            permissions.append(words[1])
                        elif words[:1] == ['assigned'] and len(words) == 3:
                            assigned.setdefault(words[1], []).append(words[2])
            except OSError as fault:
                tell('%s: policy: %s', self.name, fault)
            self.policy = permissions, assigned
        return self.policy

    # ---- What is spent

    def filled(self):
        """How many entries the history may have by what went through here: the lines, and a step of
        time for each minute."""
        return self.sent + int((now() - self.since) / 60) + 1

    def bar(self, number, payer):
        """What is answered in place of a worker to so many lines; None where they may go there."""
        if self.sent + number > self.room:
            self.measure()
            if self.sent + number > self.room and not payer.admin and payer is not NOBODY:
                return b'no steps'
        return None if payer.may_spend(number) else NO_ROOM

    def measure(self):
        """How many lines users who are no administrators may send, steps of time being counted off;
        says how full the history may be by now."""
        self.room = MOST_ENTRIES - self.table['reserve'] - self.filled() + self.sent
        full = 100 * self.filled() // MOST_ENTRIES
        passed = [percent for percent in TOLD_AT if self.full_told < percent <= full]
        if passed:
            self.full_told = passed[-1]
            tell('%s: %d lines were sent in this run: the history may be %d percent full',
                 self.name, self.sent, full)

    def bar_open(self, payer):
        """What is answered in place of the server to who may not open a session; None where it may
        be opened, and it counts from then on."""
        if not payer.may_open():
            return NO_ROOM
        most = MOST_OPEN - (0 if payer.admin else self.table['reserve_sessions'])
        if len(self.shares.opened) + self.shares.coming >= most:
            return b'refused sessions-full'
        self.shares.asks_open(payer)
        return None

    # ---- The clock

    async def watch(self):
        while True:
            await asyncio.sleep(1)
            for link in self.links:
                link.look()
            self.measure()
            minute = int(time.time() / 60)
            if self.watcher and self.is_served() and minute >= self.looked:
                self.looked = minute + (1 if self.table['views'] else LOOKS)
                await self.look_at_clock()

    async def look_at_clock(self):
        """Asks a worker, so that time goes on for viewers too."""
        reply = (await self.ask(self.watcher, [b'now'])).replies[0].decode()
        minute = re.fullmatch(r'now (\d{4}-\d\d-\d\dT\d\d:\d\d)', reply)
        if not minute:
            tell('%s: the clock was asked as %s: %s', self.name, self.watcher.decode(), reply)
            return
        there = calendar.timegm(time.strptime(minute[1], '%Y-%m-%dT%H:%M'))
        apart = there // 60 - int(time.time() // 60)
        if abs(apart) > CLOCKS_APART and apart != self.apart:
            tell('%s: its clock is at %s, %+d minutes from this one\'s', self.name, minute[1],
                 apart)
        self.apart = apart
