"""The face that speaks the server's lines."""
import asyncio
import re

from .base import MOST_LINE, NO_REPLY, NO_ROOM, NO_SERVER, now
from .face import Face
from .record import as_json, instant, quoted
from .shares import Payer

READ = 4096
WORD = re.compile(rb'[ \t]*([^ \t]*)')
SESSION = re.compile(rb'session ([0-9]{1,10})')
CLOSED = re.compile(rb'[ \t]*close[ \t]+([0-9]{1,10})[ \t\r]*')
NO_LOG = b'no log'
NO_VERB = b'no verb'


def cut(rest, chunk):
    """The whole lines, and what stands behind the last line feed, or what shows that it is long."""
    *lines, rest = (rest + chunk).split(b'\n')
    return lines, rest[:MOST_LINE + 1]


def first_word(line):
    return WORD.match(line.removesuffix(b'\r').rstrip(b' \t'))[1]


def own_reply(line, word):
    """What the front answers by itself: nothing to a line that says nothing; None where the line is
    the server's to answer."""
    if len(line) > MOST_LINE:
        return b'bad long'
    if not word or word.startswith(b'#'):
        return b''
    return b'bad as' if word == b'as' else None


def is_kept_out(verbs, word):
    """Whether a place that takes these requests alone, or all where there are none, has not this.
    """
    return bool(verbs) and word.decode('latin-1') not in verbs


class Lines(Face):
    def protocol(self):
        return Stream()

    def known(self, names):
        """The user that the table gives these names; None where it gives none, or several."""
        users = {self.table['users'][name] for name in names if name in self.table['users']}
        return users.pop() if len(users) == 1 else None

    async def refuse(self, stream, word):
        await stream.give(word.encode() + b'\n')

    def payer(self, caller):
        """Whose shares these lines are of: the user's, and the caller's by the name in the table.
        """
        name = next(name for name in caller.names if name in self.table['users'])
        shares = self.house.shares
        return Payer([shares.of('user', caller.user), shares.of('caller', name)],
                     caller.user.encode() in self.house.admins)

    def kept_back(self, lines, payer):
        """For each line what the front answers; None for those that are the server's."""
        own, going = [], 0
        for line in lines:
            word = first_word(line)
            reply = own_reply(line, word)
            if reply is None and is_kept_out(self.table['verbs'], word):
                reply = NO_VERB
            if reply is None:
                reply = self.bar(word, payer, going)
                going += reply is None
            own.append(reply)
        return own

    def bar(self, word, payer, going):
        """What the front answers to a line for the server behind so many that go there; None where
        it may go there too."""
        refused = self.house.bar(going + 1, payer)
        if not refused and not payer.take_line(now()):
            return NO_ROOM
        return refused or (self.house.bar_open(payer) if word == b'open' else None)

    def count(self, asked, replies, payer):
        """Keeps the account of sessions that were opened and closed."""
        for line, reply in zip(asked, replies):
            if first_word(line) == b'open':
                opened = SESSION.fullmatch(reply)
                self.house.shares.is_open(int(opened[1]) if opened else None, payer)
            elif reply == b'ok' and (closed := CLOSED.fullmatch(line)):
                self.house.shares.is_closed(int(closed[1]))

    async def answer(self, caller, lines, run):
        """The replies to these lines, b'' where there is none."""
        payer = self.payer(caller)
        if self.front.record.bars():
            return [NO_LOG]
        own, mark = self.kept_back(lines, payer), self.house.mark
        asked = [line for line, reply in zip(lines, own) if reply is None]
        replies = []
        if asked:
            batch = await self.house.ask(caller.user.encode(), asked, run, payer)
            replies = batch.replies if batch else [NO_SERVER] * len(asked)
            self.count(asked, replies, payer)
        told = iter(replies)
        replies = [next(told) if reply is None else reply for reply in own]
        self.front.metrics.count_lines(self, replies)
        if self.front.record and not self.write(caller, mark, lines, replies):
            return [NO_LOG]
        return replies

    def write(self, caller, mark, lines, replies):
        """Each line with its reply, and the run in which it was asked."""
        head = as_json([('time', instant()), ('house', self.house.name), ('run', mark),
                        ('face', 'lines'), ('address', caller.address), ('caller', caller.names),
                        ('user', caller.user)])[:-1]
        return self.front.record.write([
            '%s, "line": %s, "reply": %s}' % (head, quoted(line[:MOST_LINE].decode('latin-1')),
                                              quoted(reply.decode('latin-1')))
            for line, reply in zip(lines, replies) if reply])

    async def serve(self, stream, caller):
        """As long as the server is the one that it was when the caller came: with another one its
        sessions are gone, and their numbers may be those of others."""
        rest, heard, run = b'', now(), self.house.run
        while True:
            try:
                async with asyncio.timeout_at(min(caller.until, heard + self.limits['idle'])):
                    chunk = await stream.reader.read(READ)
            except TimeoutError:
                return await self.refuse(stream, 'no time')
            if not chunk:
                return None
            lines, rest = cut(rest, chunk)
            if not lines:
                continue
            replies = await self.answer(caller, lines, run)
            await stream.give(b''.join(reply + b'\n' for reply in replies if reply))
            if NO_SERVER in replies or NO_REPLY in replies or NO_LOG in replies:
                return None
            heard = now()


class Stream(asyncio.StreamReaderProtocol):
    """What comes, as a stream; what goes, held up where the caller does not read."""

    def __init__(self):
        self.reader = asyncio.StreamReader(READ)
        super().__init__(self.reader)

    def connection_made(self, transport):
        self.transport = transport
        super().connection_made(transport)

    async def give(self, text):
        if not text:
            return
        if self.transport.is_closing():
            raise EOFError      # to write to one that has ended would be a fault
        self.transport.write(text)
        async with asyncio.timeout(30):
            await self._drain_helper()
