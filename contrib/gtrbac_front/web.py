"""Requests and answers of HTTP/1.1, as much as is asked and answered here.

What a request says is read by httptools. Before that a head must be of the one form that has one
reading alone: no line ends by a line feed alone, none goes on in the next one, and each header that
frames a request or says who asks stands once.
"""
import asyncio
import itertools
import re
import secrets
import time

import httptools

from .base import Wrong, now
from .face import Face
from .record import dumps

MOST_HEAD = 16384
HEAD_TIME, BODY_TIME, READ_TIME = 60, 10, 30
PIECES = 500                    # of a body in chunks, after which others have their turn
KEPT_HEAD = 2048                # bytes of a head that is kept, to know the same one again
LINGER = 1                      # seconds that the rest of a refused request is read and dropped
REASONS = {200: 'OK', 400: 'Bad Request', 401: 'Unauthorized', 403: 'Forbidden', 404: 'Not Found',
           405: 'Method Not Allowed', 408: 'Request Timeout', 413: 'Content Too Large',
           415: 'Unsupported Media Type', 421: 'Misdirected Request', 429: 'Too Many Requests',
           431: 'Request Header Fields Too Large', 503: 'Service Unavailable'}
ONCE = frozenset((b'authorization', b'connection', b'content-length', b'content-type', b'expect',
                  b'host', b'transfer-encoding', b'x-request-id'))
# Each part ends at a byte that it can't have, so a head is read once, however it is made.
HEAD = re.compile(rb"[A-Z]{1,20} (?:https?://[^/ ?#\r\n]+)?/[!-~]* HTTP/1\.[01]"
                  rb"(?:\r\n[!#$%&'*+.^_`|~0-9A-Za-z-]+:[\t -~\x80-\xff]*)*\r\n\r\n")
REQUEST_ID = re.compile(rb'\r\nx-request-id:[ \t]*([!-~]{1,200})[ \t]*\r\n', re.I)
# Another protocol is not offered, and a caller who would like one goes on without it.
UPGRADE = re.compile(rb'\r\n(?:upgrade|http2-settings):[^\r]*', re.I)
numbers = itertools.count(1)
born = secrets.token_hex(4)


class Request:
    """The head of a request, and its body as it comes."""

    judged = None               # by which table its head was found right, and what it asks for

    def __init__(self, text):
        self.headers, self.path, self.body = {}, '', bytearray()
        self.fault, self.whole, self.known = None, False, False
        self.named = REQUEST_ID.search(text) if b'equest-' in text.lower() else None
        self.name()

    def name(self):
        self.id = self.named[1].decode() if self.named else '%s-%d' % (born, next(numbers))

    def again(self):
        """A further request, with the very same head on the same connection."""
        other = Request.__new__(Request)
        other.__dict__ |= self.__dict__
        other.body, other.known, other.whole = bytearray(), True, not self.length
        other.name()
        return other

    def wrong(self, text, status=400):
        return Wrong(text, status, request_id=self.id)

    def settle(self, parser):
        """What the head says, now that it is read."""
        self.method = parser.get_method().decode()
        self.newer = parser.get_http_version() == '1.1'
        self.goes_on = parser.should_keep_alive()
        self.chunked = b'transfer-encoding' in self.headers
        self.length = int(self.headers.get(b'content-length', b'0'))
        if self.fault or (self.newer and b'host' not in self.headers):
            raise self.wrong(self.fault or 'the header Host is missing')
        if self.chunked and not (self.newer
                                 and self.headers[b'transfer-encoding'].lower() == b'chunked'):
            raise self.wrong('a body comes by its length, or in chunks and nothing else')

    def said(self, name):
        return self.headers.get(name, b'').decode('latin-1')


class Reader:
    """Reads the requests of one connection, one after the other, by httptools. A head that has the
    bytes of the one before it says the same, and is not read again."""

    def __init__(self):
        self.request, self.parser = None, httptools.HttpRequestParser(self)
        self.headers = {}       # of the head, and then those behind chunks, which say nothing
        self.last = None        # the head before, where it may be known again

    def begin(self, text):
        text = text.lstrip(b'\r\n')
        if text == self.last:
            self.request = self.request.again()
            return self.request
        self.last = None
        self.request = request = Request(text)
        self.headers = request.headers
        if not HEAD.fullmatch(text):
            raise request.wrong('the head is malformed')
        self.feed(UPGRADE.sub(b'', text) if b'pgrade' in text.lower() else text)
        self.headers = {}
        request.settle(self.parser)
        if not request.chunked and len(text) <= KEPT_HEAD:
            self.last = text
        return request

    def take(self, part):
        """A part of the body. The parser knows nothing of one whose head it was not given."""
        request = self.request
        if request.known:
            request.body += part
            request.whole = len(request.body) == request.length
        else:
            self.feed(part)

    def feed(self, data):
        try:
            self.parser.feed_data(data)
        except (httptools.HttpParserError, httptools.HttpParserUpgrade) as fault:
            raise self.request.wrong('the request is malformed: %s' % fault) from fault

    def on_url(self, url):
        target = url.decode('latin-1')
        if not target.startswith('/'):
            target = '/' + target.split('/', 3)[3]
        self.request.path = target.split('?', 1)[0]

    def on_header(self, name, value):
        headers, name = self.headers, name.lower()
        if name in ONCE and name in headers:
            self.request.fault = 'a header stands twice'
        headers[name] = value.strip(b' \t')

    def on_body(self, part):
        self.request.body += part

    def on_message_complete(self):
        self.request.whole = True


class Talk(asyncio.Protocol):
    """One connection: what has come and is not read yet, and how requests are taken from it."""

    def __init__(self, most_body):
        self.most_body, self.held = most_body, 2 * MOST_HEAD
        self.data, self.ended, self.waiter = bytearray(), False, None
        self.reader = Reader()
        self.due = self.late = None     # until when something must have come
        self.paused, self.room = False, None

    def connection_made(self, transport):
        self.transport, self.loop = transport, asyncio.get_running_loop()

    def data_received(self, data):
        self.data += data
        if len(self.data) > self.held and not self.paused:
            self.paused = True
            self.transport.pause_reading()
        self.wake()

    def eof_received(self):
        self.ended = True
        self.wake()
        return self.transport.get_extra_info('ssl_object') is None

    def connection_lost(self, fault):
        self.ended = True
        self.wake()
        self.resume_writing()

    def pause_writing(self):
        self.room = asyncio.get_running_loop().create_future()

    def resume_writing(self):
        if self.room and not self.room.done():
            self.room.set_result(None)
        self.room = None

    def wake(self):
        if self.waiter and not self.waiter.done():
            self.waiter.set_result(None)

    def look(self, at):
        """Each second: what was due by now has not come."""
        if self.due is not None and at > self.due and self.waiter and not self.waiter.done():
            self.late = True
            self.waiter.set_result(None)

    async def more(self):
        """Waits until more has come."""
        if self.ended:
            raise EOFError
        if self.paused:
            self.paused = False
            self.transport.resume_reading()
        self.waiter, before = self.loop.create_future(), len(self.data)
        await self.waiter
        self.waiter = None
        if self.late:
            raise TimeoutError
        if self.ended and len(self.data) == before:
            raise EOFError

    async def head(self):
        start = 0
        while (end := self.data.find(b'\r\n\r\n', start)) < 0 and len(self.data) < MOST_HEAD:
            start = max(0, len(self.data) - 3)
            await self.more()
        if not 0 <= end <= MOST_HEAD - 4:
            named = REQUEST_ID.search(self.data[:MOST_HEAD])
            raise Wrong('the head is too long', 431, request_id=named and named[1].decode())
        text = bytes(self.data[:end + 4])
        del self.data[:end + 4]
        return self.reader.begin(text)

    async def read(self, request):
        """The body; at most so many bytes, whether its length is told before or not."""
        if request.length > self.most_body:
            raise request.wrong('the body is too long', 413)
        self.held = request.length + 2 * MOST_HEAD
        left = request.length
        while left:
            if not self.data:
                await self.more()
            part = bytes(self.data[:left])
            del self.data[:left]
            left -= len(part)
            self.reader.take(part)
        if request.chunked:
            await self.read_chunks(request)
        self.held = 2 * MOST_HEAD
        return request.body

    def take(self, request):
        """A body that is there."""
        part = bytes(self.data[:request.length])
        del self.data[:request.length]
        self.reader.take(part)

    async def read_chunks(self, request):
        """Line by line, so that the end of the body is the end of what the parser is given, and
        nothing of the next request is."""
        taken = pieces = 0
        while not request.whole:
            pieces += 1
            if not self.data:
                await self.more()
            elif pieces % PIECES == 0:
                await asyncio.sleep(0)
            part = bytes(self.data[:self.data.find(b'\n') + 1 or len(self.data)])
            del self.data[:len(part)]
            self.reader.feed(part)
            taken += len(part)
            if len(request.body) > self.most_body or taken > 2 * self.most_body + MOST_HEAD:
                raise request.wrong('the body is too long', 413)

    async def give(self, text):
        """Hands the text over; a caller who does not read is let go."""
        if self.transport.is_closing():
            raise EOFError      # to write to one that has ended would be a fault
        self.transport.write(text)
        if self.room:
            async with asyncio.timeout(READ_TIME):
                await self.room

    async def linger(self):
        """Ends one's own side, and drops what the caller still sends, lest the answer gets lost."""
        if self.transport.can_write_eof():
            self.transport.write_eof()
        self.due, self.late = now() + LINGER, None
        try:
            for _ in range(64):
                self.data.clear()
                await self.more()
        except (EOFError, TimeoutError):
            pass


openings = {}                   # of answers, by status and kind, with the second that they are of


def opening(status, kind):
    """How an answer begins: all that is the same within a second."""
    at, made = int(time.time()), openings.get((status, kind))
    if made is None or made[0] != at:
        lines = ['HTTP/1.1 %d %s' % (status, REASONS[status]),
                 time.strftime('Date: %a, %d %b %Y %H:%M:%S GMT', time.gmtime(at)),
                 'Cache-Control: no-store', 'Content-Type: ' + kind]
        if status in (429, 503):
            lines.append('Retry-After: 1')
        made = openings[status, kind] = at, '\r\n'.join(lines) + '\r\n'
    return made[1]


def response(status, told, request_id=None, headers=(), last=False, bare=False):
    """An answer: an object as JSON, a text as text. A bare one has no body, as for HEAD."""
    kind = 'text/plain; charset=utf-8'
    if isinstance(told, dict):
        told, kind = dumps(told), 'application/json'
    body = told if isinstance(told, bytes) else told.encode() + b'\n'
    head = '%sContent-Length: %d\r\nX-Request-ID: %s\r\n' % (
        opening(status, kind), len(body), request_id or '%s-%d' % (born, next(numbers)))
    for line in headers:
        head += line + '\r\n'
    if last:
        head += 'Connection: close\r\n'
    return head.encode('latin-1') + b'\r\n' + (b'' if bare else body)


class WebFace(Face):
    """A face that speaks HTTP. What it answers to a request is each face's own."""

    def set(self, table):
        super().set(table)
        self.head_time = min(HEAD_TIME, self.limits['idle'])

    def protocol(self):
        return Talk(self.limits['body'])

    async def refuse(self, talk, word):
        await talk.give(response(503 if word == 'no room' else 403, word, last=True))

    async def serve(self, talk, caller):
        """One request after the other, each answered before the next is read."""
        self.front.talks.add(talk)
        try:
            while await self.serve_one(talk, caller):
                pass
        finally:
            self.front.talks.discard(talk)

    async def serve_one(self, talk, caller):
        """Whether a further request may come."""
        request, name, headers = None, None, ()
        talk.due, talk.late = min(caller.until, now() + self.head_time), False
        try:
            request = await talk.head()
            status, told = 200, await self.answer(talk, request, caller)
        except Wrong as fault:
            status, told, headers = fault.status, str(fault), fault.headers
            name = fault.request_id
        except TimeoutError:
            if not talk.late or request is None and not talk.data:
                return False
            status, told = 408, 'the request did not come in time'
        unread = request is None or not request.whole
        going = not unread and request.goes_on
        talk.due = None
        await talk.give(response(status, told, request.id if request else name, headers, not going,
                                 request is not None and request.method == 'HEAD'))
        if unread and not talk.ended:
            await talk.linger()
        return going

    def came(self, talk, request):
        """The body where it came with its head, as most do; else None."""
        if not 0 < request.length <= min(len(talk.data), self.limits['body']):
            return None
        talk.take(request)
        talk.due = None
        return request.body

    async def body(self, talk, request, caller):
        """The body, once all that a head can show is right."""
        if not request.whole and self.came(talk, request) is None:
            size = self.limits['body'] if request.chunked else request.length
            if size > self.limits['body']:
                raise Wrong('the body is too long', 413)
            if self.front.bodies + size > self.limits['bodies']:
                raise Wrong('no room for the body', 503)
            self.front.bodies += size
            try:
                if request.said(b'expect').lower() == '100-continue' and not talk.data:
                    talk.transport.write(b'HTTP/1.1 100 Continue\r\n\r\n')
                talk.due = min(caller.until, now() + BODY_TIME)
                await talk.read(request)
            finally:
                self.front.bodies -= size
        talk.due = None
        return request.body
