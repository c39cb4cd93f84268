"""A place where callers come: how they are let in, counted, and let go."""
import asyncio
import errno
import os
import socket
import ssl

from . import peers
from .base import Fault, Teller, host_port, now

HANDSHAKE = 5                   # seconds for the first step over TLS, or until a token comes
EARLY_EACH = 8                  # of one address that have not got through it
ACCEPTS = 64                    # connections that are taken at once


class Caller:
    """One connection: who it is, under which names, from where, and until when."""

    def __init__(self, face, made, peer):
        self.face, self.made, self.task = face, made, asyncio.current_task()
        if face.kind == 'unix':
            self.address = 'unix'
        else:
            self.address = '%s:%d' % peer[:2]
        self.host = peer[0] if peer else ''
        self.names, self.user, self.key, self.until = [], None, None, 0.0
        self.certificate, self.counted = None, False
        self.share, self.payers = None, {}


class Face:
    """How it serves a caller who is known is each face's own."""
    sessions = None             # those that it keeps itself

    def __init__(self, front, table, where):
        self.front, self.where = front, where
        self.kind = next(kind for kind in ('unix', 'tls', 'tcp') if table[kind])
        self.place, self.listener = table[self.kind], None
        self.callers, self.early = set(), {}
        self.refused = Teller(where)
        self.set(table)

    def set(self, table):
        """Takes the table's values, at the start or anew."""
        self.table, self.limits = table, self.front.limits
        self.house = self.front.houses.get(table['house'])
        self.context = tls_context(table, self.where) if self.kind == 'tls' else None

    def listen(self):
        if self.kind == 'unix':
            refuse_taken(self.place)
            self.listener = socket.socket(socket.AF_UNIX)
            self.listener.bind(self.place)
            os.chmod(self.place, self.table['mode'])
        else:
            host, port = host_port(self.place)
            family, *_, address = socket.getaddrinfo(host, port, type=socket.SOCK_STREAM)[0]
            self.listener = socket.socket(family)
            self.listener.setsockopt(socket.SOL_SOCKET, socket.SO_REUSEADDR, 1)
            self.listener.bind(address)
        self.listener.setblocking(False)
        self.listener.listen(1024)
        self.listens()

    def listens(self):
        if self.listener:
            asyncio.get_running_loop().add_reader(self.listener.fileno(), self.accept)

    def close(self):
        if self.listener:
            asyncio.get_running_loop().remove_reader(self.listener.fileno())
            self.listener.close()
            self.listener = None

    def accept(self):
        loop = asyncio.get_running_loop()
        for _ in range(ACCEPTS):
            try:
                made, peer = self.listener.accept()
            except (BlockingIOError, InterruptedError, ConnectionAbortedError):
                return
            except OSError as fault:    # no file or no memory is left: those who come wait
                loop.remove_reader(self.listener.fileno())
                loop.call_later(0.2, self.listens)
                self.refused.tell('nobody is let in: %s', errno.errorcode.get(fault.errno, fault))
                return
            made.setblocking(False)
            if self.kind != 'unix' and not self.has_room():
                self.refused.tell('no room: %s', peer)
                made.close()
                continue
            if self.kind != 'unix':
                made.setsockopt(socket.IPPROTO_TCP, socket.TCP_NODELAY, 1)
            task = loop.create_task(self.meet(made, peer))
            self.front.tasks.add(task)
            task.add_done_callback(self.front.tasks.discard)

    def has_room(self):
        """Whether another connection over the network may come. The last ones are kept for Unix
        sockets, and those that are not known yet count too."""
        early = sum(len(face.early) for face in self.front.faces)
        most = self.limits['callers'] - self.limits['unix']
        return self.front.each['all'] + early < most + self.limits['early']

    def begins(self, caller):
        """A connection that has shown nothing yet. Where they are too many, the oldest is let go,
        so that one who shows it at once always gets in."""
        same = [other for other in self.early if other.host == caller.host]
        if len(same) >= EARLY_EACH and self.kind == 'tls' and not caller.host.startswith('127.'):
            self.lets_go(same[0])
        if len(self.early) >= self.limits['early']:
            self.lets_go(next(iter(self.early)))
        self.early[caller] = now() + HANDSHAKE

    def lets_go(self, caller):
        self.refused.tell('let go: %s has shown nothing', caller.address)
        self.early.pop(caller, None)
        caller.task.cancel()

    def look(self, at):
        """Each second: whoever has shown nothing in time is let go."""
        for caller, due in list(self.early.items()):
            if at > due:
                self.lets_go(caller)
        self.refused.turn()

    async def connect(self, caller, protocol):
        """The transport of a connection, once TLS has said who is there."""
        loop, more = asyncio.get_running_loop(), {}
        if self.context:
            more = {'ssl': self.context, 'ssl_handshake_timeout': HANDSHAKE,
                    'ssl_shutdown_timeout': 5}
            self.begins(caller)
        try:
            transport, _ = await loop.connect_accepted_socket(lambda: protocol, caller.made, **more)
        except (OSError, EOFError) as fault:
            reason = getattr(fault, 'verify_message', '') or getattr(fault, 'reason', '') or fault
            self.refused.tell('TLS is refused: %s: %s', caller.address,
                              reason or type(fault).__name__)
            raise
        finally:
            self.early.pop(caller, None)
        return transport

    async def names(self, caller, transport):
        """Who it is: its names in tables, and until when that holds."""
        left = self.limits['lifetime']
        if self.kind == 'unix':
            caller.names = await peers.account_names(caller.made)
        elif self.kind == 'tls':
            caller.certificate = transport.get_extra_info('peercert')
            caller.names, lasts = peers.certificate_names(caller.certificate)
            left = min(left, lasts)
        caller.until = now() + left

    async def meet(self, made, peer):
        caller, protocol = Caller(self, made, peer), self.protocol()
        transport = None
        try:
            transport = await self.connect(caller, protocol)
            await self.names(caller, transport)
            caller.user = self.known(caller.names)
            caller.key = (self.house, caller.user)
            if caller.user is None:
                self.refused.tell('not let in: %s: %r', caller.address, caller.names)
                await self.refuse(protocol, 'no user')
            elif not self.counts(caller):
                self.refused.tell('no room: %s: %r', caller.address, caller.names)
                await self.refuse(protocol, 'no room')
            else:
                self.callers.add(caller)
                await self.serve(protocol, caller)
        except (OSError, EOFError, asyncio.CancelledError):
            pass
        finally:
            self.uncounts(caller)
            self.early.pop(caller, None)
            self.callers.discard(caller)
            if transport:
                await self.ends(transport)
            else:
                made.close()

    async def ends(self, transport):
        """Closes a connection, once what was written has left; not for long."""
        transport.close()
        loop = asyncio.get_running_loop()
        loop.call_later(5, transport.abort)

    def counts(self, caller):
        """Whether there is room for it, in all and for this user; then it is counted."""
        each, most = self.front.each, self.limits['callers']
        if self.kind != 'unix':
            most -= self.limits['unix']
        if each['all'] >= most or each[caller.key] >= self.limits['each']:
            return False
        each.update([caller.key, 'all'])
        caller.counted = True
        return True

    def uncounts(self, caller):
        if caller.counted:
            self.front.each.subtract([caller.key, 'all'])
            caller.counted = False

    def judge_anew(self):
        """Behind a change of the tables: who is not the same user any more is let go, and so is who
        showed a certificate that is revoked since."""
        revoked = self.front.papers.revoked(self.table['crl'])
        for caller in list(self.callers):
            serial = (caller.certificate or {}).get('serialNumber', '')
            if self.known(caller.names) != caller.user or serial and int(serial, 16) in revoked:
                self.refused.tell('let go: %s: %r', caller.address, caller.names)
                caller.task.cancel()


def tls_context(table, where):
    try:
        context = ssl.SSLContext(ssl.PROTOCOL_TLS_SERVER)
        # No resumption: a certificate is looked at in each connection.
        context.minimum_version, context.num_tickets = ssl.TLSVersion.TLSv1_3, 0
        context.verify_mode = ssl.CERT_REQUIRED
        context.load_cert_chain(table['certificate'], table['key'] or None)
        context.load_verify_locations(table['ca'])
        if table['crl']:
            context.load_verify_locations(table['crl'])
            context.verify_flags |= ssl.VERIFY_CRL_CHECK_LEAF
        return context
    except (OSError, ValueError) as fault:
        raise Fault('%s: certificate, key, ca or crl: %s' % (where, fault)) from fault


def refuse_taken(path):
    """A fault where somebody listens at the path; what is left of one who ended is taken away."""
    with socket.socket(socket.AF_UNIX) as probe:
        try:
            probe.connect(path)
        except FileNotFoundError:
            return
        except OSError:
            os.unlink(path)
            return
    raise Fault('%s: another program listens there' % path)
