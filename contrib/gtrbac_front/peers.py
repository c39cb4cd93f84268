"""Whose process listens at a place, and who calls."""
import asyncio
import pwd
import socket
import ssl
import struct
import time

from .base import now

LISTENS, LONGEST = '0A', 30


def uid_of(account):
    """The number of an account, by its name or as `uid:N`; None where it is not there now."""
    if account.startswith('uid:'):
        return int(account[4:])
    try:
        return pwd.getpwnam(account).pw_uid
    except KeyError:
        return None


def peer_uid(made):
    """Who connected to a Unix socket, or, seen from who connected, who listens there."""
    peer = made.getsockopt(socket.SOL_SOCKET, socket.SO_PEERCRED, struct.calcsize('3i'))
    return struct.unpack('3i', peer)[1]


def as_row(address):
    """An address as /proc/net/tcp writes it."""
    return '%08X:%04X' % (struct.unpack('=I', socket.inet_aton(address[0]))[0], address[1])


def rows_of(port):
    ending = ':%04X' % port
    with open('/proc/self/net/tcp', encoding='ascii') as file:
        rows = [line.split() for line in file if ending in line]
    return [row for row in rows if row[1].endswith(ending)]


def holders(mine, theirs):
    """Of a connection from `mine` to `theirs` on this machine: the uids that listen there, the uid
    that took the connection, None where nobody has taken it yet, and the sockets that listen.

    A connection that waits to be taken has no inode, and the number 0 in place of a uid: it would
    pass for root's. So the row of one that was taken counts, and the listening row until then.
    """
    listening, taken, sockets = set(), None, set()
    there, here = as_row(theirs), as_row(mine)
    for row in rows_of(theirs[1]):
        if row[3] == LISTENS and row[1].split(':')[0] in (there.split(':')[0], '00000000'):
            listening.add(int(row[7]))
            sockets.add(row[9])
        elif (row[1], row[2]) == (there, here) and row[9] != '0':
            taken = int(row[7])
    return listening, taken, frozenset(sockets)


def has_ended(made):
    try:
        return made.recv(1, socket.MSG_PEEK) == b''
    except BlockingIOError:
        return False


async def prove(made, accounts):
    """Raises ConnectionError unless it is one of these accounts that answers on the connection.
    Nothing is sent before. Which sockets listen there, which a server has as long as it runs; None
    where that can't be seen."""
    uids = {uid for uid in await asyncio.to_thread(lambda: list(map(uid_of, accounts)))
            if uid is not None}
    due = ' or '.join(accounts)
    if made.family == socket.AF_UNIX:
        if peer_uid(made) not in uids:
            raise ConnectionError('uid %d listens there, and not %s' % (peer_uid(made), due))
        return None
    wait, ends = 0.005, now() + LONGEST
    while True:
        mine, theirs = made.getsockname(), made.getpeername()
        listening, taken, sockets = await asyncio.to_thread(holders, mine, theirs)
        other = (listening if taken is None else {taken}) - uids
        if other:
            raise ConnectionError('uid %d listens there, and not %s' % (min(other), due))
        if taken is not None:
            return sockets
        if not listening or now() > ends or has_ended(made):
            raise ConnectionError('nobody takes the connection')
        await asyncio.sleep(wait)
        wait = min(2 * wait, 1)


async def account_names(made):
    """Under which names a table may have the caller of a Unix socket."""
    uid = peer_uid(made)
    try:
        return ['uid:%d' % uid, (await asyncio.to_thread(pwd.getpwuid, uid)).pw_name]
    except KeyError:
        return ['uid:%d' % uid]


def certificate_names(certificate):
    """The same of who showed a certificate, and for how many seconds that lasts."""
    names = ['CN:' + value for part in certificate.get('subject', ()) for key, value in part
             if key == 'commonName']
    names += ['%s:%s' % pair for pair in certificate.get('subjectAltName', ())
              if pair[0] in ('DNS', 'email', 'URI')]
    return names, ssl.cert_time_to_seconds(certificate['notAfter']) - time.time()
