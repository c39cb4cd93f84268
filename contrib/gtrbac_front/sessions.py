"""The sessions that the front keeps for subjects of AuthZEN."""
import asyncio
import re
import time
from collections import OrderedDict

from .base import NO_ROOM, NO_SERVER, now, tell
from .shares import NOBODY

PIECE = 100                     # checks that go to a connection in one piece
GONE = (b'refused no-session', b'refused not-yours')


class Kept:
    """A session that the front keeps for a user, with the roles that it activates there."""

    def __init__(self):
        self.number = self.run = self.minute = None
        self.lock, self.used, self.became, self.in_use = asyncio.Lock(), now(), {}, 0


class Told:
    """What became of checks in one session: a reply for each, and how it came to be; `twice` has
    the places of those that a worker was asked twice."""

    def __init__(self, replies, number=None, run=None, became=None, view=False, twice=()):
        self.replies, self.number, self.run = replies, number, run
        self.became, self.view, self.twice = became or {}, view, twice


class Sessions:
    def __init__(self, house):
        self.house, self.most, self.keep = house, 0, 0
        self.kept = OrderedDict()       # by user and roles, the one used last at the end
        self.told = 0.0

    async def check(self, user, roles, permissions, payer, view):
        """Checks these permissions in the session of this user and these roles, by a viewer where
        `view` says so."""
        key = user, roles
        kept = self.kept.get(key)
        if kept is None:
            kept = self.kept[key] = Kept()
        self.kept.move_to_end(key)
        kept.in_use += 1
        try:
            told = None
            if kept.run == self.house.run:
                told = await self.ask(kept, user, roles, permissions, payer, view, False)
            return told or await self.check_anew(kept, user, roles, permissions, payer, view)
        finally:
            kept.in_use -= 1
            kept.used = now()

    async def check_anew(self, kept, user, roles, permissions, payer, view):
        """The same where no session is open, or is not any more. A server may be started anew in
        between."""
        for _ in range(3):
            refused = await self.begin(kept, user, roles, payer)
            if refused:
                return Told([refused] * len(permissions))
            told = await self.ask(kept, user, roles, permissions, payer, view, True)
            if told:
                return told
        return Told([NO_SERVER] * len(permissions))

    async def begin(self, kept, user, roles, payer):
        """Opens the session and activates the roles there. Why not, or None where it is open."""
        async with kept.lock:
            if kept.run == self.house.run:
                return None
            if len(self.kept) > self.most:
                await self.close(thrashes=True)
            refused = self.house.bar_open(payer)
            if refused:
                return refused
            batch = await self.house.ask(user, [b'open'], None, payer)
            opened = re.fullmatch(b'session ([0-9]+)', batch.replies[0])
            stays = opened and batch.run == self.house.run
            self.house.shares.is_open(int(opened[1]) if stays else None, payer)
            if not stays:
                return NO_SERVER if opened else batch.replies[0]
            kept.became = {}
            if roles:
                lines = [b'activate %b %b' % (opened[1], role.encode()) for role in roles]
                done = await self.house.ask(user, lines, batch.run, payer)
                if not done or done.replies[0] in (NO_SERVER, NO_ROOM):
                    kept.number, kept.run = opened[1], batch.run
                    return done.replies[0] if done else NO_SERVER
                kept.became = dict(zip(roles, (reply.decode() for reply in done.replies)))
            kept.number, kept.run, kept.minute = opened[1], batch.run, None
            return None

    async def ask(self, kept, user, roles, permissions, payer, view, fresh):
        """The checks; None where the session is gone. Where one is denied, roles that are not
        active are activated again, and it is asked once more: a role may be on again since."""
        number, run, mark = kept.number, kept.run, self.house.mark
        lines = [b'check %b %b' % (number, permission) for permission in permissions]
        if len(lines) == 1:
            batch = await self.house.ask(user, lines, run, payer, view)
            replies = batch and batch.replies
            if batch and replies[0].startswith(b'permit by '):
                return Told(replies, int(number), mark, kept.became, view)
        else:
            replies = await self.asked(user, lines, run, payer, view)
        if replies is None:
            return None
        denied, twice = [place for place, reply in enumerate(replies)
                         if reply.startswith(b'deny') or view and reply in GONE], ()
        if denied and self.may_activate(kept, view, fresh):
            again = [b'activate %b %b' % (number, role.encode()) for role in roles]
            more = await self.asked(user, again + [lines[place] for place in denied], run, payer,
                                    False)
            if more is None:
                return None
            kept.became = dict(zip(roles, (reply.decode() for reply in more)))
            for place, reply in zip(denied, more[len(roles):]):
                replies[place] = reply
            view, twice = False, frozenset(() if view else denied)
        if GONE[0] in replies or GONE[1] in replies:
            if kept.number is number:       # nobody has opened another one meanwhile
                kept.run = None
            return None
        return Told(replies, int(number), mark, kept.became, view, twice)

    def may_activate(self, kept, view, fresh):
        """Where a worker is asked each denial tries anew, but not just behind the opening; where a
        viewer is, one in each minute, so that denials cost no history."""
        if not view:
            return not fresh
        minute = int(time.time() / 60)
        if kept.minute == minute:
            return False
        kept.minute = minute
        return True

    async def asked(self, user, lines, run, payer, view):
        """The replies to lines of one session, in their order; None where the run is another."""
        if len(lines) <= PIECE:
            batch = await self.house.ask(user, lines, run, payer, view)
            return batch and batch.replies
        replies = []
        for start in range(0, len(lines), PIECE):
            batch = await self.house.ask(user, lines[start:start + PIECE], run, payer, view)
            if batch is None:
                return None
            replies += batch.replies
        return replies

    async def close(self, every=False, thrashes=False):
        """Closes those that were not used for so long, and the oldest where they are too many."""
        for key, kept in list(self.kept.items()):
            old = kept.run is None or now() - kept.used >= self.keep
            too_old = every or old or len(self.kept) > self.most
            if not too_old and thrashes:
                break
            if too_old and self.kept.get(key) is kept and (every or not kept.in_use):
                del self.kept[key]
                if not old and not every and now() - self.told > 60:
                    self.told = now()
                    tell('%s: more than %d sessions are wanted: each further one costs a close and '
                         'an open', self.house.name, self.most)
                if kept.number and kept.run == self.house.run:
                    batch = await self.house.ask(key[0], [b'close ' + kept.number], kept.run,
                                                 NOBODY)
                    if batch and batch.replies == [b'ok']:
                        self.house.shares.is_closed(int(kept.number))

    async def watch(self):
        while True:
            await asyncio.sleep(1)
            await self.close()
