"""How much of a server one user and one caller may have.

A history has room for 1,000,000 entries and a server for 10,000 open sessions, and all share them.
"""
MOST_ENTRIES, MOST_OPEN = 1_000_000, 10_000
MOST_KNOWN = 40_000
SAVED = 10                      # seconds whose share may be spent at once
# of lines and decisions so many a second; 0 is no bound
USER = {'lines': 100, 'decisions': 200, 'sessions': 100, 'run': 200_000}
CALLER = {'lines': 500, 'decisions': 2000, 'sessions': 6000, 'run': 900_000}


class Bucket:
    """So many a second; what was not spent is saved for a while."""

    def __init__(self, rate):
        self.rate, self.left, self.at = rate, rate * SAVED, 0.0

    def take(self, number, at):
        if not self.rate:
            return True
        self.left = min(self.rate * SAVED, self.left + (at - self.at) * self.rate)
        self.at = at
        if self.left < number:
            return False
        self.left -= number
        return True


class Share:
    """What one user, or one caller, has of a house in this run of its server."""

    def __init__(self, most):
        self.open = self.spent = 0
        self.bound(most)

    def bound(self, most):
        self.most = most
        self.lines, self.decisions = Bucket(most['lines']), Bucket(most['decisions'])

    def may_open(self):
        return not self.most['sessions'] or self.open < self.most['sessions']


class Payer:
    """On whose account something is done: a user, or a caller for a user. `admin` says that it is
    an administrator's own line, for which the last entries and sessions are kept."""

    def __init__(self, shares, admin=False):
        self.shares, self.admin = shares, admin

    def may_spend(self, number):
        for share in self.shares:
            if share.most['run'] and share.spent + number > share.most['run']:
                return False
        return True

    def spend(self, number):
        for share in self.shares:
            share.spent += number

    def may_open(self):
        return all(share.may_open() for share in self.shares)

    def count_open(self, number):
        for share in self.shares:
            share.open = max(0, share.open + number)

    def take_line(self, at):
        return all(share.lines.take(1, at) for share in self.shares)


NOBODY = Payer(())              # the front itself


class Shares:
    """The shares of one house, and the sessions that were opened through the front."""

    def __init__(self, most):
        self.most, self.known = most, {}
        self.opened, self.coming = {}, 0        # by number who opened it; how many are on their way

    def of(self, kind, name):
        """The share of a `user` or a `caller` of that name."""
        share = self.known.get((kind, name))
        if share is None:
            if len(self.known) >= MOST_KNOWN:       # names that the policy lacks are no end of
                self.known = {key: share for key, share in self.known.items() if share.open}
            share = self.known[kind, name] = Share(self.most[kind])
        return share

    def bound(self, most):
        self.most = most
        for (kind, _), share in self.known.items():
            share.bound(most[kind])

    def renew(self):
        """A new run of the server: nothing of it is spent."""
        self.opened.clear()
        self.coming = 0
        for share in self.known.values():
            share.open = share.spent = 0

    def asks_open(self, payer):
        """A session is about to be opened, and counts from now on."""
        self.coming += 1
        payer.count_open(1)

    def is_open(self, number, payer):
        """What became of it: its number, or None where it was not opened."""
        self.coming = max(0, self.coming - 1)
        if number is None:
            payer.count_open(-1)
        else:
            self.opened[number] = payer

    def is_closed(self, number):
        payer = self.opened.pop(number, None)
        if payer:
            payer.count_open(-1)
