"""What the tools of contrib/ share: minutes, policies as text, logs, and what a policy answers at
many minutes. Nothing here is proved: it asks the proved program, and reads what that wrote."""
import os
import re
import subprocess
import tempfile
from datetime import datetime, timedelta

HERE = os.path.dirname(os.path.realpath(__file__))
FORM = '%Y-%m-%dT%H:%M'
FIRST, LAST = '2000-01-01T00:00', '2099-12-31T23:59'
MOST_SCRIPT = 16_777_216
MOST_STEPS = 1_000_000
# the opening line of a fluent: the words of its events and conditions, on and off, and its names
KINDS = {
    'enabled': (('enable', 'disable'), ('enabled', 'disabled'), ('role',)),
    'assigned': (('assign', 'deassign'), ('assigned', 'deassigned'), ('user', 'role')),
    'granted': (('grant', 'revoke'), ('granted', 'revoked'), ('perm', 'role')),
    'armed': (('arm', 'disarm'), ('armed', 'disarmed'), ('limit',)),
    'linked': (('link', 'unlink'), ('linked', 'unlinked'), ('role', 'role')),
}
EVENTS = {words[0][at]: (at == 0, kind) for kind, words in KINDS.items() for at in (0, 1)}
CONDS = {words[1][at]: (at == 0, kind) for kind, words in KINDS.items() for at in (0, 1)}
ENTRIES = ('each', 'start', 'span')
SPACES = ('role', 'user', 'perm', 'period', 'limit')
# how many a policy has at most
MOST = {'role': 1000, 'perm': 10_000, 'period': 1000, 'limit': 1000, 'entry': 4000, 'when': 4000}


class Unread(Exception):
    """Why a file can't be read, or what it has can't be played."""


class Differs(Exception):
    """A reply is not the one that is due: the line of the log, the reply, and the one due."""


def program(given):
    given = given or os.environ.get('GTRBAC')
    if given:
        return given
    beside = os.path.join(HERE, '..', 'bin', 'gtrbac')
    return beside if os.path.exists(beside) else 'gtrbac'


def run(words, text=''):
    done = subprocess.run(words, input=text, stdout=subprocess.PIPE, encoding='utf-8',
                          errors='replace')
    return done.returncode, done.stdout.splitlines()


def needed(words, text=''):
    status, told = run(words, text)
    if status != 0:
        raise Unread('`%s` ends with %d: %s' % (
            ' '.join([os.path.basename(words[0])] + words[1:2]), status, ' / '.join(told[-3:])))
    return told


# Minutes, as text: their order is that of the text.

def is_minute(word):
    try:
        return datetime.strptime(word, FORM).strftime(FORM) == word and FIRST <= word <= LAST
    except ValueError:
        return False


def later(minute, by=1):
    """The minute so much later; text behind every minute where it lies beyond the last one."""
    try:
        found = (datetime.strptime(minute, FORM) + timedelta(minutes=by)).strftime(FORM)
    except OverflowError:
        return '9999'
    return found if found <= LAST else '9999'


def minutes_between(first, last):
    gap = datetime.strptime(last, FORM) - datetime.strptime(first, FORM)
    return gap.days * 1440 + gap.seconds // 60


def stretches(minutes):
    """Ascending minutes as pairs, the first and the last of those that follow each other."""
    found = []
    for minute in minutes:
        if found and later(found[-1][1]) == minute:
            found[-1][1] = minute
        else:
            found.append([minute, minute])
    return [tuple(pair) for pair in found]


# Policies.

def event_of(words):
    """The event that words name: whether it turns on, and its fluent, the kind with the names."""
    on, kind = EVENTS[words[0]]
    return on, (kind,) + tuple(words[1:1 + len(KINDS[kind][2])])


def head_of(words):
    """The priority, and the event as above."""
    priority, _, verb = words[0].partition(':')
    return (int(priority),) + event_of([verb] + words[1:])


def said(priority, on, fluent):
    return '%d:%s' % (priority, event_said(on, fluent))


def event_said(on, fluent):
    return ' '.join((KINDS[fluent[0]][0][0 if on else 1],) + fluent[1:])


class Trigger:
    """Its items as words, its head and its delay. Places are fixed: a name may be any word."""

    def __init__(self, words):
        self.words, self.items, place = words, [], 1
        while words[place - 1] != 'then':
            begin = place
            place += words[place] == 'settled'
            verb = words[place]
            _, kind = EVENTS.get(verb) or CONDS.get(verb) or (True, 'assigned')
            place += 2 + len(KINDS[kind][2])
            self.items.append(words[begin:place - 1])
        self.head = head_of(words[place:])
        end = place + 1 + len(KINDS[self.head[2][0]][2])
        self.body = ' '.join(words[1:place - 1])
        self.delay = int(words[end + 1]) if words[end:] else 0

    def signals(self):
        return {tuple(item[1:]) for item in self.items if item[0] in ('activate', 'deactivate')}

    def begins(self):
        """The pairs of a user and a role of whose activations' beginnings it is told."""
        return {tuple(item[1:]) for item in self.items if item[0] == 'activate'}


class Text:
    """A policy in its canonical form: the words of its lines by what they say."""

    def __init__(self, lines):
        kinds = SPACES + ('edge', 'cap', 'admin', *KINDS, 'entry', 'when')
        self.rows = {kind: [] for kind in kinds}
        for words in map(str.split, lines):
            if words[0] != 'policy':
                self.rows['entry' if words[0] in ENTRIES else words[0]].append(words)
        if lines[0] == 'policy 1':
            self.rows['linked'] = [['linked'] + words[3:5] for words in self.rows['edge']]

    def __getitem__(self, kind):
        return self.rows[kind]

    def copy(self):
        other = Text.__new__(Text)
        other.rows = {kind: [list(words) for words in rows] for kind, rows in self.rows.items()}
        return other

    def lines(self):
        """All lines; the program brings them into the canonical form."""
        return ['policy 2'] + [' '.join(words) for rows in self.rows.values() for words in rows]

    def names(self, space):
        return [words[1] for words in self[space]]

    def period(self, name):
        return next(words for words in self['period'] if words[1] == name)

    def triggers(self):
        return [Trigger(words) for words in self['when']]

    def signals(self):
        """The pairs of a user and a role of whose activations a trigger is told."""
        return set().union(*(trigger.signals() for trigger in self.triggers()))

    def caps(self, kind):
        """The caps of a kind, by role."""
        return {words[2]: int(words[3]) for words in self['cap'] if words[1] == kind}

    def opening(self):
        return {tuple(words) for kind in KINDS for words in self[kind]}

    def moved(self):
        """The fluents that an event of the policy itself may turn."""
        found = {head_of(words[2:])[2] for words in self['entry']}
        found |= {trigger.head[2] for trigger in self.triggers()}
        return found | {condition_of(words)[1] for words in self['limit']}

    def knowing(self):
        """Says of a fluent whether the policy has its names, as it stands now."""
        known = {space: set(self.names(space)) for space in SPACES}
        edges = {tuple(words[3:5]) for words in self['edge']}
        return lambda fluent: fluent[1:] in edges if fluent[0] == 'linked' else all(
            name in known[space] for name, space in zip(fluent[1:], KINDS[fluent[0]][2]))


def condition_of(limit):
    """The condition of a limit's words: whether it holds where its fluent is on, and this."""
    on, kind = CONDS[limit[3]]
    return on, (kind,) + tuple(limit[4:4 + len(KINDS[kind][2])])


def most_of(limit):
    return int(limit[5 + len(condition_of(limit)[1][1:])])


def during(limit):
    """The period of a limit's words, or None."""
    return limit[-1] if limit[-2] == 'during' else None


class Asker:
    """Asks the program about policies, which it keeps in a folder of its own."""

    def __init__(self, tool):
        self.tool, self.folder, self.many = tool, tempfile.TemporaryDirectory(), 0

    def file(self, lines):
        self.many += 1
        name = os.path.join(self.folder.name, '%d.policy' % self.many)
        with open(name, 'w', encoding='utf-8') as file:
            file.write('\n'.join(lines) + '\n')
        return name

    def canonical(self, name):
        return needed([self.tool, 'fmt', name])

    def text(self, name):
        """The policy of a file; it is safe."""
        needed([self.tool, 'check', name])
        return Text(self.canonical(name))

    def first_change(self, lines, born, condition):
        """The first minute at which the condition's answer is another one than at the birth."""
        words = [self.tool, 'forecast', self.file(lines), '36525'] + condition.split()
        told = needed(words, '@ %s\n' % born)[-1].split()
        return told[1] if told[0] == 'change' else '9999'

    def insides(self, periods, minutes):
        """Which of the periods' lines are inside at which of these minutes, as a set of pairs of a
        name and a minute."""
        lines = ['role c%d' % place for place in range(len(periods))]
        for place, words in enumerate(periods):
            lines += [' '.join(words), 'each %s 50:enable c%d' % (words[1], place)]
        asks = [(minute, 'event enable c%d' % place)
                for minute in minutes for place in range(len(periods))]
        play = Play(self.tool, self.file(lines), later(min(minutes), -1), [])
        pairs = [(words[1], minute) for minute in minutes for words in periods]
        return {pair for pair, reply in zip(pairs, play.ask(asks)) if reply != 'no'}

    def end_of(self, period, now):
        """The first minute after now at which the period is outside, where it is inside now."""
        return self.first_change(['role c', 'enabled c', ' '.join(period),
                                  'span %s 50:enable c' % period[1]], now, 'enabled c')

    def next_inside(self, period, minute):
        """The first minute from this one on at which the period is inside."""
        return self.first_change(['role c', ' '.join(period), 'each %s 50:enable c' % period[1]],
                                 later(minute, -1), 'enabled c')


class Play:
    """A policy with what is said in it: lines from its birth on, each a tuple of its minute, the
    text, the reply that is due, or None, and its line in the log."""

    def __init__(self, tool, policy, born, lines):
        self.tool, self.policy, self.born, self.lines = tool, policy, born, lines

    def ask(self, asks):
        """The replies to pairs of a minute and a question, in their order; a question is asked
        before what is said at its minute. A script has room for some; each part of them is asked
        by a run of its own."""
        order = sorted(range(len(asks)), key=lambda place: asks[place][0])
        replies, done, part = [None] * len(asks), 0, max(MOST_STEPS - len(self.lines), 1)
        while done < len(order):
            script, due, told_at, taken = self.script([asks[place] for place in order[done:]], part)
            status, told = run([self.tool, 'run', self.policy], script)
            if status == 9 and taken > 1:
                part = taken // 2
                continue
            self.look(status, told, due)
            for place, at in zip(order[done:done + taken], told_at):
                replies[place] = told[at]
            done += taken
        return replies

    def script(self, asks, part):
        """The text, the replies due with their lines, the places of the replies that are asked for,
        and how many these are."""
        out, due, places, now, said, size = ['@ ' + self.born], [], [], self.born, 0, 64
        def say(minute, line):
            nonlocal now, size
            if minute != now:
                now = minute
                out.append('@ ' + minute)
                size += 19
            out.append(line)
            size += len(line) + 1
        for minute, question in asks[:part]:
            while said < len(self.lines) and self.lines[said][0] < minute:
                at, line, reply, number = self.lines[said]
                say(at, line)
                due.append((reply, number))
                said += 1
            if size > MOST_SCRIPT - 1200:
                break
            places.append(len(due))
            due.append((None, None))
            say(minute, question)
        if not places:
            raise Unread('what changed something in the log has no room in a script')
        return '\n'.join(out) + '\n', due, places, len(places)

    @staticmethod
    def look(status, told, due):
        """The replies to what the log has must be those of the log."""
        for (reply, number), got in zip(due, told):
            if reply is not None and reply != got:
                raise Differs(number, got, reply)
        if status == 7:
            number = due[len(told) - 1][1] if len(told) <= len(due) else None
            raise Differs(number, told[-1], 'a reply') if number else Unread(told[-1])
        if status != 0:
            raise Unread('`gtrbac run` ends with %d: %s' % (status, ' / '.join(told[-1:])))


# Logs.

PLACE = re.compile(rb'[0-7]\.[1-9][0-9]{0,5}')
NAME = re.compile(rb'[A-Za-z][A-Za-z0-9_.-]{0,31}|-')
VERBS = {b'now', b'status', b'event', b'request', b'open', b'close', b'activate', b'deactivate',
         b'active', b'check'}
CHANGES = {b'open', b'close', b'activate', b'deactivate', b'request'}


def shown(text):
    return text.decode(errors='replace')


def is_request(text):
    """Whether a log can have the text as a request: a known verb, one space between words."""
    words = text.split()
    return b' '.join(words) == text and words[0] in VERBS and words[-2:] != [b'after', b'0']


def is_seen(known, word, right):
    """Whether the word is right, which is looked at once."""
    if word not in known:
        if not right(word):
            return False
        known.add(word)
    return True


def lasts(entry):
    """Whether what comes later depends on the request: it neither only asks nor was refused."""
    return entry[1].split(b' ', 1)[0] in CHANGES and not entry[2].startswith(b'refused')


class Log:
    """The birth and the entries of a log, a triple each: (None, to, bound) of a step of time, and
    (actor, request, reply) of a request. The entry at place n, from 0, stands in line n + 2. With
    `placed` each has its worker and connection behind it."""

    def __init__(self, data, placed=False):
        lines = data.split(b'\n')
        self.cut_off = lines.pop() != b''
        self.views = None
        if lines and lines[-1].startswith(b'views: '):
            self.views = shown(lines.pop())
        if not lines:
            raise Unread('the log has no whole line')
        words = lines[0].split(b' ')
        if len(words) != 2 or words[0] != b'born':
            raise Unread('line 1 does not begin a log: %s' % shown(lines[0]))
        self.places, self.minutes, self.actors, self.requests = set(), set(), set(), set()
        self.words, self.born = {}, words[1]
        self.minute(self.born, 1)
        self.entries = [self.entry(number, line, placed)
                        for number, line in enumerate(lines[1:], 2)]

    def line(self, place):
        actor, first, second = self.entries[place][:3]
        if actor is None:
            return b'tick to %s bound %s' % (first, second)
        return b'%s %s = %s' % (actor, first, second)

    def minute(self, word, number):
        if not is_seen(self.minutes, word, is_minute_of_log):
            raise Unread('line %d has no minute: %s' % (number, shown(word)))

    def entry(self, number, line, placed):
        if line.startswith(b'ask '):
            head, cut, reply = line.partition(b' = ')
            words = head.split(b' ', 3)
            if (cut and len(words) == 4 and reply
                    and is_seen(self.places, words[1], PLACE.fullmatch)
                    and is_seen(self.actors, words[2], NAME.fullmatch)
                    and is_seen(self.requests, words[3], is_request)):
                # a word that comes often is kept once
                once = self.words.setdefault
                found = once(words[2], words[2]), once(words[3], words[3]), once(reply, reply)
                return found + (words[1],) if placed else found
        elif line.startswith(b'tick '):
            words = line.split(b' ')
            if (len(words) == 6 and words[2] == b'to' and words[4] == b'bound'
                    and is_seen(self.places, words[1], PLACE.fullmatch)):
                self.minute(words[3], number)
                self.minute(words[5], number)
                return (None, words[3], words[5]) + ((words[1],) if placed else ())
        raise Unread('line %d is no line of a log: %s' % (number, shown(line)))


def is_minute_of_log(word):
    return word.isascii() and is_minute(word.decode())


def policy_beside(log):
    """The policy that a start wrote beside its log, or None."""
    name = log + '.policy'
    return name if os.path.exists(name) else None


def bound_policy(asker, given, log):
    """The policy to read a log with: the one given, which must be the one beside the log where
    there is one; else that one."""
    beside = policy_beside(log)
    if given is None and beside is None:
        raise Unread('no policy is given, and none stands beside the log, at %s.policy' % log)
    if beside is not None:
        if is_other_digest(beside):
            raise OtherPolicy('%s is not as it was written: its digest is another one' % beside)
        if given is not None and asker.canonical(given) != asker.canonical(beside):
            raise OtherPolicy('the log is of another policy, %s' % beside)
    return given or beside


class OtherPolicy(Exception):
    """Why a log can't be read with a policy."""


def digest_of(name):
    import hashlib
    found = hashlib.sha256()
    with open(name, 'rb') as file:
        for piece in iter(lambda: file.read(1 << 20), b''):
            found.update(piece)
    return found.hexdigest()


def is_other_digest(name):
    """Whether a file has another digest than stands beside it."""
    try:
        with open(name + '.sha256', encoding='ascii') as file:
            return file.read().split()[:1] != [digest_of(name)]
    except (FileNotFoundError, UnicodeDecodeError):
        return False
