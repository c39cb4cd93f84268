"""The file of tables: its keys, what they are at first, and what is wrong with them."""
import ipaddress
import re
import tomllib

from . import shares
from .base import NAME, Fault
from .face import tls_context
from .papers import readable_by_all
from .questions import Template, are_roles

FILE = {'limits': {}, 'shares': {}, 'log': {}, 'house': {}, 'listen': []}
LIMITS = {'callers': 4000, 'each': 1000, 'unix': 500, 'early': 256, 'idle': 600, 'lifetime': 43200,
          'patience': 5, 'reply': 10, 'sessions': 5000, 'body': 262144, 'bodies': 33554432}
LOG = {'file': '', 'journal': False, 'log_required': False}
HOUSE = {'at': [], 'views': [], 'links': 1, 'server': [], 'admins': [], 'reserve': 50_000,
         'reserve_sessions': 500, 'watcher': '', 'policy': ''}
PLACE = {'house': '', 'face': '', 'unix': '', 'tls': '', 'tcp': '', 'mode': 0o666,
         'certificate': '', 'key': '', 'ca': '', 'crl': ''}
FACES = {
    'lines': PLACE | {'users': {}, 'verbs': []},
    'authzen': PLACE | {'callers': [], 'token': '', 'anybody': False, 'url': '',
                        'permission': '{action.name}-{resource.type}', 'permissions': {},
                        'subject_type': 'user', 'subjects': {}, 'same_names': False, 'roles': {},
                        'assigned': False, 'keep': 300, 'decisions': 'log'},
    'health': PLACE | {'callers': []}}


VERBS = ('now', 'status', 'event', 'active', 'check', 'open', 'close', 'activate', 'deactivate',
         'request')


def words(table, where, keys):
    """The values of the keys, those that stand there at first where the table has none; a key that
    is none, or a value of another kind than at first, is a fault."""
    if not isinstance(table, dict):
        raise Fault('%s is no table' % where)
    for key, value in table.items():
        if key not in keys:
            raise Fault('%s: %s is no key' % (where, key))
        if type(value) is not type(keys[key]) or type(value) is int and value < 0:
            raise Fault('%s: %s has a value of another kind' % (where, key))
    return {key: table.get(key, value) for key, value in keys.items()}


def are_names(values, where):
    for value in values:
        if not isinstance(value, str) or not NAME.fullmatch(value):
            raise Fault('%s: %r is no name' % (where, value))


def leads_to_names(table, where):
    for key, value in table.items():
        are_names([value], '%s: %s' % (where, key))


def is_place(text, where):
    """A path, or HOST:PORT."""
    host, colon, port = text.rpartition(':')
    if not colon or not re.fullmatch('[0-9]{1,5}', port) or int(port) > 65535:
        raise Fault('%s%r is no HOST:PORT' % (where, text))
    return host.strip('[]')


def house_table(name, table):
    where = 'house %s' % name
    if isinstance(table, dict) and isinstance(table.get('server'), str):
        table = table | {'server': [table['server']]}
    told = words(table, where, HOUSE)
    for key in ('at', 'views', 'server'):
        if not told['links'] or set(map(type, told[key])) - {str}:
            raise Fault('%s: %s is no list of texts, or links is 0' % (where, key))
    if not told['at']:
        raise Fault('%s: at is no list of places' % where)
    if not told['server']:
        raise Fault('%s: server is missing: the account whose process answers there' % where)
    for account in told['server']:
        if not re.fullmatch('uid:[0-9]{1,10}|[a-z_][a-z0-9_.-]*', account):
            raise Fault('%s: server: %r is neither an account nor uid:N' % (where, account))
    for place in told['at'] + told['views']:
        if not place.startswith('/'):
            host = is_place(place, '')
            if not re.fullmatch(r'127(\.[0-9]{1,3}){3}', host):
                raise Fault('%s: %s: who answers there can\'t be seen; a server of this machine is '
                            'at 127.0.0.1:PORT or a Unix socket' % (where, place))
    are_names(told['admins'], where + ': admins')
    are_names([told['watcher']] if told['watcher'] else [], where + ': watcher')
    return told


def share_table(table):
    told = words(table, 'shares', {'user': {}, 'caller': {}})
    return {kind: words(told[kind], 'shares.' + kind, first)
            for kind, first in (('user', shares.USER), ('caller', shares.CALLER))}


def face_table(table, where, houses):
    if not isinstance(table, dict) or table.get('face') not in FACES:
        raise Fault('%s: face is none of %s' % (where, ', '.join(FACES)))
    told = words(table, where, FACES[table['face']])
    if told['house'] not in houses and (told['face'] != 'health' or told['house']):
        raise Fault('%s: house %r is none' % (where, told['house']))
    kinds = [kind for kind in ('unix', 'tls', 'tcp') if told[kind]]
    if len(kinds) != 1:
        raise Fault('%s: one of unix, tls and tcp must be there' % where)
    if kinds[0] != 'unix':
        host = is_place(told[kinds[0]], '')
        if kinds[0] == 'tcp' and told['face'] != 'lines' and not is_loopback(host):
            raise Fault('%s: tcp is plain, so it must be on the loopback address' % where)
    if kinds[0] == 'tls':
        tls_context(told, where)
    if told['face'] == 'lines':
        if kinds[0] == 'tcp':
            raise Fault('%s: lines need unix or tls, where callers are known' % where)
        leads_to_names(told['users'], where + ': users')
        for verb in told['verbs']:
            if verb not in VERBS:
                raise Fault('%s: verbs: %r is no request' % (where, verb))
    elif told['face'] == 'authzen':
        authzen_table(told, where, houses[told['house']])
    return told


def is_loopback(host):
    try:
        return ipaddress.ip_address(host).is_loopback
    except ValueError:
        return False


def authzen_table(told, where, house):
    if not re.fullmatch(r'https://[^/?#\s]+[^?#\s]*(?<!/)', told['url']):
        raise Fault('%s: url is not https://.. without ?, # and a / at its end' % where)
    if told['tcp'] and not told['token'] and not told['anybody']:
        raise Fault('%s: tcp needs a token, or anybody = true' % where)
    if told['decisions'] not in ('log', 'view'):
        raise Fault('%s: decisions is neither log nor view' % where)
    if told['decisions'] == 'view' and not (house['views'] and house['watcher']):
        raise Fault('%s: decisions by viewers need views and watcher of the house' % where)
    if told['assigned'] and not house['policy']:
        raise Fault('%s: assigned roles need the policy of the house' % where)
    told['secret'] = secret(told['token'], where) if told['token'] else b''
    leads_to_names(told['subjects'], where + ': subjects')
    leads_to_names(told['permissions'], where + ': permissions')
    for user, roles in told['roles'].items():
        if not are_roles(roles):
            raise Fault('%s: roles: %s: no list of names' % (where, user))
    Template(told['permission'], where)


def secret(path, where):
    try:
        with open(path, 'rb') as file:
            token = file.read().strip()
    except OSError as fault:
        raise Fault('%s: token: %s' % (where, fault)) from fault
    if len(token) < 16:
        raise Fault('%s: token: the file has less than 16 bytes' % where)
    return token


class Tables:
    """A file, read and looked through."""

    def __init__(self, path):
        with open(path, 'rb') as file:
            told = words(tomllib.load(file), 'the file', FILE)
        self.limits = words(told['limits'], 'limits', LIMITS)
        self.shares = share_table(told['shares'])
        self.log = words(told['log'], 'log', LOG)
        if self.log['file'] and self.log['journal']:
            raise Fault('log: either a file or the journal')
        if self.log['log_required'] and not (self.log['file'] or self.log['journal']):
            raise Fault('log: log_required needs a file or the journal')
        self.houses = {name: house_table(name, table) for name, table in told['house'].items()}
        self.faces = [face_table(table, 'listen %d' % number, self.houses)
                      for number, table in enumerate(told['listen'], 1)]
        if not self.faces:
            raise Fault('nobody is listened to')
        places = [place_of(face) for face in self.faces]
        for number, place in enumerate(places, 1):
            if place in places[:number - 1]:
                raise Fault('listen %d: %s is another one\'s place' % (number, place[1]))

    def warnings(self):
        """What is no fault, and yet an operator should know."""
        for number, face in enumerate(self.faces, 1):
            where = 'listen %d' % number
            for key in ('key', 'token'):
                if face.get(key) and readable_by_all(face[key]):
                    yield '%s: %s: %s can be read by each account' % (where, key, face[key])
            if face['tls'] and not face['crl']:
                yield '%s: without a crl no certificate can be revoked' % where
            if face['face'] == 'authzen' and 'resource.id' not in face['permission']:
                yield ('%s: permission: resource.id decides nothing: who may read a chart may read '
                       'each' % where)
        taken = [place for house in self.houses.values() for place in house['at']]
        for place in sorted(set(place for place in taken if taken.count(place) > 1)):
            yield '%s: two houses are there' % place
        if not self.log['file'] and not self.log['journal']:
            yield 'log: nothing is written of who asked what'


def place_of(face):
    kind = next(kind for kind in ('unix', 'tls', 'tcp') if face[kind])
    return ('unix' if kind == 'unix' else 'port'), face[kind]
