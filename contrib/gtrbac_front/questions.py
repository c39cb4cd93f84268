"""What a request of AuthZEN asks: its form, and the user, the permission and the session it means.
"""
import json
import re

from .base import MOST_ROLES, MOST_SESSION, NAME, Fault, Wrong

MOST_EVALUATIONS = 1000         # in one request
MOST_TEXT = 1024                # characters of an id, a type or a name
PARTS = {'subject': ('type', 'id'), 'action': ('name',), 'resource': ('type', 'id')}
SEMANTICS = ('execute_all', 'deny_on_first_deny', 'permit_on_first_permit')


def once(pairs):
    """An object without a key that stands twice: two readers would see two requests."""
    told = dict(pairs)
    if len(told) != len(pairs):
        raise Wrong('a key stands twice in an object')
    return told


def no_number(text):
    raise Wrong('%s is no number of JSON' % text)


decoder = json.JSONDecoder(object_pairs_hook=once, parse_constant=no_number)
quicker = json.JSONDecoder(parse_constant=no_number)


def decoded(text):
    """What the text says, and whether it is known to be a plain request. Eight keys and five texts
    have 26 quotation marks where none is escaped: where a plain request is read of these, no key
    stands twice."""
    if text.count('"') == 26 and '\\' not in text:
        try:
            asked, end = quicker.raw_decode(text)
        except ValueError:
            end = None
        if end == len(text) and type(asked) is dict and len(asked) == 3 and is_plain(asked):
            return asked, True
    return decoder.decode(text), False


def parsed(body):
    """The request, and whether it has its form for certain."""
    try:
        asked, plain = decoded(body.decode())
    except (ValueError, RecursionError) as fault:
        raise Wrong('the body is no JSON: %s' % fault) from fault
    if not isinstance(asked, dict):
        raise Wrong('the body is no object')
    return asked, plain


def are_roles(roles):
    return isinstance(roles, list) and len(roles) <= MOST_ROLES and all(
        isinstance(role, str) and NAME.fullmatch(role) for role in roles)


def look_at_part(asked, part, fields):
    """Whether a part is there and has its form; `fields` are those that it must have."""
    value = asked.get(part)
    if type(value) is not dict:
        raise Wrong('%s is %s' % (part, 'no object' if part in asked else 'missing'))
    for field in fields:
        text = value.get(field)
        if type(text) is not str:
            raise Wrong('%s.%s is %s' % (part, field, 'no string' if field in value else 'missing'))
        if len(text) > MOST_TEXT:
            raise Wrong('%s.%s has more than %d characters' % (part, field, MOST_TEXT))
    if type(value.get('properties', PARTS)) is not dict:
        raise Wrong('%s.properties is no object' % part)


def look_at_context(context):
    if type(context) is not dict:
        raise Wrong('context is no object')
    if not context:
        return
    session, roles = context.get('session', 0), context.get('roles', [])
    if type(session) is not int or not 0 <= session <= MOST_SESSION:
        raise Wrong('context.session is no number of a session')
    if not are_roles(roles):
        raise Wrong('context.roles is no list of at most %d names' % MOST_ROLES)
    if 'session' in context and 'roles' in context:
        raise Wrong('context has both session and roles')
    if type(context.get('run', '')) is not str or 'run' in context and 'session' not in context:
        raise Wrong('context.run is no text that stands beside a session')


def is_plain(asked):
    """Whether a request has what it must have and nothing else, as most do."""
    try:
        subject, action, resource = asked['subject'], asked['action'], asked['resource']
        text = ''.join((subject['type'], subject['id'], action['name'], resource['type'],
                        resource['id']))
    except (KeyError, TypeError):
        return False
    return (len(text) <= MOST_TEXT and len(subject) == 2 and len(action) == 1
            and len(resource) == 2 and 'context' not in asked
            and type(subject) is dict and type(action) is dict and type(resource) is dict)


def look_at(asked):
    """Whether the parts have their form; what is wrong with one."""
    if not is_plain(asked):
        for part, fields in PARTS.items():
            look_at_part(asked, part, fields)
        look_at_context(asked.get('context', {}))


def look_at_defaults(asked):
    for part in PARTS:
        if part in asked:
            look_at_part(asked, part, ())
    look_at_context(asked.get('context', {}))


def several(asked):
    """The evaluations of a request, over its defaults, and its semantic; none where it is one."""
    items = asked.get('evaluations', [])
    if not isinstance(items, list) or len(items) > MOST_EVALUATIONS:
        raise Wrong('evaluations is no list of at most %d requests' % MOST_EVALUATIONS)
    if not items:
        return [], None
    options = asked.get('options', {})
    if not isinstance(options, dict):
        raise Wrong('options is no object')
    semantic = options.get('evaluations_semantic', SEMANTICS[0])
    if semantic not in SEMANTICS:
        raise Wrong('options.evaluations_semantic is none of its three values')
    look_at_defaults(asked)
    for place, item in enumerate(items):
        if not isinstance(item, dict):
            raise Wrong('evaluations[%d] is no object' % place)
    defaults = {key: asked[key] for key in (*PARTS, 'context') if key in asked}
    return [defaults | item for item in items], semantic


class Template:
    """How a permission is called: a text with fields of action and resource in braces."""
    known = [('action', 'name'), ('resource', 'type'), ('resource', 'id')]

    def __init__(self, text, where):
        parts = re.split(r'\{([^{}]*)\}', text)
        self.texts, self.fields = parts[::2], [tuple(field.split('.')) for field in parts[1::2]]
        if any(field not in self.known for field in self.fields):
            raise Fault('%s: permission: the fields are action.name, resource.type, resource.id'
                        % where)
        if '' in self.texts[1:-1]:
            raise Fault('%s: permission: a text must stand between two fields' % where)

    def fill(self, asked):
        """The filled text; None where other fields would fill it alike."""
        filled, last = self.texts[0], len(self.fields)
        for place, (part, key) in enumerate(self.fields, 1):
            value, behind = asked[part][key], self.texts[place]
            if place < last and (value + behind).find(behind) != len(value):
                return None
            filled += value + behind
        return filled

    def actions(self, texts, resource):
        """Of these texts, those that some action fills for the resource: the action and the text.
        """
        shape = ''.join(
            re.escape(text) + ('' if field is None else '(.+)' if field[0] == 'action'
                               else re.escape(resource[field[1]]))
            for text, field in zip(self.texts, [*self.fields, None]))
        found = ((re.fullmatch(shape, text), text) for text in texts)
        pairs = [(match[1], text) for match, text in found if match and match.groups()]
        return [(action, text) for action, text in pairs
                if self.fill({'action': {'name': action}, 'resource': resource}) == text]


class Question:
    """One evaluation: whose it is, what is checked in which session, and what becomes of it."""
    user = permission = session = roles = run = None
    answer = fault = reply = number = became = by = None
    twice = False

    def __init__(self, asked):
        self.asked = asked

    def key(self):
        """What those have in common that are asked in one piece."""
        return self.user, self.session, self.run, self.roles
