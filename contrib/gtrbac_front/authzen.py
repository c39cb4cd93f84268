"""The face that speaks the OpenID AuthZEN Authorization API 1.0."""
import asyncio
import hmac
import time

from .base import MOST_ROLES, NAME, NO_ROOM, Wrong, now
from .questions import Question, Template, look_at, look_at_context, look_at_part, parsed, several
from .record import as_json, instant
from .sessions import GONE, Sessions, Told
from .shares import Payer
from .web import WebFace

ONE, SEVERAL = '/access/v1/evaluation', '/access/v1/evaluations'
ACTIONS, METADATA = '/access/v1/search/action', '/.well-known/authzen-configuration'
ANSWERS = ('permit by ', 'deny ', 'refused no-user', 'refused no-session', 'refused not-yours',
           'bad name')


class Authzen(WebFace):
    def set(self, table):
        super().set(table)
        self.template = Template(table['permission'], self.where)
        if not self.sessions:
            self.sessions = Sessions(self.house)
        self.sessions.keep, self.sessions.most = table['keep'], self.limits['sessions']
        self.view = table['decisions'] == 'view'
        self.listed = {user: tuple(dict.fromkeys(roles)) for user, roles in table['roles'].items()}
        url = table['url']
        self.base = '/' + url.split('/', 3)[3] if url.count('/') > 2 else ''
        self.hosts = {'localhost', '127.0.0.1', '[::1]', url.split('/')[2].split(':')[0].lower()}
        self.searches = bool(self.house.table['views'] and self.house.table['policy'])

    def known(self, names):
        if self.kind == 'tcp':
            return ''
        return next((name for name in names if name in self.table['callers']), None)

    def counts(self, caller):
        """Over plain HTTP a connection counts once its token was there, and is early until then."""
        if self.kind == 'tcp' and self.table['secret']:
            self.begins(caller)
            return True
        return super().counts(caller)

    # ---- What a head can show

    def judge(self, request, caller):
        """Which of the requests it is, by the head alone: by that of the request before where it
        is the same one, and the tables are."""
        if request.judged and request.judged[0] is self.table:
            return request.judged[1]
        path = request.path
        if self.base and path.startswith(self.base + '/'):
            path = path.removeprefix(self.base)
        if self.kind == 'tcp' and self.table['anybody']:
            host = request.said(b'host').rsplit(':', 1)[0].lower()
            if request.newer and host not in self.hosts:
                raise Wrong('the header Host names another place', 421)
        if path in (METADATA, METADATA + self.base):
            if request.method != 'GET':
                raise Wrong('GET alone is answered here', 405, 'Allow: GET')
            return METADATA
        if path not in (ONE, SEVERAL) and (path != ACTIONS or not self.searches):
            raise Wrong('nothing is here', 404)
        if request.method != 'POST':
            raise Wrong('POST alone is answered here', 405, 'Allow: POST')
        self.judge_token(request, caller)
        kind = request.headers.get(b'content-type', b'').split(b';')[0].strip().lower()
        if kind != b'application/json':
            raise Wrong('Content-Type is not application/json', 415)
        request.judged = self.table, path
        return path

    def judge_token(self, request, caller):
        if self.table['secret']:
            given = request.headers.get(b'authorization', b'')
            scheme, _, token = given.partition(b' ')
            if not (hmac.compare_digest(token.strip(), self.table['secret'])
                    and scheme.lower() == b'bearer'):
                self.refused.tell('the token is wrong or missing: %s', caller.address)
                raise Wrong('the bearer token is wrong or missing', 401, 'WWW-Authenticate: Bearer')
        if self.early.pop(caller, None) and not super().counts(caller):
            self.refused.tell('no room: %s', caller.address)
            raise Wrong('no room', 503)

    async def answer(self, talk, request, caller):
        kind = self.judge(request, caller)
        if kind == METADATA:
            return self.metadata()
        if self.front.record.bars():
            raise Wrong('the decision log can\'t be written', 503)
        began = time.perf_counter()
        asked, plain = parsed(self.came(talk, request) or await self.body(talk, request, caller))
        if kind == ACTIONS:
            return await self.search(asked, request, caller)
        items, semantic = several(asked) if kind == SEVERAL else ([], None)
        if items:
            told = await self.evaluations(items, semantic, request, caller)
        else:
            if not plain:
                look_at(asked)
            told = await self.evaluation(asked, request, caller)
        self.front.metrics.count_time(self, time.perf_counter() - began)
        return told

    def metadata(self):
        url = self.table['url']
        told = {'policy_decision_point': url, 'access_evaluation_endpoint': url + ONE,
                'access_evaluations_endpoint': url + SEVERAL}
        return told | ({'search_action_endpoint': url + ACTIONS} if self.searches else {})

    # ---- Evaluations

    async def evaluation(self, asked, request, caller):
        self.take(caller, 1)
        question = self.understand(asked, caller)
        if question.answer is None and question.fault is None:
            await self.ask_group(*question.key(), [question], caller)
        told = self.decision(question)
        self.record([question], [told], request, caller)
        if question.fault:
            raise question.fault
        return told

    async def evaluations(self, items, semantic, request, caller):
        self.take(caller, len(items))
        questions = [self.read(item, caller) for item in items]
        if semantic == 'execute_all':
            await self.ask(questions, caller)
            told = [self.decision(question) for question in questions]
        else:
            told = await self.one_by_one(questions, semantic, caller)
        self.record(questions[:len(told)], told, request, caller)
        return {'evaluations': told}

    async def one_by_one(self, questions, semantic, caller):
        """To the first permit, or the first denial. Where the server does not answer one, the
        others are not asked."""
        told, gone, last = [], None, semantic == 'permit_on_first_permit'
        for question in questions:
            if gone:
                question.fault = question.fault or gone
            else:
                await self.ask([question], caller)
            told.append(self.decision(question))
            if question.fault and question.fault.status == 503:
                gone = question.fault
            if told[-1]['decision'] == last:
                break
        return told

    def take(self, caller, number):
        """Takes so many decisions from the caller's share."""
        if caller.share is None:
            caller.share = self.house.shares.of('caller', caller.user or self.place)
        if not caller.share.decisions.take(number, now()):
            raise Wrong('no room', 429)

    def payer(self, caller, user):
        payer = caller.payers.get(user)
        if payer is None:
            if len(caller.payers) > 1000:
                caller.payers.clear()
            share = self.house.shares.of('user', user)
            payer = caller.payers[user] = Payer([share, caller.share])
        return payer

    def read(self, item, caller):
        """One of several: its fault is its own."""
        try:
            look_at(item)
            return self.understand(item, caller)
        except Wrong as fault:
            question = Question(item)
            question.fault = fault
            return question

    def understand(self, asked, caller):
        """The user, the permission and the session that are meant."""
        question, table = Question(asked), self.table
        subject, context = asked['subject'], asked.get('context', {})
        user = self.user(subject)
        if user is None:
            question.answer = 'unknown subject'
            return question
        question.user = user
        if not self.payer(caller, user).shares[0].decisions.take(1, now()):
            question.fault = Wrong('no room', 429)
        filled = self.template.fill(asked)
        permission = table['permissions'].get(filled)
        if permission is None and filled is not None and NAME.fullmatch(filled):
            permission = filled
        if permission is None:
            question.answer = 'unknown permission'
            return question
        question.permission = permission
        question.session, question.run = context.get('session'), context.get('run')
        if question.session is None:
            question.roles = self.roles(user, context)
        return question

    def user(self, subject):
        """The user that the subject stands for; None where it stands for none."""
        name, table = subject['id'], self.table
        if subject['type'] != table['subject_type']:
            return None
        user = table['subjects'].get(name)
        if user is None and table['same_names'] and NAME.fullmatch(name):
            return name
        return user

    def roles(self, user, context):
        """Those of the context, else of the tables, else of the policy where it may be asked."""
        roles = context.get('roles', self.listed.get(user))
        if roles is None and self.table['assigned']:
            roles = self.house.told_by_policy()[1].get(user, [])[:MOST_ROLES]
        if roles is None:
            roles = self.listed.get('*', ())
        return roles if type(roles) is tuple else tuple(dict.fromkeys(roles))

    async def ask(self, questions, caller):
        """Asks what the server has to answer: in one piece for each session that is meant."""
        groups = {}
        for question in questions:
            if question.answer is None and question.fault is None:
                groups.setdefault(question.key(), []).append(question)
        asks = [self.ask_group(*key, group, caller) for key, group in groups.items()]
        if len(asks) == 1:
            await asks[0]
        elif asks:
            await asyncio.gather(*asks)

    async def ask_group(self, user, session, run, roles, group, caller):
        payer = self.payer(caller, user)
        permissions = [question.permission.encode() for question in group]
        if session is None:
            told = await self.sessions.check(user.encode(), roles, permissions, payer, self.view)
        else:
            told = await self.check_in(user.encode(), session, run, permissions, payer)
        for place, question in enumerate(group):
            question.reply, question.number = told.replies[place].decode(), told.number
            question.run, question.became = told.run, told.became
            question.by = 'viewer' if told.view else 'worker'
            question.twice = place in told.twice
            if not question.reply.startswith(ANSWERS):
                status = 429 if told.replies[place] == NO_ROOM else 503
                question.fault = Wrong(question.reply, status)

    async def check_in(self, user, session, run, permissions, payer):
        """In a session that the caller names. Of another run it would be another's by its number.
        """
        mark = self.house.mark
        if run not in (None, mark):
            return Told([GONE[0]] * len(permissions), session, mark)
        lines = [b'check %d %b' % (session, permission) for permission in permissions]
        for view in (True, False) if self.view else (False,):
            replies = await self.sessions.asked(user, lines, self.house.run, payer, view)
            if replies is None:
                return Told([GONE[0]] * len(permissions), session, mark)
            if not view or not any(reply in GONE for reply in replies):
                break
        return Told(replies, session, mark, view=view)

    def decision(self, question):
        """The answer to one. A permit stands for a permit of the server alone."""
        if question.fault:
            error = {'status': question.fault.status, 'message': str(question.fault)}
            return {'decision': False, 'context': {'error': error}}
        if question.answer:
            told = {'reason': question.answer}
            return {'decision': False,
                    'context': told | ({'user': question.user} if question.user else {})}
        reply = question.reply
        permits = reply.startswith('permit by ')
        told = {'reason': reply, 'user': question.user, 'permission': question.permission}
        if question.number is not None:
            told['session'], told['run'] = question.number, question.run
        if permits:
            told['roles'] = reply.split(' ')[2].split('>')
        elif reply.startswith('deny shut '):
            told['edge'] = reply.split(' ')[2].split('>')
        if question.became and not permits:
            told['activations'] = question.became
        return {'decision': permits, 'context': told}

    # ---- Which actions

    async def search(self, asked, request, caller):
        """Which actions the subject may take on the resource now: each of the policy's permissions
        that some action fills for it is asked of a viewer, and no history is spent."""
        for part, fields in (('subject', ('type', 'id')), ('resource', ('type', 'id'))):
            look_at_part(asked, part, fields)
        context = asked.get('context', {})
        look_at_context(context)
        user, found = self.user(asked['subject']), []
        if user is not None:
            table = self.table['permissions']
            texts = dict.fromkeys([*self.house.told_by_policy()[0], *table])
            pairs = self.template.actions(texts, asked['resource'])
            self.take(caller, max(1, len(pairs)))
            found = await self.permitted(pairs, user, context, caller)
        told = {'results': [{'name': action} for action in found]}
        if self.front.record and not self.front.record.write([self.line(
                request, caller, asked, None, None, [('user', user), ('actions', found)])]):
            raise Wrong('the decision log can\'t be written', 503)
        return told

    async def permitted(self, pairs, user, context, caller):
        table = self.table['permissions']
        permissions = [table.get(text, text).encode() for _, text in pairs]
        if not permissions:
            return []
        payer = self.payer(caller, user)
        if 'session' in context:
            told = await self.check_in(user.encode(), context['session'], context.get('run'),
                                       permissions, payer)
        else:
            told = await self.sessions.check(user.encode(), self.roles(user, context), permissions,
                                             payer, True)
        for reply in told.replies:
            if not reply.decode().startswith(ANSWERS):
                raise Wrong(reply.decode(), 429 if reply == NO_ROOM else 503)
        return list(dict.fromkeys(action for (action, _), reply in zip(pairs, told.replies)
                                  if reply.startswith(b'permit by ')))

    # ---- The decision log

    def record(self, questions, told, request, caller):
        """Writes and counts the decisions, before they are answered."""
        lines = []
        for question, answer in zip(questions, told):
            reason = answer['context'].get('reason') or str(question.fault)
            self.front.metrics.count_decision(self, answer['decision'], reason)
            if self.front.record:
                run = question.by and question.run      # the one in which it was asked
                lines.append(self.line(request, caller, question.asked, run, answer['decision'], [
                    ('user', question.user), ('permission', question.permission),
                    ('reason', reason), ('session', question.number), ('by', question.by),
                    ('twice', question.twice or None)]))
        if lines and not self.front.record.write(lines):
            raise Wrong('the decision log can\'t be written', 503)

    def line(self, request, caller, asked, run, decision, more):
        def part(name):
            value = asked.get(name)
            return {key: value.get(key) for key in ('type', 'id')} if type(value) is dict else None

        action = asked.get('action')
        return as_json([
            ('time', instant()), ('house', self.house.name), ('run', run or self.house.mark),
            ('face', 'authzen'), ('address', caller.address), ('caller', caller.names),
            ('request_id', request.id), ('subject', part('subject')),
            ('action', action.get('name') if type(action) is dict else None),
            ('resource', part('resource')), ('decision', decision), *more])
