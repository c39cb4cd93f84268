"""For whoever watches the front: whether it lives, whether it can answer, and what it counted."""
from bisect import bisect_left
from collections import Counter

from prometheus_client import CollectorRegistry, generate_latest
from prometheus_client.core import (CounterMetricFamily, GaugeMetricFamily,
                                    HistogramMetricFamily)

from .base import Wrong
from .house import CLOCKS_APART
from .shares import MOST_ENTRIES
from .web import WebFace

BOUNDS = (0.001, 0.002, 0.005, 0.01, 0.02, 0.05, 0.1, 0.2, 0.5, 1.0, 2.0, 5.0)
NOT_READY = 95                  # percent of a history at which a house is full


class Metrics:
    """What is counted while the front answers. A registry asks for it when somebody reads it."""

    def __init__(self, front):
        self.front = front
        self.lines, self.decisions = Counter(), Counter()
        self.times, self.sums = {}, Counter()
        self.registry = CollectorRegistry()
        self.registry.register(self)

    def count_lines(self, face, replies):
        for reply in replies:
            if reply:
                self.lines[face.house.name, reply.split(b' ', 1)[0].decode('latin-1')] += 1

    def count_decision(self, face, decision, reason):
        kind = 'permit' if decision else ' '.join(reason.split(' ')[:2])
        self.decisions[face.house.name, kind] += 1

    def count_time(self, face, seconds):
        name = face.house.name
        if name not in self.times:
            self.times[name] = [0] * (len(BOUNDS) + 1)
        self.times[name][bisect_left(BOUNDS, seconds)] += 1
        self.sums[name] += seconds

    def collect(self):
        yield from self.counters()
        yield self.latency()
        yield from self.houses()
        yield from self.places()

    def counters(self):
        lines = CounterMetricFamily('gtrbac_front_lines', 'Lines that were answered, by the first '
                                    'word of the reply', labels=['house', 'reply'])
        for key, number in self.lines.items():
            lines.add_metric(key, number)
        decisions = CounterMetricFamily('gtrbac_front_decisions', 'Evaluations that were answered',
                                        labels=['house', 'reason'])
        for key, number in self.decisions.items():
            decisions.add_metric(key, number)
        refused = CounterMetricFamily('gtrbac_front_refused', 'Connections and tokens that were '
                                      'refused', labels=['place'])
        for face in self.front.faces:
            refused.add_metric([face.place], face.refused.total)
        lost = CounterMetricFamily('gtrbac_front_log_lost', 'Lines of the decision log that could '
                                   'not be written')
        lost.add_metric([], self.front.record.lost)
        return lines, decisions, refused, lost

    def latency(self):
        family = HistogramMetricFamily('gtrbac_front_answer_seconds', 'From the head of a request '
                                       'to its answer', labels=['house'])
        for name, counts in self.times.items():
            total, buckets = 0, []
            for bound, number in zip((*map(str, BOUNDS), '+Inf'), counts):
                total += number
                buckets.append((bound, total))
            family.add_metric([name], buckets, self.sums[name])
        return family

    def houses(self):
        gauges = {
            'up': ('Whether a worker answers', lambda house: house.is_served()),
            'connections': ('Connections to the server',
                            lambda house: sum(link.stays() for link in house.links)),
            'run_lines': ('Lines sent to workers in this run', lambda house: house.sent),
            'filled_ratio': ('How full the history may be by these lines',
                             lambda house: house.filled() / MOST_ENTRIES),
            'open_sessions': ('Sessions opened through here',
                              lambda house: len(house.shares.opened)),
            'clock_minutes': ('Minutes that the server\'s clock is before this one',
                              lambda house: house.apart or 0)}
        for name, (text, value) in gauges.items():
            family = GaugeMetricFamily('gtrbac_front_' + name, text, labels=['house'])
            for house in self.front.houses.values():
                family.add_metric([house.name], float(value(house)))
            yield family

    def places(self):
        callers = GaugeMetricFamily('gtrbac_front_callers', 'Connections of callers',
                                    labels=['place'])
        for face in self.front.faces:
            callers.add_metric([face.place], len(face.callers))
        days = GaugeMetricFamily('gtrbac_front_days_left', 'Days until a certificate or a list of '
                                 'revoked ones ends', labels=['file'])
        for path, left in self.front.papers.days_left().items():
            days.add_metric([path], left)
        return callers, days


class Health(WebFace):
    def known(self, names):
        if self.kind == 'tcp':
            return ''
        if self.kind == 'unix':
            return names[0]
        return next((name for name in names if name in self.table['callers']), None)

    def troubles(self):
        """Why the front is not ready to answer, in words."""
        found = []
        for house in self.front.houses.values():
            if not house.is_served():
                found.append('%s: no server' % house.name)
            elif 100 * house.filled() >= NOT_READY * MOST_ENTRIES:
                found.append('%s: the history is almost full' % house.name)
            if abs(house.apart or 0) > CLOCKS_APART:
                found.append('%s: the clocks are %+d minutes apart' % (house.name, house.apart))
        if self.front.record.failed:
            found.append('the decision log can\'t be written')
        found += ['%s has ended' % path for path, left in self.front.papers.days_left().items()
                  if left <= 0]
        return found

    async def answer(self, talk, request, caller):
        if request.path not in ('/healthz', '/readyz', '/metrics'):
            raise Wrong('nothing is here', 404)
        if request.method != 'GET':
            raise Wrong('GET alone is answered here', 405, 'Allow: GET')
        await self.body(talk, request, caller)
        if request.path == '/metrics':
            return generate_latest(self.front.metrics.registry)
        if request.path == '/readyz' and (found := self.troubles()):
            raise Wrong('\n'.join(found), 503)
        return 'ready' if request.path == '/readyz' else 'alive'
