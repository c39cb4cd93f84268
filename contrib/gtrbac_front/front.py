"""The whole: how it starts, reads its tables anew, and ends."""
import argparse
import asyncio
import gc
import os
import resource
import signal
import socket
import sys
import tomllib
from collections import Counter

import uvloop

from .authzen import Authzen
from .base import Fault, now, tell
from .health import Health, Metrics
from .house import House
from .lines import Lines
from .papers import Papers
from .record import Record
from .tables import Tables, place_of

FACES = {'lines': Lines, 'authzen': Authzen, 'health': Health}
ENDS = 3                        # seconds for the sessions that are closed at the end


class Front:
    def __init__(self, path):
        self.path, self.tasks, self.each, self.talks = path, set(), Counter(), set()
        self.houses, self.faces, self.bodies = {}, [], 0
        self.papers, self.kept = Papers(), {}
        self.metrics, self.record = Metrics(self), None
        self.set(Tables(path))

    def set(self, tables):
        """Takes the tables, at the start or anew. What stays where it was stays as it is: the
        connections of its callers, and those to its servers."""
        self.limits = tables.limits
        self.papers.read(tables.faces)
        if self.record and self.record.table == tables.log:
            self.record.reopen()
        else:
            if self.record:
                self.record.close()
            self.record = Record(tables.log)
        self.set_houses(tables)
        self.set_faces(tables)

    def set_houses(self, tables):
        for name in set(self.houses) - set(tables.houses):
            house = self.houses.pop(name)
            house.stop()
            self.unwatch(house)
        for name, table in tables.houses.items():
            if name in self.houses:
                self.houses[name].shares.bound(tables.shares)
                self.houses[name].set(table, self.limits)
            else:
                self.houses[name] = House(name, table, self.limits, tables.shares)

    def set_faces(self, tables):
        wanted, before = [], {place_of(face.table): face for face in self.faces}
        for number, table in enumerate(tables.faces, 1):
            where, kind = 'listen %d' % number, table['face']
            face = before.pop(place_of(table), None)
            if face and face.table['face'] != kind:
                self.drop(face)
                face = None
            if face and face.house is self.houses.get(table['house']):
                face.where = face.refused.where = where
                face.set(table)
            else:
                if face:
                    self.drop(face)
                face = FACES[kind](self, table, where)
            wanted.append(face)
        for face in before.values():
            self.drop(face)
        self.faces = wanted

    def drop(self, face):
        face.close()
        for caller in list(face.callers):
            caller.task.cancel()
        if face.sessions:
            self.unwatch(face.sessions)

    # ---- What goes on beside

    def watch(self):
        """Starts what is to go on and does not yet, and listens where nobody does yet."""
        for house in self.houses.values():
            house.start()
        sessions = [face.sessions for face in self.faces if face.sessions]
        for watched in (*self.houses.values(), *sessions, self):
            if watched not in self.kept:
                self.kept[watched] = asyncio.create_task(
                    self.look() if watched is self else watched.watch())
        for face in self.faces:
            if not face.listener:
                face.listen()

    def unwatch(self, watched):
        task = self.kept.pop(watched, None)
        if task:
            task.cancel()

    async def look(self):
        while True:
            await asyncio.sleep(1)
            at = now()
            for talk in list(self.talks):
                talk.look(at)
            for face in self.faces:
                face.look(at)
            self.papers.watch()

    def reload(self):
        """Reads the file anew. Where it has a fault all goes on as it was."""
        try:
            tables = Tables(self.path)
        except (Fault, OSError, tomllib.TOMLDecodeError) as fault:
            tell('%s: %s: all goes on as before', self.path, fault)
            return
        try:
            self.set(tables)
            self.watch()
        except (Fault, OSError) as fault:
            tell('%s: %s', self.path, fault)
        for face in self.faces:
            face.judge_anew()
        tell('the tables were read anew')

    # ---- The whole

    def take_files(self):
        """As many open files as the system lets it have; says where they are too few."""
        most = resource.getrlimit(resource.RLIMIT_NOFILE)[1]
        resource.setrlimit(resource.RLIMIT_NOFILE, (most, most))
        links = sum(len(house.links) for house in self.houses.values())
        due = self.limits['callers'] + self.limits['early'] * len(self.faces) + links + 64
        if most < due:
            tell('%d files may be open, and %d are due: callers may wait', most, due)

    async def run(self):
        # What is there from the start stays, and is not looked through for what can be thrown away.
        gc.freeze()
        gc.set_threshold(20_000, 20, 50)
        stop, loop = asyncio.Event(), asyncio.get_running_loop()
        for number in (signal.SIGTERM, signal.SIGINT):
            loop.add_signal_handler(number, stop.set)
        loop.add_signal_handler(signal.SIGHUP, self.reload)
        self.take_files()
        self.watch()
        tell('ready')
        notify(b'READY=1')
        ended = asyncio.create_task(stop.wait())
        while not ended.done():
            kept = [*self.kept.values(), *(task for house in self.houses.values()
                                           for _, task in house.kept)]
            done, _ = await asyncio.wait([ended, *kept], timeout=1,
                                         return_when=asyncio.FIRST_COMPLETED)
            for task in done - {ended}:
                if not task.cancelled():
                    task.result()
        await self.end()

    async def end(self):
        notify(b'STOPPING=1')
        for face in self.faces:
            face.close()
        for task in list(self.tasks):
            task.cancel()
        try:
            async with asyncio.timeout(ENDS):
                for face in self.faces:
                    if face.sessions:
                        await face.sessions.close(every=True)
        except TimeoutError:
            tell('sessions that were kept for subjects are left open')
        for house in self.houses.values():
            house.stop()
        for watched in list(self.kept):
            self.unwatch(watched)
        self.record.close()


def notify(text):
    """Tells systemd, where it asks for it."""
    where = os.environ.get('NOTIFY_SOCKET', '')
    if where:
        with socket.socket(socket.AF_UNIX, socket.SOCK_DGRAM) as to:
            to.sendto(text, where.replace('@', '\0', 1))


def check(path):
    """Says what an operator should know of the file. The status: 1 where something has ended."""
    tables, papers, status = Tables(path), Papers(), 0
    papers.read(tables.faces)
    for text in tables.warnings():
        tell('%s: note: %s', path, text)
    for ended, text in papers.warnings():
        tell('%s: %s', path, text)
        status = max(status, int(ended))
    return status


async def start(path):
    await Front(path).run()


def main():
    given = argparse.ArgumentParser(description='A front of gtrbacd that knows its callers.')
    given.add_argument('--check', action='store_true', help='read the tables and say what is wrong')
    given.add_argument('tables')
    given = given.parse_args()
    try:
        if given.check:
            sys.exit(check(given.tables))
        uvloop.install()
        asyncio.run(start(given.tables))
    except (Fault, OSError, tomllib.TOMLDecodeError) as fault:
        tell('%s: %s', given.tables, fault)
        sys.exit(1)
