"""What tests share of days that are played to a room: random messages of the terminals of the
example's room, at moments in order, their answers, and the rows of the room after them."""
import contextlib
import datetime
import io
import json
import random
import sqlite3
import subprocess
import sys

from room import PROGRAM, TOP, message

sys.path.append(str(TOP / 'examples' / 'three'))
import digest  # noqa: E402

HOURS = 3600
DAYS = 24 * HOURS
# Midnight of a Monday in March 2026, in winter time, which is UTC: summer time begins on the 29th.
MONDAY = 1_774_224_000
TOKENS = {'A1': 'crewofa1', 'A2': 'crewofa2', 'A3': 'crewofa3', 'B1': 'crewofb1', 'C1': 'crewofc1'}
DESKS = {1: 'deskone1', 2: 'desktwo2'}
BUTTONS = ['position', 'mobile', 'scene', 'leave', 'hospital', 'return', 'home']


def day(moment):
    """The day of a moment of winter time."""
    return datetime.datetime.fromtimestamp(moment, datetime.timezone.utc).strftime('%Y-%m-%d')


def tables_of(file):
    """The rows of each table, as dictionaries."""
    with contextlib.closing(digest.opened(file)) as room:
        room.row_factory = sqlite3.Row
        return {table: [dict(row) for row in room.execute(f'SELECT * FROM {table} ORDER BY {key}')]
                for table, key in digest.TABLES.items()}


class Sender:
    """Random messages of the terminals of the example's room, with numbers that go on."""

    def __init__(self, seed):
        self.random = random.Random(seed)
        self.serial = 0
        self.numbers = dict.fromkeys(TOKENS, 0)
        self.incidents = 3

    def place(self):
        east, north = self.random.choice([30, 60]), 80
        return f'TQ{east}{self.random.randrange(10)}{north}{self.random.randrange(10)}'

    def incident(self):
        self.incidents += self.random.random() < 0.1
        return self.random.randint(max(1, self.incidents - 12), self.incidents)

    def call(self):
        self.serial += 1
        return self.call_of(self.serial)

    def call_of(self, serial):
        body = {'class': self.random.randint(1, 3), 'needs': [1, 0, 0], 'note': '',
                'place': self.place(), 'serial': serial}
        return 'takerone', 'POST /call', body

    def report(self):
        vehicle = self.random.choice(list(TOKENS))
        self.numbers[vehicle] += 1
        return self.report_of(vehicle, self.numbers[vehicle])

    def report_of(self, vehicle, number):
        body = {'button': self.random.choice(BUTTONS), 'number': number,
                'order': self.random.randint(0, 6), 'place': self.place()}
        return TOKENS[vehicle], 'POST /report', body

    def desk(self):
        desk = DESKS[self.random.choice([1, 1, 1, 2])]
        number, vehicle = self.incident(), self.random.choice(list(TOKENS))
        until = 4_000_000_000
        return desk, *self.random.choice([
            (f'POST /incidents/{number}/mobilise', {'vehicle': vehicle}),
            (f'POST /incidents/{number}/mobilise', {'vehicle': vehicle}),
            (f'POST /incidents/{number}/close', None),
            (f'POST /incidents/{number}/close', None),
            (f'POST /incidents/{number}/merge', {'into': self.incident()}),
            (f'POST /incidents/{number}/needs', {'needs': [2, 0, 0]}),
            (f'GET /incidents/{number}/propose', None),
            ('GET /incidents', None), ('GET /queue', None), ('GET /vehicles', None),
            (f'POST /vehicles/{vehicle}/duty', {'place': self.place(), 'until': until}),
            (f'POST /vehicles/{vehicle}/standdown', None),
            (f'POST /vehicles/{vehicle}/lend', {'to': self.random.choice([1, 2]), 'until': until}),
            (f'POST /vehicles/{vehicle}/accept', None),
            (f'POST /vehicles/{vehicle}/giveback', None),
            (f'POST /queue/{vehicle}/{self.random.randint(1, 9)}/clear', None),
            ('POST /points/1', {'cover': 1, 'place': self.place()}),
            (f'POST /vehicles/{vehicle}/standby', {'point': self.random.choice([1, None])})])

    def next(self):
        return self.random.choices([self.call, self.report, self.desk], [1, 2, 5])[0]()


def entry(moment, token, line, body):
    """An entry of a list, without a status."""
    text = message(token, line, '' if body is None else json.dumps(body))
    return b'message %d %d\n%b\n' % (moment, len(text), text)


def play(room, events, *words):
    """Plays events to a room, each at its moment; gives the answers to them."""
    text = digest.head_of(room).encode() + b''.join(entry(*it) for it in events)
    done = subprocess.run([PROGRAM, 'replay', room, '--answers', *words], input=text,
                          capture_output=True, timeout=300)
    assert (done.returncode, done.stderr) == (0, b''), done.stderr
    stream, found = io.BytesIO(done.stdout), []
    while line := stream.readline():
        _, status, length = line.split()
        body = stream.read(int(length)).partition(b'\r\n\r\n')[2]
        found.append((int(status), body.decode()))
        stream.read(1)
    assert len(found) == len(events), f'{len(found)} answers of {len(events)}'
    return found


def days_of(sender, begin, end, count):
    """Events of a sender at moments in order."""
    moments = sorted(sender.random.randrange(begin, end) for _ in range(count))
    return [(moment, *sender.next()) for moment in moments]
