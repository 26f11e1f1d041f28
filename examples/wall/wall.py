#!/usr/bin/env python3
"""Shows a served room on a wall: a page in the browser with the map of its divisions and their
queues. It is not proved. It only gets, one connection a request and never two at once, at most
every two seconds and only while a page is open. The plan has the tokens of the desks; they stay in
here.

  wall.py 127.0.0.1:8080 plan.csv          all divisions that have a desk
  wall.py 127.0.0.1:8080 plan.csv 1 2      these

The page is then at http://127.0.0.1:8081/."""
import argparse
import csv
import json
import os
import pathlib
import sys
import threading
import time
import urllib.parse

from exceptions import Exceptions
from room_lists import NoAnswer, get
from page_server import KINDS, Page, PageServer, Refused, area_of, loopback

HERE = pathlib.Path(__file__).resolve().parent

READ_EVERY = 2.0  # seconds between two readings of the room, from start to start
PAGE_WAITS = 1.0  # seconds that a page waits for a reading
ASKED_OF_A_DESK = 'vehicles', 'incidents', 'points', 'queue'

# ---- the words of the command line


def words():
    parser = argparse.ArgumentParser(prog='wall.py', description=__doc__,
                                     formatter_class=argparse.RawDescriptionHelpFormatter)
    parser.add_argument('room', metavar='ADDRESS', type=loopback, help='where the room is served')
    parser.add_argument('plan', metavar='PLAN', type=pathlib.Path, help="the plan's file")
    parser.add_argument('divisions', metavar='DIVISION', nargs='*', type=int,
                        help='a division to show, if not all of the plan')
    parser.add_argument('--listen', metavar='ADDRESS', type=loopback, default='127.0.0.1:8081',
                        help='where the page is served (%(default)s)')
    return parser, parser.parse_args()


class Plan:
    """The areas of a plan's file, the rule of its time zone, and a desk's token by division."""

    def __init__(self, path):
        try:
            with path.open(encoding='utf-8', newline='') as file:
                rows = list(csv.DictReader(file))
            self.zone = next(row['a'] for row in rows if row['what'] == 'zone')
            self.areas = [area_of(row) for row in rows if row['what'] == 'area']
            self.desks = {int(row['number']): row['a'] for row in rows if row['what'] == 'desk'}
        except (OSError, ValueError, KeyError, TypeError, StopIteration):
            raise Refused(f'{path} is no plan') from None
        if path.stat().st_mode & 0o077:
            print(f'{path} has tokens, and others may read it: chmod 600', file=sys.stderr)

    def tokens_of(self, divisions):
        """The token of a desk for each division that is shown: all, if none is named."""
        for division in divisions:
            if division not in self.desks:
                raise Refused(f'the plan has no desk of division {division}')
        shown = {it: self.desks[it] for it in divisions or self.desks}
        if not shown:
            raise Refused('the plan has no desk')
        return shown


# ---- reading the room


class Desk:
    """A desk of the room, as far as the wall asks for it."""

    def __init__(self, room, division, token):
        self.room, self.division, self.token = room, division, token
        self.exceptions = Exceptions()

    def read(self):
        """What the desk sees, and when. The answers are of moments close to each other."""
        seen = {'division': self.division}
        for what in ASKED_OF_A_DESK:
            seen[what], seen['moment'] = get(self.room, self.token, what)
        self.exceptions.explain(seen['queue'], self.reports_of)
        return seen

    def reports_of(self, vehicle):
        path = f'vehicles/{urllib.parse.quote(vehicle, safe="")}/reports'
        return get(self.room, self.token, path)[0]


class Reader(threading.Thread):
    """Reads the room whenever a page wants it, but not within two seconds of the last time, and
    keeps the last whole picture. It is the only thread that speaks to the room."""

    def __init__(self, room, tokens):
        super().__init__(daemon=True)
        self.desks = [Desk(room, *it) for it in sorted(tokens.items())]
        self.changed = threading.Condition()
        self.is_wanted = False
        self.began = float('-inf')
        self.readings = 0
        self.picture = self.fault = None
        self.taken, self.since = time.monotonic(), int(time.time())

    def run(self):
        while True:
            with self.changed:
                self.changed.wait_for(lambda: self.is_wanted)
                self.is_wanted, self.began = False, time.monotonic()
            try:
                self.keep([it.read() for it in self.desks])
            except NoAnswer as error:
                self.keep(None, str(error))

    def keep(self, picture, fault=None):
        """Ends a reading. The last picture stays where the room gave no other."""
        with self.changed:
            if picture is not None:
                self.picture, self.taken, self.since = picture, self.began, int(time.time())
            self.fault = fault
            self.readings += 1
            self.changed.notify_all()

    def latest(self):
        """The last whole picture with its age in seconds and its moment. A new one is read, and
        waited for a while, where the last reading is two seconds ago."""
        with self.changed:
            if time.monotonic() - self.began >= READ_EVERY:
                self.is_wanted = True
                self.changed.notify_all()
                before = self.readings
                self.changed.wait_for(lambda: self.readings != before, PAGE_WAITS)
            return {'age': round(time.monotonic() - self.taken, 3), 'since': self.since,
                    'fault': self.fault, 'desks': self.picture}


# ---- serving the page

FILES = ['wall.html', 'wall.css', 'wall.js', 'ground.js', 'key.js', 'map.js', 'marks.js',
         'nodes.js', 'pages.js', 'places.js', 'queues.js', 'ranks.js', 'urgent.js', 'words.js']

def offset_now():
    """Seconds that the plan's zone, which is this process's, is ahead of UTC."""
    return time.localtime().tm_gmtoff


class WallPage(Page):
    """Answers a page: the files of this folder that are named above, and the last picture."""

    def do_GET(self):
        if not self.is_named_so():
            self.answer(403, 'text/plain', b'This wall is shown on loopback only.\n')
        elif self.path == '/picture':
            picture = self.server.reader.latest()
            picture |= {'areas': self.server.areas, 'offset': offset_now(), 'now': int(time.time())}
            self.answer(200, 'application/json', json.dumps(picture).encode())
        elif self.path in self.server.files:
            self.answer(200, *self.server.files[self.path])
        else:
            self.answer(404, 'text/plain', b'There is no such page.\n')


class Wall(PageServer):
    """The page's server, which has the picture from the reader."""

    def __init__(self, address, reader, areas):
        super().__init__(address, WallPage)
        self.reader, self.areas = reader, areas
        self.files = {f'/{it.name}': (KINDS[it.suffix], it.read_bytes())
                      for it in map(HERE.joinpath, FILES)}
        self.files['/'] = self.files['/wall.html']


def main():
    parser, found = words()
    try:
        plan = Plan(found.plan)
        reader = Reader(found.room, plan.tokens_of(found.divisions))
        wall = Wall(found.listen, reader, plan.areas)
    except (Refused, OSError) as error:
        parser.error(str(error))
    os.environ['TZ'] = plan.zone
    time.tzset()
    reader.start()
    wall.serve('wall')


if __name__ == '__main__':
    main()
