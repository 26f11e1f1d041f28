"""A day by the three pages at once, by keys and clicks, as examples/day.sh shows it: the tables are
afterwards those of the day by curl, but for moments and for where a crew's numbers begin."""
# needs: chromium chromium-driver curl sqlite3
# builds: dispatch_room
import contextlib
import os
import shutil
import sqlite3
import subprocess
import time

from browser import Line, of_module, until
from pages import companion, sign_in, time_of
from room import (FLEET, PATIENT, PLAN, PROGRAM, TOP, TestCase, free_port, run, serving, sql)

MOMENT = 1_000_000_000  # no other number of a day is as great
BROWSER = None


def setUpModule():
    global BROWSER
    BROWSER = of_module(1366, 768)


# ---- tables


def tables(file):
    """The rows of each table by its name, without what differs from one day to the next."""
    with contextlib.closing(sqlite3.connect(file)) as it:
        it.row_factory = sqlite3.Row
        schema = it.execute("SELECT name FROM sqlite_schema WHERE type = 'table'")
        names = [row['name'] for row in schema]
        found = {name: [dict(row) for row in it.execute(f'SELECT * FROM "{name}"')]
                 for name in names}
    count_reports(found)
    return {name: sorted(map(timeless, rows)) for name, rows in found.items()}


def timeless(row):
    return str({name: 'T' if isinstance(it, int) and it >= MOMENT else it
                for name, it in row.items()})


def count_reports(found):
    """Numbers a crew's reports from 1. Where a page begins its numbers is its own affair."""
    numbers = {}
    for it in sorted(found['reports'], key=lambda row: row['number']):
        own = numbers.setdefault(it['callsign'], [])
        own.append(it['number'])
        it['number'] = len(own)
    for it in found['vehicles']:
        if it['last_report']:
            it['last_report'] = 1 + numbers[it['callsign']].index(it['last_report'])


def day_by_curl(folder):
    """Plays examples/day.sh with the program that is built; gives the file of its room."""
    shutil.copytree(TOP / 'examples', folder / 'examples', ignore=lambda at, names: [
        it for it in names if (TOP / 'examples' / it).is_dir()])
    (folder / 'day').mkdir()
    path = f'{PROGRAM.parent}:{os.environ["PATH"]}'
    subprocess.run([folder / 'examples' / 'day.sh', folder / 'day', str(free_port())], check=True,
                   stdin=subprocess.DEVNULL, capture_output=True, timeout=300,
                   env=os.environ | {'PATH': path})
    return folder / 'day' / 'room.db'


# ---- what a desk does by keys


def said(words):
    """Waits until a list of the allocator's page says so; gives what they say."""
    until(lambda: any(words in it for it in BROWSER.texts('.said')))
    return ' '.join(filter(None, BROWSER.texts('.said')))


def listed(name, words):
    """Waits until a list has a line with these words."""
    return until(lambda: any(words in it for it in BROWSER.texts(f'.{name} .lines li')))


def select(vehicle):
    """Goes to a vehicle's line by its callsign."""
    BROWSER.press('/')
    fill(vehicle)
    until(lambda: not BROWSER.is_shown('.drawer'))


def fill(*values):
    """Fills the fields of the form from the first on, and sends it."""
    until(lambda: BROWSER.is_shown('.drawer'))
    for nth, it in enumerate(values):
        BROWSER.press(*(['Tab'] if nth else []), 'Control+a')
        BROWSER.type(it)
    BROWSER.press('Enter')


def clock_in(seconds):
    return time.strftime('%H:%M', time.localtime(time.time() + seconds))


class Shift(TestCase):
    def setUp(self):
        super().setUp()
        self.file = self.folder / 'room.db'
        run('init', self.file, PLAN)
        run('import', self.file, FLEET)
        self.stack = self.enterContext(contextlib.ExitStack())
        room_port, _ = self.stack.enter_context(
            serving(self.file, 99999, *PATIENT, '--history'))
        port = free_port()
        self.enterContext(companion(room_port, listen=f'127.0.0.2:{port}'))
        self.line = self.enterContext(Line(('127.0.0.2', port), port))
        # A browser keeps one terminal of a kind for each name, so two names are two machines.
        self.one, self.two = f'http://localhost:{port}/', f'http://127.0.0.2:{port}/'

    def tab(self, address, kind, token):
        """Signs a terminal in, in a tab of its own; gives the tab."""
        tab = BROWSER.tab('about:blank')
        self.check(f'{token} is signed in', sign_in(BROWSER, address, kind, token), True)
        return tab

    def tabs(self):
        """The terminals of the day, each in its tab."""
        self.taker = self.tab(self.one, 'taker', 'takerone')
        self.check('nobody is asked for the last serial', BROWSER.is_shown('#start'), False)
        self.desk = self.tab(self.one, 'desk', 'deskone1')
        self.other_desk = self.tab(self.two, 'desk', 'desktwo2')
        self.crew = self.tab(self.one, 'crew', 'crewofa3')
        self.other_crew = self.tab(self.two, 'crew', 'crewofa1')

    def test_day(self):
        self.tabs()
        self.begin_shifts()
        self.take_calls()
        self.send()
        self.lend()
        self.bring_back()
        history = self.read_history()
        self.stack.close()
        self.check_history(*history)
        wanted, got = tables(day_by_curl(self.folder)), tables(self.file)
        self.check('the same tables', sorted(got), sorted(wanted))
        for name in wanted:
            self.check(f'as by curl: {name}', got[name], wanted[name])
        self.check('a day was played', [len(wanted[it]) for it in ('calls', 'reports', 'turns')],
                   [2, 4, 1])

    def check_history(self, head, *rows):
        """An incident's page has its calls with their notes, and its turn, as the tables do."""
        self.check('it is closed', ', closed; opened' in head, True)
        for row, note in zip(rows, ['a fall', 'man down'], strict=False):
            self.check(f'the note of {note}', note in row, True)
        moments = sql(self.file, 'SELECT ordered, scene, ended FROM turns').split('|')
        self.check('its turn', [time_of(int(it)) in rows[2] for it in moments], 3 * [True])

    def begin_shifts(self):
        """Three vehicles come on duty, for an hour."""
        for tab, vehicle, place in [(self.desk, 'A1', 'TQ303804'), (self.desk, 'A3', 'TQ300801'),
                                    (self.other_desk, 'B1', 'TQ600800')]:
            BROWSER.turn_to(tab)
            self.check(f'{vehicle} is listed', listed('vehicles', vehicle), True)
            select(vehicle)
            BROWSER.press('d')
            fill(clock_in(3600), place)
            self.check(f'{vehicle} on duty', f'{vehicle} is on duty.' in said('on duty.'), True)

    def take_calls(self):
        """Two calls about the same, while the line breaks at the first one."""
        BROWSER.turn_to(self.taker)
        self.line.cut(after=1500)
        self.call('TQ300800', 'a fall')
        time.sleep(2)
        self.line.mend()
        self.check('a first call', self.answer('NEW'), ['NEW', 'Division 1, incident 1'])
        self.call('TQ302800', 'man down')
        self.check('a second one is linked', self.answer('LINKED')[0], 'LINKED')

    def call(self, place, note):
        BROWSER.click('#place')
        BROWSER.type(place)
        BROWSER.press('Tab', '2', 'Tab', 'Tab', 'Tab', 'Tab')
        BROWSER.type(note)
        BROWSER.press('Enter')

    def answer(self, wanted):
        until(lambda: BROWSER.text('#answer').startswith(wanted))
        return BROWSER.text('#answer').split('\n')[:2]

    def send(self):
        """The desk sends the first that is proposed, by two keys; its crew goes there."""
        BROWSER.turn_to(self.desk)
        self.check('the incident is listed', listed('incidents', 'Incident 1'), True)
        BROWSER.press('3', 'Home', 'Enter')
        self.check('A3 is proposed first', until(lambda: 'A3' in BROWSER.text('.drawer')), True)
        BROWSER.press('Enter')
        self.check('it is sent', 'A3 is sent to incident 1: order 1.' in said('is sent'), True)
        BROWSER.turn_to(self.crew)
        self.check('the order', until(lambda: 'Order 1' in BROWSER.text('#order')), True)
        self.press('mobile', 'TQ300801', 'mobilised')
        self.line.cut(after=1500)
        self.press('scene', 'TQ300800', 'at scene')

    def press(self, button, place, status):
        """A button at a place that is typed, once its answer came."""
        BROWSER.click('#hand')
        BROWSER.type(place)
        BROWSER.click(f'[data-button={button}]:enabled')
        time.sleep(2)
        self.line.mend()
        words = f'Taken: you are {status}'
        self.check(f'{button} is taken', until(
            lambda: any(words in it for it in BROWSER.texts('#reports li')[:1])), True)

    def lend(self):
        """A1 is offered, and accepted; then only the other desk may say what it does."""
        BROWSER.turn_to(self.desk)
        select('A1')
        BROWSER.press('l')
        fill('2', clock_in(1800))
        self.check('it is offered', 'A1 is offered to division 2.' in said('offered'), True)
        BROWSER.turn_to(self.other_desk)
        self.check('the offer is listed', listed('loans', 'A1'), True)
        BROWSER.press('6', 'Home', 'a')
        self.check('it is accepted', 'A1 is lent to this division.' in said('lent'), True)
        BROWSER.turn_to(self.desk)
        self.check('the loan is listed', listed('loans', 'A1'), True)
        BROWSER.press('6', 'Home', 'f')
        if BROWSER.is_shown('.drawer'):
            BROWSER.press('Enter')
        refused = 'The vehicle is lent to another division. (4)'
        self.check('refused in words', until(
            lambda: refused in BROWSER.text('main')), True)
        BROWSER.press('Escape')

    def bring_back(self):
        """A1 is recalled and comes home; A3 returns, and the incident is closed."""
        BROWSER.press('6', 'Home', 'r')
        fill()
        self.check('it is recalled', 'A1 is recalled.' in said('recalled'), True)
        BROWSER.turn_to(self.other_crew)
        self.press('home', 'TQ303804', 'available')
        BROWSER.turn_to(self.crew)
        self.press('return', 'TQ300800', 'returning')
        BROWSER.turn_to(self.desk)
        BROWSER.press('3', 'Home', 'c')
        fill()
        self.check('it is closed', 'Incident 1 is closed.' in said('closed'), True)

    def read_history(self):
        """What the closed incident's own page says: its head, its calls and its turn."""
        BROWSER.press('i')
        fill('1')
        until(lambda: len(BROWSER.texts('#incident tbody tr')) == 3)
        found = [BROWSER.text('#incident p'), *BROWSER.texts('#incident tbody tr')]
        BROWSER.press('Escape')
        return found
