"""`GET /times/DAY/classes` and the searches of `GET /closed/..`, in a room that is served with
--history: scripts of rows/closed are played to a room of the example's plan and fleet, and its
answers are compared. Pages of more incidents than one has are worked out here. The lines of the
classes add up to the times of the day. These questions change nothing, and by default their paths
are none."""
# needs: python3 gcc libc6-dev sqlite3
# builds: dispatch_room
import json
import re
import subprocess

from played_scripts import ScriptTestCase
from room import PROGRAM, dump
from scripts import ROWS, Message, messages

SCRIPTS = sorted((ROWS / 'closed').glob('*.rows'))
CLASSES = re.compile('(/times/[^/]+)/classes')
NO_PATH = '{"error":"NoPath","number":36}'
ANY = '~ 200 {'
DAY = '/closed/1970-01-01'
PLACE = [540000, 180000]  # TQ400800
MOST = 100  # incidents of a page


def is_asked(it):
    """Whether a message asks for times by class or searches."""
    return it.path.startswith('/closed') or CLASSES.fullmatch(it.path) is not None


def is_counted(it):
    """Whether a message is answered the times by class."""
    return it.method == 'GET' and it.status == '200' and CLASSES.fullmatch(it.path) is not None


def with_times(asked):
    """Messages, each that is answered the times by class followed by one that asks for all times of
    the day."""
    for it in asked:
        yield it
        if is_counted(it):
            day = CLASSES.fullmatch(it.path)[1]
            yield Message(f'{it.moment} {it.token} GET {day}', ANY)


def sums(counted):
    """What times by class come to together."""
    lines = counted['classes']
    return [counted['from'], counted['to'],
            *(sum(line[name] for line in lines) for name in ('opened', 'activated', 'within'))]


def totals(times):
    return [times['from'], times['to'], len(times['incidents']), times['activated'],
            times['within']]


# ---- a day with more incidents than a page has


class Day:
    """The messages of a day of the first division on which incidents come one after another, and
    which of them a search finds. Each is opened at the moment of its number."""

    def __init__(self):
        self.asked, self.count = [], 0
        self.over, self.sent = {}, set()
        self.ask('POST /vehicles/A1/duty {"place":"TQ400800","until":86399}')

    def ask(self, line, token='deskone1', wanted=ANY):
        self.asked.append(Message(f'{max(1, self.count)} {token} {line}', wanted))

    def open(self, place='TQ400800'):
        self.count += 1
        self.ask(f'POST /call {{"class":2,"needs":[1,0,0],"note":"","place":"{place}",'
                 f'"serial":{self.count}}}', 'takerone')

    def close(self, first_order=None):
        self.ask(f'POST /incidents/{self.count}/close')
        self.over[self.count] = {
            'class': 2, 'first_order': first_order, 'into': None, 'needs': [1, 0, 0],
            'number': self.count, 'opened': self.count, 'place': PLACE}

    def send(self):
        """A1 is sent to the incident that was opened last, and stood down."""
        self.ask(f'POST /incidents/{self.count}/mobilise {{"vehicle":"A1"}}')
        self.ask('POST /vehicles/A1/standdown')
        self.sent.add(self.count)

    def page(self, search, among, first):
        """Asks for the page of a search from a number on, where it finds these numbers. Gives the
        first number of the next page, where there is one."""
        found = [self.over[it] for it in sorted(among) if it >= first]
        after = found[MOST]['number'] if len(found) > MOST else None
        content = json.dumps({'incidents': found[:MOST], 'next': after}, separators=(',', ':'))
        self.ask(f'GET {DAY}{search}/from/{first}', wanted=f'= 200 {content}')
        return after

    def pages(self, search, among):
        """Asks for all pages of a search, one after another."""
        first = 1
        while first is not None:
            first = self.page(search, among, first)


def small_day():
    """A hundred incidents, and then one more: they are one page, and then two."""
    day = Day()
    for many in (100, 101):
        while day.count < many:
            day.open()
            day.close()
        for search in ('', '/near/TQ400800/1'):
            day.pages(search, day.over)
    for first in (2, 100, 101, 102):
        day.page('', day.over, first)
    return day.asked


def large_day():
    """Three pages of incidents, to every second of which A1 was sent. After every seventh one comes
    another elsewhere, which stays active."""
    day = Day()
    while len(day.over) < 2 * MOST + 5:
        day.open()
        if day.count % 2:
            day.send()
        day.close(day.count if day.count % 2 else None)
        if len(day.over) % 7 == 0:
            day.open(f'TQ{100 + 3 * (day.count - len(day.over))}500')
    for search, among in [('', day.over), ('/vehicle/A1', day.sent & set(day.over)),
                          ('/near/TQ400800/1', day.over), ('/vehicle/A2', []),
                          ('/near/TQ4000180000/1', day.over), ('/near/TQ4000280000/1', [])]:
        day.pages(search, among)
    return day.asked


class Closed(ScriptTestCase):
    def test_scripts(self):
        self.check_scripts(SCRIPTS, '--history')

    def test_pages(self):
        """A page has a hundred incidents at most, and the pages together all that are found, each
        once."""
        for what, asked in [('a hundred and one', small_day()), ('three pages', large_day())]:
            got, _ = self.play(asked, '--history')
            done = {answer.head.split(' ')[1] for answer in got}
            self.check(f'{what}: all is done', done, {'200'})
            for it, answer in zip(asked, got):
                if is_asked(it):
                    self.check(f'{what}: {it.path}', answer.content, it.content)

    def test_sums(self):
        """The lines of the classes come to what the times of the day come to."""
        for path in SCRIPTS:
            asked = list(with_times(messages(path)))
            got, _ = self.play(asked, '--history')
            for it, answer, after in zip(asked, got, got[1:]):
                if is_counted(it):
                    counted, times = json.loads(answer.content), json.loads(after.content)
                    self.check(f'{path.name}: {it.line}', sums(counted), totals(times))

    def test_nothing_changes(self):
        """The room is the same without the questions."""
        for path in SCRIPTS:
            asked = messages(path)
            rest = [it for it in asked if not is_asked(it)]
            self.check(f'{path.name}: questions', len(rest) < len(asked), True)
            rows = self.play(asked, '--history')[1]
            self.check(path.name, rows, self.play(rest, '--history')[1])

    def test_by_default(self):
        for path in SCRIPTS:
            asked = messages(path)
            got, rows = self.play(asked)
            answered, rows_after = self.play(asked, '--history')
            self.check(f'{path.name}: the rows', rows, rows_after)
            none = {answer.content for it, answer in zip(asked, got)
                    if is_asked(it) and it.method != 'HEAD'}
            self.check(f'{path.name}: no path', none, {NO_PATH})
            rest = [at for at, it in enumerate(asked) if not is_asked(it)]
            self.check(f'{path.name}: all else', [got[at] for at in rest],
                       [answered[at] for at in rest])

    def test_replay(self):
        """A list with searches leads to the same rows again."""
        for path in SCRIPTS:
            journal, asked = self.folder / f'{path.stem}.list', messages(path)
            rows = self.play(asked, '--history', '--journal', str(journal))[1]
            room = self.fresh(self.room)
            done = subprocess.run([PROGRAM, 'replay', room, '--history'],
                                  input=journal.read_bytes(), capture_output=True, timeout=180)
            self.check(f'{path.name}: replayed', (done.returncode, done.stderr.decode()), (0, ''))
            self.check(f'{path.name}: the rows', dump(room), rows)
