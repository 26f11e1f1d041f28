"""`renew` from outside: which rows a new room has is worked out here, from the tables of the old
one as Python's sqlite3 reads them, for random rooms that several days were played to. The old room
stays byte for byte; what is refused makes no new one; and what is played to both rooms afterwards
is answered alike, but for what speaks of what stayed behind."""
# needs: python3 sqlite3
# builds: dispatch_room
import datetime
import json
import pathlib
import re
import resource
import shutil
import subprocess

from journals import head_of, records
from played_days import (DAYS, DESKS, HOURS, MONDAY, TOKENS, Sender, day, days_of, play,
                         tables_of)
from room import FLEET, PATIENT, PLAN, PROGRAM, TestCase, ask, call, made, run, serving, sql

ROOMS = 12
EVENTS = 400

REFUSED_DAY = (1, '', 'refused: day\n')
REFUSED_FILE = (1, '', 'refused: file\n')
STORAGE = (3, '', 'storage\n')


# ---- what a new room has


def incident_key(row):
    return row['division'], row['incident']


def left(rows, since):
    """Of the rows of a room those that stay behind: the incidents by division and number, the calls
    by position and serial, the reports by callsign and number."""
    last = {}
    for call in rows['calls']:
        last[call['position']] = max(last.get(call['position'], 0), call['serial'])
    called = {incident_key(call) for call in rows['calls']
              if call['moment'] >= since or call['serial'] == last[call['position']]}
    incidents = {(it['division'], it['number']) for it in rows['incidents']
                 if it['state'] != 0 and it['opened'] < since} - called
    calls = {(it['position'], it['serial']) for it in rows['calls']
             if incident_key(it) in incidents}
    newest = {it['callsign']: it['last_report'] for it in rows['vehicles']}
    reports = {(it['callsign'], it['number']) for it in rows['reports']
               if it['moment'] < since and (it['cleared'] or it['outcome'] == 0)
               and it['number'] != newest[it['callsign']]}
    return incidents, calls, reports


def without(behind, rows):
    """The rows, but for those that stay behind."""
    incidents, calls, reports = behind
    return rows | {
        'incidents': [it for it in rows['incidents']
                      if (it['division'], it['number']) not in incidents],
        'calls': [it for it in rows['calls'] if (it['position'], it['serial']) not in calls],
        'turns': [it for it in rows['turns'] if incident_key(it) not in incidents],
        'reports': [it for it in rows['reports']
                    if (it['callsign'], it['number']) not in reports]}


def renewed(rows, since):
    """The rows of the new room."""
    return without(left(rows, since), rows)


def line_of(rows):
    tables = ['incidents', 'calls', 'turns', 'reports']
    return f'renewed: {", ".join(f"{it} {len(rows[it])}" for it in tables)}\n'


def last_moment(rows):
    moments = [it['moment'] for table in ['calls', 'reports'] for it in rows[table]]
    return max([*moments, *(it['ordered'] for it in rows['turns'])], default=0)


class RenewTestCase(TestCase):
    def played(self, name, seed, count=EVENTS):
        """A room that five days were played to, and who sent them."""
        room = self.folder / name
        run('init', room, PLAN)
        run('import', room, FLEET)
        sender = Sender(seed)
        play(room, days_of(sender, MONDAY, MONDAY + 5 * DAYS, count))
        return room, sender


# ---- which rows


class Rows(RenewTestCase):
    def new_of(self, old, since):
        return self.folder / f'{old.stem}-{since}.db'

    def check_rows(self, what, old, since):
        """The new room has just the rows that are worked out here."""
        new = self.new_of(old, since)
        before, rows = old.read_bytes(), tables_of(old)
        wanted = renewed(rows, since)
        self.check(f'{what}: renew', run('renew', old, new, '--since', day(since)),
                   (0, line_of(wanted), ''))
        self.check(f'{what}: the old room stays byte for byte', old.read_bytes(), before)
        self.check(f'{what}: the rows', tables_of(new), wanted)
        self.check(f'{what}: it is sound', run('check', new)[0::2], (0, ''))
        self.check(f'{what}: it is private', oct(new.stat().st_mode & 0o777), '0o600')
        return rows, wanted

    def test_random_rooms(self):
        behind = 0
        for seed in range(ROOMS):
            old, _ = self.played(f'{seed}.db', seed)
            end = last_moment(tables_of(old))
            for since in range(MONDAY, end - 2 * DAYS + 1, DAYS):
                rows, wanted = self.check_rows(f'room {seed} since {day(since)}', old, since)
                behind += len(rows['incidents']) - len(wanted['incidents'])
        self.check('some incidents stay behind', behind > ROOMS, True)

    def test_new_room_again(self):
        """A room that was renewed is renewed since the same day: nothing more stays behind."""
        old, _ = self.played('twice.db', 99)
        since = MONDAY + 2 * DAYS
        rows, once = self.check_rows('once', old, since)
        self.check('less than all', len(once['incidents']) < len(rows['incidents']), True)
        _, twice = self.check_rows('twice', self.new_of(old, since), since)
        self.check('as much', twice, once)

    def test_day_in_summer(self):
        """A day begins by the plan's zone: on 30 March at 23:00 of UTC the day before."""
        old = made(self.folder / 'summer.db')
        midnight = MONDAY + 7 * DAYS - HOURS
        body = {'class': 2, 'needs': [1, 0, 0], 'note': ''}
        calls = [('takerone', 'POST /call', body | {'place': place, 'serial': serial})
                 for serial, place in enumerate(['TQ300800', 'TQ350800', 'TQ400800'], 1)]
        play(old, [(midnight - 1, *calls[0]), (midnight, *calls[1]),
                   (midnight + 1, 'deskone1', 'POST /incidents/1/close', None),
                   (midnight + 1, 'deskone1', 'POST /incidents/2/close', None),
                   (midnight + 3 * DAYS, *calls[2])])
        new = self.folder / 'summer.new.db'
        wanted = renewed(tables_of(old), midnight)
        self.check('the second before stays behind', [it['number'] for it in wanted['incidents']],
                   [2, 3])
        self.check('since the first day of summer time',
                   run('renew', old, new, '--since', '2026-03-30'), (0, line_of(wanted), ''))
        self.check('its rows', tables_of(new), wanted)

    def test_room_in_its_log(self):
        """A room that was killed stands in its log: its rows are renewed too, and stay."""
        room = made(self.folder / 'killed.db', 'A1,1,1,TQ303804,crewofa1')
        with serving(room, 2) as (port, process):
            self.assertEqual(ask(port, call(1))[0][0], 200)
            process.kill()
            process.wait(timeout=180)
        rows = tables_of(room)
        self.check('renew', run('renew', room, self.folder / 'new.db', '--since', '2026-01-01'),
                   (0, line_of(rows), ''))
        self.check('the rows', tables_of(self.folder / 'new.db'), rows)
        self.check('they stay', tables_of(room), rows)


# ---- both go on alike


NAMED = re.compile(r'/incidents/(\d+)')


class GoesOn(RenewTestCase):
    def speaks_of_the_past(self, event, behind):
        """Whether an event names what stayed behind, by the desk that asks."""
        _, token, line, body = event
        incidents, calls, reports = behind
        if line == 'POST /call':
            return (1, body['serial']) in calls
        if line == 'POST /report':
            vehicle = next(it for it, its in TOKENS.items() if its == token)
            return (vehicle, body['number']) in reports
        division = next((it for it, its in DESKS.items() if its == token), None)
        numbers = [int(it) for it in NAMED.findall(line)]
        if body and 'into' in body:
            numbers.append(body['into'])
        return any((division, it) in incidents for it in numbers)

    def test_long_streams(self):
        since = MONDAY + 2 * DAYS
        asked_of_the_past = 0
        for seed in range(ROOMS):
            old, sender = self.played(f'{seed}.db', 1000 + seed)
            if last_moment(tables_of(old)) < since + 2 * DAYS:
                continue
            new = self.folder / f'{seed}.new.db'
            behind = left(tables_of(old), since)
            self.assertEqual(run('renew', old, new, '--since', day(since))[0], 0)
            events = days_of(sender, MONDAY + 5 * DAYS, MONDAY + 6 * DAYS, EVENTS)
            # Desks ask of incidents that stayed behind too, which changes neither room.
            events += [(MONDAY + 6 * DAYS, DESKS[division], f'POST /incidents/{number}/close', None)
                       for division, number in sorted(behind[0])]
            was, now = play(old, events), play(new, events)
            past = [self.speaks_of_the_past(it, behind) for it in events]
            asked_of_the_past += sum(past)
            for event, one, other, is_past in zip(events, was, now, past):
                if is_past:
                    self.check(f'room {seed}: none, {event}', other,
                               (404, '{"error":"NoSuchIncident","number":1}'))
                elif one != other:
                    self.check(f'room {seed}: {event}', other, one)
            self.check(f'room {seed}: the rows of both afterwards', tables_of(new),
                       without(behind, tables_of(old)))
        self.check('some ask of the past', asked_of_the_past > 0, True)

    def test_sent_again(self):
        """A call that stayed behind is a new one in the new room; such a report is late."""
        old = made(self.folder / 'old.db', 'A1,1,1,TQ303804,crewofa1')
        sender = Sender(5)
        call, report = sender.call_of(1), sender.report_of('A1', 1)
        play(old, [(MONDAY, *call), (MONDAY + 1, *report),
                   (MONDAY + 2, 'deskone1', 'POST /incidents/1/close', None),
                   (MONDAY + 2, 'desktwo2', 'POST /incidents/1/close', None),
                   (MONDAY + 4 * DAYS, *sender.call_of(2)),
                   (MONDAY + 4 * DAYS, *sender.report_of('A1', 2))])
        sql(old, "UPDATE reports SET cleared = 1 WHERE outcome != 0 AND number = 1")
        new = self.folder / 'new.db'
        since = MONDAY + 2 * DAYS
        _, calls, reports = left(tables_of(old), since)
        self.check('what stays behind', (calls, reports), ({(1, 1)}, {('A1', 1)}))
        self.check('renew', run('renew', old, new, '--since', day(since))[0], 0)
        again = [(MONDAY + 5 * DAYS, *call), (MONDAY + 5 * DAYS, *report)]
        before = tables_of(old)
        play(old, again)
        self.check('the old room is as it was', tables_of(old), before)
        answers = play(new, again)
        self.check('a new call', [it['serial'] for it in tables_of(new)['calls']], [1, 2])
        self.check('a late report', json.loads(answers[1][1])['outcome'], 'late')


# ---- lists


class Lists(RenewTestCase):
    """A list ends with its room, and that of the new room begins with the new room's head."""

    def serve(self, room, name, *sent):
        words = *PATIENT, '--journal', str(self.folder / name)
        with serving(room, 1, *words) as (port, process):
            answers = ask(port, *sent)
            process.wait(timeout=180)
        self.check(f'{name}: answers', [it for it, _ in answers], [200] * len(sent))
        return (self.folder / name).read_bytes()

    def copy(self, room, name):
        return pathlib.Path(shutil.copy(room, self.folder / name))

    def replayed(self, room, text):
        done = subprocess.run([PROGRAM, 'replay', room], input=text, capture_output=True,
                              timeout=180)
        return done.returncode, done.stdout.decode(), done.stderr.decode()

    def test_lists(self):
        old, new = made(self.folder / 'old.db'), self.folder / 'new.db'
        past = 1_700_000_000
        play(old, [(past, *Sender(1).call_of(1)),
                   (past + 1, 'deskone1', 'POST /incidents/1/close', None),
                   (past + 1, 'desktwo2', 'POST /incidents/1/close', None)])
        first = self.copy(old, 'first.db')
        before = self.serve(old, 'old.list', call(2, 'TQ300800'), call(3, 'TQ350850'))
        since = datetime.datetime.now(datetime.timezone.utc) - datetime.timedelta(days=4)
        self.check('renew', run('renew', old, new, '--since', f'{since:%Y-%m-%d}'),
                   (0, 'renewed: incidents 2, calls 2, turns 0, reports 0\n', ''))
        begun = self.copy(new, 'begun.db')
        after = self.serve(new, 'new.list', call(4, 'TQ360860'), call(2, 'TQ300800'))
        self.check('the head', records(after)[0], head_of(begun))
        for name in ('old.list', 'new.list'):
            self.check(f'{name}: it is whole', run('verify', self.folder / name)[0::2], (0, ''))
        self.check('the new list over the old room, as it was',
                   self.replayed(self.copy(old, 'last.db'), after),
                   (1, '', 'refused: another room at record 1\n'))
        self.check('the old list', self.replayed(first, before), (0, 'replayed 2\n', ''))
        self.check('leads to the old room', tables_of(first), tables_of(old))
        self.check('the new list', self.replayed(begun, after), (0, 'replayed 2\n', ''))
        self.check('leads to the new room', tables_of(begun), tables_of(new))


# ---- what is refused


def limit():
    """No file gets more than 24 KiB, as on a disk that is full."""
    resource.setrlimit(resource.RLIMIT_FSIZE, (24 * 1024, 24 * 1024))


class Refused(RenewTestCase):
    def setUp(self):
        super().setUp()
        self.old = made(self.folder / 'old.db', 'A1,1,1,TQ303804,crewofa1')
        play(self.old, [(MONDAY + 4 * DAYS, *Sender(1).call())])
        self.new = self.folder / 'new.db'

    def check_refused(self, what, wanted, old=None, since=day(MONDAY)):
        old = old or self.old
        before = old.read_bytes() if old.is_file() else None
        self.check(what, run('renew', old, self.new, '--since', since), wanted)
        self.check(f'{what}: the old file', old.read_bytes() if old.is_file() else None, before)
        self.check(f'{what}: no new file', self.new.exists(), False)

    def test_day(self):
        for since in ['', 'today', '2026-3-23', '2026-02-30', '1969-12-31', '2100-01-01',
                      '2026-03-23 ', day(MONDAY + 3 * DAYS), day(MONDAY + 4 * DAYS), '2099-12-31']:
            self.check_refused(f'since {since!r}', REFUSED_DAY, since=since)
        for since in ['1970-01-01', day(MONDAY), day(MONDAY + 2 * DAYS)]:
            new = self.folder / f'{since}.db'
            self.check(f'since {since}', run('renew', self.old, new, '--since', since)[0::2],
                       (0, ''))

    def test_room_without_moments(self):
        """A room in which nothing happened can't be renewed: its last moment is 0."""
        self.check_refused('a new room', REFUSED_DAY, old=made(self.folder / 'fresh.db'),
                           since='1970-01-01')

    def test_old_file(self):
        missing, empty, text = (self.folder / it for it in ['missing.db', 'empty.db', 'text.db'])
        empty.write_bytes(b'')
        text.write_text('this is no database, but it is long enough to have a header of one '
                        'hundred bytes, which is what counts here')
        broken = self.folder / 'broken.db'
        shutil.copy(self.old, broken)
        sql(broken, 'DELETE FROM divisions')
        old = self.folder / 'version1.db'
        shutil.copy(self.old, old)
        sql(old, 'UPDATE meta SET version = 1; DROP TABLE offers; VACUUM')
        for file, wanted in [(missing, REFUSED_FILE), (empty, REFUSED_FILE), (text, STORAGE),
                             (broken, REFUSED_FILE), (old, (1, '', 'refused: version\n'))]:
            self.check_refused(file.name, wanted, old=file)

    def test_new_file_is_there(self):
        for what in ['a room', 'itself']:
            new = self.old if what == 'itself' else made(self.new)
            before = new.read_bytes(), self.old.read_bytes()
            self.check(what, run('renew', self.old, new, '--since', day(MONDAY)), REFUSED_FILE)
            self.check(f'{what} stays', (new.read_bytes(), self.old.read_bytes()), before)
        self.new.unlink()
        self.new.write_bytes(b'')
        self.check('an empty file', run('renew', self.old, self.new, '--since', day(MONDAY))[0], 0)
        self.check('it is a room', run('check', self.new)[0], 0)

    def test_served(self):
        with serving(self.old, 1):
            self.check('an old room that is served',
                       run('renew', self.old, self.new, '--since', day(MONDAY)), STORAGE)
            self.check('no new file', self.new.exists(), False)
        made(self.new)
        with serving(self.new, 1):
            self.check('a new one that is served',
                       run('renew', self.old, self.new, '--since', day(MONDAY)), STORAGE)

    def test_words(self):
        for words in [(), (self.old,), (self.old, self.new), (self.old, self.new, '--since')]:
            status, out, err = run('renew', *words)
            self.check(f'{len(words)} words', (status, out, err.startswith('error: ')),
                       (2, '', True))
        self.check('no new file', self.new.exists(), False)

    def test_explained(self):
        for what, words, reported in [
                ('a day', (self.old, self.new, '--since', day(MONDAY + 3 * DAYS)), '2026-03-26'),
                ('no file', (self.folder / 'none.db', self.new, '--since', day(MONDAY)),
                 'none.db'),
                ('a new file', (self.old, self.old, '--since', day(MONDAY)), 'is a room already')]:
            _, _, err = run('renew', *words, '--explain')
            self.check(f'{what}: a line and its explanation', len(err.splitlines()), 2)
            self.check(what, reported in err.splitlines()[0], True)

    def test_disk_is_full(self):
        """A disk that is full in the middle leaves no room, and the old one as it was."""
        before = self.old.read_bytes()
        done = subprocess.run([PROGRAM, 'renew', self.old, self.new, '--since', day(MONDAY)],
                              preexec_fn=limit, restore_signals=False, stdin=subprocess.DEVNULL,
                              capture_output=True, timeout=180)
        self.check('it fails', (done.returncode, done.stdout, done.stderr), (3, b'', b'storage\n'))
        self.check('the old file', self.old.read_bytes(), before)
        self.check('no room', run('check', self.new)[0] != 0, True)
