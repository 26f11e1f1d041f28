"""`times --and` from outside: the report of a day over a room and the one that it was renewed from.
Which lines it has is worked out here, from the tables of both as Python's sqlite3 reads them, for
random rooms that are renewed and played on: an incident that both have counts once, as the newer
one has it. Neither file is written; and what is refused prints nothing."""
# needs: python3 sqlite3
# builds: dispatch_room
import os
import shutil
import subprocess

import played_days
from played_days import DAYS, HOURS, Sender, day, days_of, play, tables_of
from room import FLEET, PLAN, PROGRAM, TOP, TestCase, made, run, serving, sql

TIMES = TOP / 'examples' / 'weekly' / 'times.sh'
# Two weeks earlier, so that all days are of winter time.
MONDAY = played_days.MONDAY - 14 * DAYS
HEAD = 'incident,opened,activation\n'
MERGED = 2
ROOMS, EVENTS = 6, 400
REFUSED_FILE = (1, '', 'refused: file\n')


def lines_of(newer, older, division, begin):
    """The lines of a day that begins at a moment of winter time, by the incidents of two rooms."""
    both = {}
    for rows in (older, newer):
        both |= {it['number']: it for it in rows['incidents'] if it['division'] == division}
    for number, it in sorted(both.items()):
        if it['state'] != MERGED and begin <= it['opened'] < begin + DAYS:
            order = it['first_order']
            took = '' if order is None else max(order - it['opened'], 0)
            yield f'{number},{it["opened"]},{took}\n'


def bytes_of(*files):
    return [it.read_bytes() for it in files]


class Joined(TestCase):
    def setUp(self):
        super().setUp()
        self.old, self.new = self.folder / 'old.db', self.folder / 'new.db'

    def renewed(self, seed, since):
        """A room that five days were played to, and the one that was made of it; who sent them."""
        for it in (self.old, self.new):
            it.unlink(missing_ok=True)
            it.with_name(f'{it.name}-wal').unlink(missing_ok=True)
        run('init', self.old, PLAN)
        run('import', self.old, FLEET)
        sender = Sender(seed)
        play(self.old, days_of(sender, MONDAY, MONDAY + 5 * DAYS, EVENTS))
        self.assertEqual(run('renew', self.old, self.new, '--since', day(since))[0], 0)
        return sender

    def times(self, division, begin, *words):
        return run('times', self.new, division, day(begin), *words)

    def joined(self, division, begin):
        return self.times(division, begin, '--and', self.old)

    def by_itself(self, division, begin):
        """The day in the older room."""
        return run('times', self.old, division, day(begin))

    def test_random_rooms(self):
        """Before the newer room goes on, each day is that of the older one; afterwards too but for
        what came of an incident that goes on, and both files stay byte for byte."""
        newer_differs = older_differs = 0
        for seed in range(ROOMS):
            sender = self.renewed(3000 + seed, MONDAY + 2 * DAYS)
            days = [(division, MONDAY + nth * DAYS) for division in (1, 2) for nth in range(7)]
            for division, begin in days:
                self.check(f'room {seed}: desk {division}, {day(begin)}, as it was',
                           self.joined(division, begin), self.by_itself(division, begin))
            play(self.new, days_of(sender, MONDAY + 5 * DAYS, MONDAY + 7 * DAYS, EVENTS))
            newer, older = tables_of(self.new), tables_of(self.old)
            before = bytes_of(self.new, self.old)
            for division, begin in days:
                wanted = HEAD + ''.join(lines_of(newer, older, division, begin))
                name = f'room {seed}: desk {division}, {day(begin)}'
                self.check(name, self.joined(division, begin), (0, wanted, ''))
                newer_differs += wanted != self.times(division, begin)[1]
                older_differs += wanted != self.by_itself(division, begin)[1]
            self.check(f'room {seed}: both files', bytes_of(self.new, self.old), before)
        self.check('each room has some days by itself', min(newer_differs, older_differs) > 0, True)

    def test_once(self):
        """What went on: sent to since, merged since, closed since; and one that stayed behind."""
        body = {'class': 2, 'needs': [1, 0, 0], 'note': ''}
        places = ['TQ300800', 'TQ305850', 'TQ310900', 'TQ340800', 'TQ345850']
        until = 4_000_000_000
        made(self.old, 'A1,1,1,TQ303804,crewofa1')
        duty = 'POST /vehicles/A1/duty', {'place': 'TQ303804', 'until': until}
        moments = [*(MONDAY + it for it in range(4)), MONDAY + 3 * DAYS]
        calls = [(at, 'takerone', 'POST /call', body | {'place': place, 'serial': nth})
                 for nth, (at, place) in enumerate(zip(moments, places), 1)]
        play(self.old, [*calls[:4], (MONDAY + 10, 'deskone1', 'POST /incidents/4/close', None),
                        calls[4], (MONDAY + 3 * DAYS, 'deskone1', *duty)])
        self.assertEqual(run('renew', self.old, self.new, '--since', day(MONDAY + DAYS))[0], 0)
        self.check('what is left', [it['number'] for it in tables_of(self.new)['incidents']],
                   [1, 2, 3, 5])
        answers = play(self.new, [
            (MONDAY + 4 * DAYS, 'deskone1', 'POST /incidents/1/mobilise', {'vehicle': 'A1'}),
            (MONDAY + 4 * DAYS, 'deskone1', 'POST /incidents/2/merge', {'into': 1}),
            (MONDAY + 4 * DAYS, 'deskone1', 'POST /incidents/3/close', None)])
        self.check('it goes on', [status for status, _ in answers], [200, 200, 200])
        self.check('the first day', self.joined(1, MONDAY), (0, HEAD + ''.join([
            f'1,{MONDAY},{4 * DAYS}\n', f'3,{MONDAY + 2},\n', f'4,{MONDAY + 3},\n']), ''))
        self.check('the fourth', self.joined(1, MONDAY + 3 * DAYS),
                   (0, f'{HEAD}5,{MONDAY + 3 * DAYS},\n', ''))
        self.check('by themselves', [self.times(1, MONDAY)[1], self.by_itself(1, MONDAY)[1]],
                   [f'{HEAD}1,{MONDAY},{4 * DAYS}\n3,{MONDAY + 2},\n',
                    HEAD + ''.join(f'{nth + 1},{MONDAY + nth},\n' for nth in range(4))])
        self.check('with itself', self.times(1, MONDAY, '--and', self.new), self.times(1, MONDAY))

    def test_zone(self):
        """The day is that of the newer room's plan, as where it was given another zone since."""
        made(self.old)
        body = {'class': 2, 'needs': [1, 0, 0], 'note': ''}
        moments = [MONDAY - HOURS, MONDAY, MONDAY + 23 * HOURS, MONDAY + 4 * DAYS]
        calls = [(at, 'takerone', 'POST /call', body | {'place': f'TQ3{nth}0800', 'serial': nth})
                 for nth, at in enumerate(moments, 1)]
        closed = [(MONDAY + DAYS, 'deskone1', f'POST /incidents/{it}/close', None) for it in (1, 3)]
        play(self.old, [*calls[:3], *closed, calls[3]])
        since = MONDAY + 2 * DAYS
        self.assertEqual(run('renew', self.old, self.new, '--since', day(since))[0], 0)
        sql(self.new, "UPDATE meta SET zone = 'CET-1'")
        self.check('a day of Paris', self.joined(1, MONDAY),
                   (0, f'{HEAD}1,{MONDAY - HOURS},\n2,{MONDAY},\n', ''))
        self.check('a day of London', self.by_itself(1, MONDAY),
                   (0, f'{HEAD}2,{MONDAY},\n3,{MONDAY + 23 * HOURS},\n', ''))

    def check_refused(self, what, wanted, *words):
        before = [it.read_bytes() for it in (self.new, self.old) if it.is_file()]
        self.check(what, run('times', *words), wanted)
        self.check(f'{what}: both files',
                   [it.read_bytes() for it in (self.new, self.old) if it.is_file()], before)

    def test_refused(self):
        self.renewed(7, MONDAY)
        new, old = self.new, self.old
        missing, empty, broken, first, text = (
            self.folder / f'{it}.db' for it in ['missing', 'empty', 'broken', 'first', 'text'])
        empty.write_bytes(b'')
        text.write_text('this is no database, but it is long enough to have a header of one '
                        'hundred bytes, which is what counts here')
        shutil.copy(old, broken)
        sql(broken, 'DELETE FROM divisions')
        shutil.copy(old, first)
        sql(first, 'UPDATE meta SET version = 1; DROP TABLE offers; VACUUM')
        a_day = day(MONDAY)
        for what, division in [('division', 9), ('day', 1)]:
            self.check_refused(f'a {what}', (1, '', f'refused: {what}\n'),
                               new, division, 'x', '--and', missing)
        for file, wanted in [(missing, REFUSED_FILE), (empty, REFUSED_FILE), (broken, REFUSED_FILE),
                             (text, (3, '', 'storage\n')), (first, (1, '', 'refused: version\n'))]:
            self.check_refused(f'older: {file.name}', wanted, new, 1, a_day, '--and', file)
            self.check_refused(f'newer: {file.name}', wanted, file, 1, a_day, '--and', old)
        self.check('no file is made', missing.exists(), False)
        sql(new, "UPDATE meta SET zone = 'none'")
        self.check_refused('a zone', REFUSED_FILE, new, 1, a_day, '--and', old)
        status, out, err = run('times', old, 1, a_day, '--and')
        self.check('no older file', (status, out, err.startswith('error: ')), (2, '', True))

    def test_explained(self):
        self.renewed(8, MONDAY)
        for what, words, reported in [
                ('a division', [self.new, 9, day(MONDAY), '--and', self.old],
                 f'no division 9 in the plan of {self.new}'),
                ('a day', [self.new, 1, 'today', '--and', self.old],
                 '"today" is no day from 1970-01-01 to 2099-12-31'),
                ('an older file', [self.new, 1, day(MONDAY), '--and', self.folder / 'none.db'],
                 'none.db')]:
            _, _, err = run('times', *words, '--explain')
            self.check(f'{what}: a line and its explanation', len(err.splitlines()), 2)
            self.check(what, reported in err.splitlines()[0], True)

    def test_served(self):
        self.renewed(9, MONDAY)
        for served in (self.new, self.old):
            with serving(served, 1):
                self.check(served.name, self.joined(1, MONDAY), (3, '', 'storage\n'))

    def test_output_fails(self):
        """Nobody reads the report."""
        self.renewed(10, MONDAY)
        with open('/dev/full', 'wb') as full:
            done = subprocess.run([PROGRAM, 'times', self.new, '1', day(MONDAY), '--and', self.old],
                                  stdin=subprocess.DEVNULL, stdout=full, stderr=subprocess.PIPE,
                                  timeout=180)
        self.check('network', (done.returncode, done.stderr), (4, b'network\n'))


class Archives(TestCase):
    """The script of examples/weekly over a folder of archives."""

    def setUp(self):
        super().setUp()
        self.room = self.folder / 'room.db'
        (self.folder / 'bin').mkdir()
        (self.folder / 'bin' / 'dispatch_room').symlink_to(PROGRAM)
        self.path = f'{self.folder / "bin"}:{os.environ["PATH"]}'

    def script(self, *words):
        done = subprocess.run([TIMES, *map(str, words)], stdin=subprocess.DEVNULL, cwd=self.folder,
                              capture_output=True, text=True, timeout=180,
                              env=os.environ | {'PATH': self.path})
        return done.returncode, done.stdout, done.stderr

    def test_folder(self):
        """Three rooms over nine days, replaced on the fourth and on the seventh."""
        sender, archives, rooms = Sender(77), [], []
        run('init', self.room, PLAN)
        run('import', self.room, FLEET)
        for begin, end in [(0, 4), (4, 7), (7, 9)]:
            play(self.room, days_of(sender, MONDAY + begin * DAYS + 9 * HOURS,
                                    MONDAY + end * DAYS + 9 * HOURS, EVENTS))
            rooms.append(tables_of(self.room))
            if end < 9:
                archives.append(self.folder / f'room.{day(MONDAY + end * DAYS)}.093000.db')
                for log in ('', '-wal'):
                    os.rename(f'{self.room}{log}', f'{archives[-1]}{log}')
                since = day(MONDAY + (end - 2) * DAYS)
                self.assertEqual(run('renew', archives[-1], self.room, '--since', since)[0], 0)
        for nth in range(10):
            begin = MONDAY + nth * DAYS
            first = 0 if nth < 4 else 1 if nth < 7 else 2
            pair = rooms[min(first + 1, 2)], rooms[first]
            for division in (1, 2):
                wanted = 0, HEAD + ''.join(lines_of(*pair, division, begin)), ''
                for files in ([self.room, *archives], ['room.db', *(it.name for it in archives)]):
                    self.check(f'desk {division}, day {nth}, {files[0]}',
                               self.script(division, day(begin), *files), wanted)
        self.check('no archives', self.script(1, day(MONDAY + 8 * DAYS), self.room),
                   run('times', self.room, 1, day(MONDAY + 8 * DAYS)))
        self.check('no room', self.script(1, day(MONDAY))[0::2],
                   (2, 'usage: times.sh DIVISION DAY ROOM [ARCHIVE ..]\n'))
