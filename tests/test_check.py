"""What `check` says of a room's file: how much a healthy room has, and of a broken one the first
thing that is wrong, with its row. Nothing is written to the file. A file that is no database is
left as it is by every command, and nothing comes to be beside it."""
# needs: python3 sqlite3
# builds: dispatch_room
import pathlib
import shutil
import tempfile

from broken_rooms import BROKEN, WORK, WRONG
from room import FLEET, PLAN, TestCase, drop_indexes, dump, free_port, made, run, sql

# The room of WORK, counted by hand: the plan of the example, and the five vehicles of its fleet.
HEALTHY = """\
version 2
areas 2, terminals {terminals}
divisions 2, points 1
calls 3
incidents 3, active 1
vehicles {vehicles}, assignments 1
turns 1, open 1
loans 1, offers 1
reports 1, uncleared 0
newest moment 1200
"""

WRONG_ASSIGNMENT = 'has an assignment, which needs status 2 to 5, its holder and its last order'
WRONG_OFFER = 'has an offer, which needs status 7, its home as lender, and another division'
WRONG_LOAN = 'has a loan that is not from its home to its holder'
WRONG_POST = 'has a post, which needs status 1 or 6 and a point of its holder'
NO_REPORT = 'has no report of its last number'
NO_PLAN = 'its areas and its zone make no plan, or two rows have one number'
UNREADABLE = "a row is not of its table, or the file can't be read\n"
OTHER_TABLES = 'its tables and indexes are not those of a room'

# The first thing that is wrong where each agreement of the rows is broken.
REPORTED = {
    'a vehicle on its way without an assignment':
        'vehicle A1 is at status 2 and has no assignment',
    'an assignment of a vehicle that waits': f'vehicle B1 is at status 1 and {WRONG_ASSIGNMENT}',
    'a vehicle on its way without an open turn':
        'vehicle A1 is at status 2 and has no open turn of its last order',
    'a turn and an assignment of different incidents':
        "turn 1 of vehicle A1 is for another incident than the vehicle's assignment",
    'a turn and an assignment of different orders':
        f'vehicle A1 is at status 2 and {WRONG_ASSIGNMENT}',
    'an open turn that is not of the last order':
        f'vehicle A1 is at status 2 and {WRONG_ASSIGNMENT}',
    'a turn past the last order': f'vehicle A1 is at status 2 and {WRONG_ASSIGNMENT}',
    'an assignment to a closed incident':
        'turn 1 of vehicle A1 is open and its incident is not active',
    'a vehicle on its way that another division holds':
        'vehicle A1 is at status 2 and is away from home without a loan',
    'an offered vehicle without an offer': 'vehicle A3 is at status 7 and has no offer',
    'an offer of a vehicle that is not offered': f'vehicle A3 is at status 1 and {WRONG_OFFER}',
    'an offer to the lender': f'vehicle A3 is at status 7 and {WRONG_OFFER}',
    'an offer to a division outside the plan': f'vehicle A3 is at status 7 and {WRONG_OFFER}',
    'an offer by another than the holder': f'vehicle A3 is at status 7 and {WRONG_OFFER}',
    'a vehicle elsewhere without a loan':
        'vehicle A2 is at status 1 and is away from home without a loan',
    'a loan of a vehicle at home': f'vehicle C1 is at status 0 and {WRONG_LOAN}',
    'a loan to another than the holder': f'vehicle A2 is at status 1 and {WRONG_LOAN}',
    'an opening that is no call':
        'incident 1 of division 1 has no call of the moment at which it was opened',
    'an active incident without a call':
        'incident 3 of division 1 has no call of the moment at which it was opened',
    'a merged incident with a call': 'call 2 of position 1 is of an incident that is merged',
    'a call of no incident': 'call 2 of position 1 is of no incident',
    'a last report that is none': f'vehicle A1 is at status 2 and {NO_REPORT}',
    'a report past the last': f'vehicle A1 is at status 2 and {NO_REPORT}',
    'a post that is no point': f'vehicle B1 is at status 1 and {WRONG_POST}',
    'a post of a vehicle on its way': f'vehicle A1 is at status 2 and {WRONG_POST}',
    'an incident past the last':
        'incident 3 of division 1 has a number that its division did not give',
    'a division outside the plan': 'division 3 has a row and is not in the plan',
    'a division of the plan without its row': 'division 2 of the plan has no row',
    'a report of no vehicle': f'vehicle A1 is at status 2 and {NO_REPORT}',
    'a crew of no vehicle': "a crew's terminal is of no vehicle: Z9",
    'a vehicle without a crew': "vehicle C1 has no crew's terminal",
    'a vehicle with two crews': "vehicle C1 has two crews' terminals",
    'a desk of a division outside the plan':
        "a desk's terminal is of division 3, not in the plan",
    'no area': NO_PLAN,
    'no zone': 'its zone is no rule of a time zone',
    'a table too few': OTHER_TABLES,
    'a table too many': OTHER_TABLES,
    'an index too many': OTHER_TABLES,
    'a view': OTHER_TABLES,
}

# Agreements that the rooms above don't break by themselves, or not first.
MORE = {
    'a point of a division outside the plan':
        ('INSERT INTO points VALUES (3, 1, 530000, 180000, 1)',
         'point 1 of division 3 is in no division of the plan'),
    'a vehicle of a home outside the plan':
        ("UPDATE vehicles SET home = 3, holder = 3 WHERE callsign = 'C1'",
         'vehicle C1 is at status 0 and is at home in no division of the plan'),
    'a vehicle held outside the plan':
        ("UPDATE vehicles SET holder = 3 WHERE callsign = 'C1'",
         'vehicle C1 is at status 0 and is held by no division of the plan'),
    'a loan of no vehicle':
        ("INSERT INTO loans VALUES ('Z9', 1, 2, 1300, 8000, 0)", 'a loan is of no vehicle: Z9'),
    'an offer of no vehicle':
        ("INSERT INTO offers VALUES ('Z9', 1, 2, 1300, 8000)", 'an offer is of no vehicle: Z9'),
    'an assignment of no vehicle':
        ("INSERT INTO assignments VALUES ('Z9', 1, 1, 1, 530000, 180000, 2)",
         'an assignment is of no vehicle: Z9'),
    'a turn of no vehicle':
        ("INSERT INTO turns VALUES ('Z9', 1, 1, 1, 1, 1200, NULL, NULL, NULL, NULL, 1300, 0)",
         'turn 1 of vehicle Z9 is of an order that no vehicle was given'),
    'a turn past the last order':
        ("INSERT INTO turns VALUES ('A1', 2, 1, 1, 1, 1200, NULL, NULL, NULL, NULL, 1300, 0)",
         'turn 2 of vehicle A1 is of an order that no vehicle was given'),
    'an open turn of a vehicle that waits':
        ("UPDATE vehicles SET last_order = 1 WHERE callsign = 'B1'; INSERT INTO turns VALUES "
         "('B1', 1, 2, 1, 1, 1200, NULL, NULL, NULL, NULL, NULL, 0)",
         'turn 1 of vehicle B1 is open, which needs its vehicle at status 2 to 5 on that order '
         'for that division'),
    'a report of no vehicle':
        ("INSERT INTO reports VALUES ('Z9', 1, 0, 0, 530300, 180400, 1190, 1, 0, 1, 0)",
         'report 1 of vehicle Z9 has a number above the last of its vehicle'),
    'a report of a division outside the plan':
        ('UPDATE reports SET division = 3', 'report 4 of vehicle A1 is of no division of the plan'),
    'a call before the opening':
        ("INSERT INTO calls VALUES (1, 4, 1, 1, 1, 1, 530000, 180000, 2, 1, 0, 0, x'', 999)",
         'call 4 of position 1 is of an incident that was opened later'),
}

# What is no database: too short for one, a text, a head of one with nothing behind it, and zeros.
NO_DATABASES = [b'abc', b'no database' * 100, b'SQLite format 3\0' + bytes(5000), bytes(50)]


def commands(file):
    """A command of each kind, on a file."""
    return [('init', file, PLAN), ('import', file, FLEET), ('migrate', file), ('check', file),
            ('times', file, 1, '2026-03-29'), ('replay', file),
            ('serve', file, f'127.0.0.1:{free_port()}')]


class Check(TestCase):
    @classmethod
    def setUpClass(cls):
        folder = cls.enterClassContext(tempfile.TemporaryDirectory())
        cls.room = made(pathlib.Path(folder) / 'room.db')
        run('import', cls.room, FLEET)
        assert sql(cls.room, WORK) == ''

    def copy(self):
        return pathlib.Path(shutil.copy(self.room, self.folder / 'changed.db'))

    def check_report(self, what, change, wanted):
        """What is reported of the room after a change, which stays as it is."""
        changed = self.copy()
        self.check(f'{what}: the change is made', sql(changed, change), '')
        before = dump(changed)
        self.check(what, run('check', changed), wanted)
        self.check(f'{what}: nothing is written', dump(changed), before)

    def test_healthy(self):
        much = {it: sql(self.room, f'SELECT count(*) FROM {it}').strip()
                for it in ('terminals', 'vehicles')}
        self.check_report('a healthy room', '', (0, HEALTHY.format(**much), ''))

    def test_each_agreement(self):
        self.assertEqual(sorted(REPORTED), sorted(BROKEN))
        for what, change in BROKEN.items():
            self.check_report(what, change, (1, f'{REPORTED[what]}\n', 'refused: file\n'))

    def test_more_agreements(self):
        for what, (change, reported) in MORE.items():
            self.check_report(what, change, (1, f'{reported}\n', 'refused: file\n'))

    def test_values_of_no_row(self):
        for what, change in WRONG.items():
            self.check_report(what, change, (3, UNREADABLE, 'storage\n'))

    def test_first_version(self):
        self.check_report('a room of version 1', 'UPDATE meta SET version = 1; DROP TABLE offers',
                          (1, 'version 1: migrate it\n', 'refused: version\n'))

    def test_no_indexes(self):
        changed = self.copy()
        drop_indexes(changed)
        before = changed.read_bytes()
        self.check('a room without its indexes', run('check', changed), run('check', self.room))
        self.check('none are made', changed.read_bytes() == before, True)

    def test_bytes_behind_the_end(self):
        whole = run('check', self.room)
        for count, reported in [(1, whole), (511, whole), (512, (3, '', 'storage\n'))]:
            changed = self.copy()
            with changed.open('ab') as file:
                file.write(bytes(count))
            self.check('sqlite3 reads over them', sql(changed, 'SELECT count(*) FROM areas'), '2\n')
            self.check(f'{count} bytes behind the end', run('check', changed), reported)

    def test_other_files(self):
        empty, missing = self.folder / 'empty.db', self.folder / 'missing.db'
        empty.write_bytes(b'')
        other = self.folder / 'other.db'
        self.check('another database is made', sql(other, 'CREATE TABLE notes (note TEXT)'), '')
        for what, file in [('an empty file', empty), ('no file', missing)]:
            self.check(what, run('check', file), (1, '', 'refused: file\n'))
        self.check('a foreign file', run('check', other),
                   (1, f'{OTHER_TABLES}\n', 'refused: file\n'))
        self.check('no file is made', missing.exists(), False)

    def check_left(self, what, file, beside):
        """Each command fails on a file, and leaves it and what is beside it as they were."""
        folder = file.resolve().parent
        for words in commands(file):
            before = {it.name: it.read_bytes() for it in folder.iterdir()}
            self.check(f'{what}: {words[0]} fails', run(*words)[0] in (1, 3), True)
            after = {it.name: it.read_bytes() for it in folder.iterdir()}
            self.check(f'{what}: {words[0]} leaves all', after == before, True)
            self.check(f'{what}: what is there', sorted(after), sorted(beside))

    def test_no_database(self):
        file, link = self.folder / 'no' / 'other.db', self.folder / 'link.db'
        file.parent.mkdir()
        link.symlink_to(file)
        for text in NO_DATABASES:
            file.write_bytes(text)
            self.check_left(f'{text[:20]}', file, ['other.db'])
            self.check_left(f'{text[:20]} by a link', link, ['other.db'])
        for log in b'', b'no log':
            file.with_name('other.db-wal').write_bytes(log)
            self.check_left(f'with {log} as its log', file, ['other.db', 'other.db-wal'])
        self.check('nothing beside the link', sorted(it.name for it in self.folder.iterdir()),
                   ['link.db', 'no'])
