"""Files of version 1 from outside, made by Python's sqlite3: they are moved over with all their
rows, and the room goes on as it was. What is no room of version 1 is reported and stays."""
# needs: python3 sqlite3
# builds: dispatch_room
import json
import shutil

from broken_rooms import BROKEN, WORK, WRONG
from first_version import DAY, NEW, all_rows, killed_room, old_room, opened, rows_after
from room import FLEET, PLAN, TestCase, ask, dump, made, message, run, serving, sql
from schema import INDEX_QUERY, INDEXES, TABLES, columns_of, lines

MIGRATED = (0, 'migrated\n', '')
NOT_OLD = (1, '', 'refused: version\n')
NO_ROOM = (1, '', 'refused: file\n')
STORAGE = (3, '', 'storage\n')


def say(token, line, **members):
    return message(token, line, json.dumps(members) if members else '')


def bytes_of(file):
    """The bytes of a file, once its log is merged into it: whoever opens a database begins a log
    beside it, which holds no page until one is written."""
    sql(file, 'PRAGMA wal_checkpoint')
    return file.read_bytes()


# ---- rooms of version 1


class Moved(TestCase):
    def check_moved(self, what, file, rows):
        """The file is one of version 2 that stands for the room of these rows."""
        wanted = {table: sorted(it) for table, it in rows_after(rows).items()}
        self.check(f'{what}: the rows', all_rows(file), wanted)
        self.check(f'{what}: the file is whole', sql(file, 'PRAGMA integrity_check'), 'ok\n')
        self.check(f'{what}: the indexes', sql(file, INDEX_QUERY), INDEXES)
        strict = "SELECT count(*) FROM pragma_table_list WHERE schema = 'main' AND strict"
        self.check(f'{what}: the tables are strict', sql(file, strict), '13\n')
        for table, (key, columns) in TABLES.items():
            info = f"""SELECT name, type, "notnull", pk FROM pragma_table_xinfo('{table}')"""
            self.check(f'{what}: the columns of {table}', sql(file, info),
                       lines(columns_of(key, columns), str, '|'))

    def check_migrates(self, what, file, rows=DAY):
        self.check(f'{what}: it is old', run('times', file, 1, '2026-03-29'), NOT_OLD)
        self.check(f'{what}: migrate', run('migrate', file), MIGRATED)
        self.check_moved(what, file, rows)
        self.check(f'{what}: it is opened',
                   run('times', file, 1, '2026-03-29'), (0, 'incident,opened,activation\n', ''))
        self.check_moved(f'{what}, opened', file, rows)

    def test_indexes_and_journals(self):
        for indexed, named in [(True, 'with indexes'), (False, 'without indexes')]:
            for journal in ['delete', 'wal']:
                file = old_room(self.folder / f'{journal}{indexed}.db', DAY, indexed, journal)
                self.check_migrates(f'a room {named}, journal {journal}', file)

    def test_room_that_stands_in_its_log(self):
        self.check_migrates('a room in its log', killed_room(self.folder / 'killed.db'))

    def test_new_room(self):
        self.check_migrates('a new room', old_room(self.folder / 'new.db', NEW), NEW)

    def test_fleet_is_the_same(self):
        file = old_room(self.folder / 'fleet.db')
        run('migrate', file)
        same = ''.join(f'{it} same\n' for it in ['A1', 'A2', 'A3', 'B1', 'C1'])
        self.check('the fleet again', run('import', file, FLEET), (0, same, ''))
        self.check_moved('the fleet again', file, DAY)

    def test_gap(self):
        """A file of today without its offers: where they were is a gap, which VACUUM closes."""
        file = made(self.folder / 'gap.db')
        sql(file, 'UPDATE meta SET version = 1; DROP TABLE offers')
        self.check('with the gap', run('migrate', file), NO_ROOM)
        sql(file, 'VACUUM')
        self.check('without it', run('migrate', file), MIGRATED)

    def test_again(self):
        file = old_room(self.folder / 'again.db')
        self.check('migrate', run('migrate', file), MIGRATED)
        before = bytes_of(file)
        self.check('migrate again', run('migrate', file), NOT_OLD)
        self.check('migrate again changes nothing', bytes_of(file), before)


DONE = (200, '{"done":true}')


class GoesOn(TestCase):
    """A room that was moved goes on: desk 2 borrowed A1 and sent it, desk 1 wants A2 back."""

    def setUp(self):
        super().setUp()
        self.file = old_room(self.folder / 'room.db')
        self.printed = run('migrate', self.file)

    def ask(self, *messages):
        with serving(self.file, 1) as (port, process):
            answers = ask(port, *messages)
            process.wait(timeout=180)
        return answers

    def test_day_stands(self):
        self.check('migrate', self.printed, MIGRATED)
        vehicles, loans, *offers = self.ask(
            say('desktwo2', 'GET /vehicles'), say('desktwo2', 'GET /loans'),
            say('desktwo2', 'GET /offers'), say('deskone1', 'GET /offers'))
        lines = json.loads(vehicles[1])['vehicles']
        found = [(it['vehicle'], it['home'], it['status'], it['incident']) for it in lines]
        self.check('the vehicles of desk 2', found,
                   [('A1', 1, 2, 1), ('A2', 1, 1, None), ('B1', 2, 0, None)])
        found = [(it['vehicle'], it['recalled']) for it in json.loads(loans[1])['loans']]
        self.check('its loans', found, [('A1', False), ('A2', True)])
        self.check('the offers of both', offers, [(200, '{"offers":[]}')] * 2)

    def test_turn_goes_on(self):
        """A1 ends its turn; A2 goes home, for it is recalled; A3 is offered now, not lent."""
        report = {'button': 'scene', 'number': 2, 'order': 1, 'place': 'TQ600800'}
        home = {'button': 'home', 'number': 1, 'order': 0, 'place': 'TQ303804'}
        answers = self.ask(
            say('crewofa1', 'POST /report', **report),
            say('crewofa2', 'POST /report', **home),
            say('deskone1', 'POST /vehicles/A3/lend', to=2, until=3_999_999_999),
            say('deskone1', 'POST /vehicles/A1/recall'),
            say('desktwo2', 'POST /vehicles/A3/accept'),
            say('desktwo2', 'GET /loans'))
        self.check('what they are answered', answers[:-1], [
            (200, '{"number":2,"outcome":"skipped","status":3}'),
            (200, '{"number":1,"outcome":"normal","status":1}'), DONE, DONE, DONE])
        found = [(it['vehicle'], it['recalled']) for it in json.loads(answers[-1][1])['loans']]
        self.check('the loans', found, [('A1', True), ('A3', False)])
        self.check('who holds whom', sql(self.file, 'SELECT callsign, holder FROM vehicles'),
                   'A1|2\nA2|1\nA3|2\nB1|2\nC1|1\n')

    def test_what_is_sent_again(self):
        """A call and a report that were kept get their first answers, and other ones with their
        numbers are refused."""
        call = {'class': 3, 'needs': [1, 0, 0], 'note': '', 'place': 'TQ350850', 'serial': 4}
        report = {'button': 'mobile', 'number': 8, 'order': 9, 'place': 'TQ321821'}
        before = dump(self.file)
        self.check('what they are answered', self.ask(
            say('takerone', 'POST /call', **call),
            say('crewofa3', 'POST /report', **report),
            say('takerone', 'POST /call', **call | {'class': 1}),
            say('crewofa3', 'POST /report', **report | {'order': 2})), [
                (200, '{"division":1,"incident":2,"linked":false}'),
                (200, '{"number":8,"outcome":"stale","status":1}'),
                (409, '{"error":"SerialReused","number":17}'),
                (409, '{"error":"NumberReused","number":18}')])
        self.check('nothing is changed', dump(self.file), before)


# ---- files that are not moved


def before_offers(changes):
    """Those of some changes that speak of no offer."""
    return {what: change for what, change in changes.items() if 'offer' not in what + change}


# The same work as in a room of today, but that nothing is offered: A3 waits.
OLD_WORK = ';'.join(it for it in WORK.split(';') if 'offers' not in it and 'status = 7' not in it)

OLD_BROKEN = before_offers(BROKEN) | {
    'a vehicle at the status of an offer': "UPDATE vehicles SET status = 7 WHERE callsign = 'A3'",
    'offers that are there':
        'CREATE TABLE offers (callsign TEXT PRIMARY KEY NOT NULL, lender INTEGER NOT NULL, '
        'borrower INTEGER NOT NULL, since INTEGER NOT NULL, until INTEGER NOT NULL) STRICT',
    'another table too few': 'DROP TABLE reports',
    'an index too few': 'DROP INDEX calls_by_incident',
    'a column too many': 'ALTER TABLE loans ADD COLUMN note TEXT',
}
# A zone that can't be read is for those to report who reckon days: nothing of it is moved.
OLD_BROKEN.pop('no zone')


class NotMoved(TestCase):
    def setUp(self):
        super().setUp()
        self.room = old_room(self.folder / 'old.db', NEW)
        sql(self.room, OLD_WORK)

    def copy(self):
        return shutil.copy(self.room, self.folder / 'changed.db')

    def check_each(self, changes, wanted):
        for what, change in changes.items():
            file = self.copy()
            self.check(f'{what}: the change is made', sql(file, change), '')
            before = dump(file)
            self.check(what, run('migrate', file), wanted)
            self.check(f'{what}: nothing is changed', dump(file), before)

    def test_room_is_sound(self):
        self.assertEqual(run('migrate', self.copy()), MIGRATED)

    def test_broken_agreements(self):
        self.check_each(OLD_BROKEN, NO_ROOM)

    def test_values_of_no_row(self):
        self.check_each(before_offers(WRONG), STORAGE)

    def test_version_2(self):
        """A room of version 2 is reported as that, whatever the rest of it holds."""
        file = made(self.folder / 'today.db')
        for change in ['', 'DELETE FROM divisions', 'DROP TABLE calls']:
            sql(file, change)
            before = bytes_of(file)
            self.check(f'version 2, {change}', run('migrate', file), NOT_OLD)
            self.check(f'version 2, {change}: nothing is changed', bytes_of(file), before)

    def test_foreign_files(self):
        """A file of neither version stays byte for byte."""
        other, text = self.folder / 'other.db', self.folder / 'text.db'
        with opened(other) as it:
            it.execute('create table notes (note text)')
        text.write_text('this is no database, but it is long enough to have a header of one '
                        'hundred bytes, which is what counts here')
        for file, wanted in [(other, NO_ROOM), (text, STORAGE)]:
            before = bytes_of(file)
            self.check(file.name, run('migrate', file), wanted)
            self.check(f'{file.name} stays', bytes_of(file), before)

    def test_no_file(self):
        empty, missing = self.folder / 'empty.db', self.folder / 'missing.db'
        empty.write_bytes(b'')
        self.check('an empty file', run('migrate', empty), NO_ROOM)
        self.check('it stays empty', bytes_of(empty), b'')
        self.check('no file', run('migrate', missing), NO_ROOM)
        self.check('no file is made', missing.exists(), False)
        self.check('a folder', run('migrate', self.folder), STORAGE)

    def test_other_commands(self):
        """What opens a room refuses one of version 1, and leaves it as it is."""
        before = bytes_of(self.room)
        for words in [('times', self.room, 3, 'today'), ('import', self.room, FLEET),
                      ('serve', self.room, '127.0.0.1:9', '--connections', '1')]:
            self.check(f'{words[0]} of a room of version 1', run(*words), NOT_OLD)
        self.check('init of one', run('init', self.room, PLAN), NO_ROOM)
        self.check('it stays as it is', bytes_of(self.room), before)


class InUse(TestCase):
    """While another program has the file open, nothing is moved."""

    def check_refused(self, what, file):
        before = all_rows(file)
        with opened(file) as other:
            for statement in ['begin', 'select * from meta']:
                other.execute(statement).fetchall()
            self.check(f'{what}, which is read', run('migrate', file), STORAGE)
        with opened(file) as other:
            other.execute('begin immediate')
            self.check(f'{what}, which is written', run('migrate', file), STORAGE)
        self.check(f'{what}: nothing is changed', all_rows(file), before)
        self.check(f'{what}, in use no longer', run('migrate', file), MIGRATED)

    def test_in_use(self):
        for journal in ['delete', 'wal']:
            file = old_room(self.folder / f'{journal}.db', journal=journal)
            self.check_refused(f'journal {journal}', file)

    def test_served(self):
        file = made(self.folder / 'served.db')
        with serving(file, 1):
            self.check('a room that is served', run('migrate', file), STORAGE)
