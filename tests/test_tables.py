"""The tables from outside: a day in a room that is served, and then what the command sqlite3 reads
of its file. In the day each table has rows put, and those that lose rows have rows dropped. The
rows wanted are said by the requests; their moments are those that the answers' Date has."""
# needs: python3 sqlite3
# builds: dispatch_room
import json
import pathlib
import socket
import tempfile
import time

from room import FLEET, TestCase, made, message, read_dated, run, serving, sql
from schema import INDEX_QUERY, INDEXES, PLAN_ROWS, TABLES, columns_of, lines

# ---- a day in the room


class Room:
    """A room that is served, over one connection, and what it was asked: each request with what
    came of its answer, and what was wanted."""

    def __init__(self, connection):
        self.connection, self.stream = connection, connection.makefile('rb')
        self.moment, self.asked = 0, []

    def later(self):
        """Waits for a second in which nothing was answered yet."""
        while time.time() < self.moment + 1:
            time.sleep(0.01)
        return self

    def ask(self, token, line, answer, **members):
        """Sends a request with these members; gives the moment of its answer."""
        self.connection.sendall(message(token, line, json.dumps(members) if members else ''))
        self.moment, *answered = read_dated(self.stream) or (0,)
        self.asked.append((line, answered, [200, answer]))
        return self.moment

    def do(self, desk, line, **members):
        return self.ask(desk, line, '{"done":true}', **members)

    def call(self, serial, place, call_class, needs, note, answer):
        members = {'serial': serial, 'place': place, 'needs': needs, 'note': note}
        return self.ask('takerone', 'POST /call', answer, **members, **{'class': call_class})

    def mobilise(self, incident, vehicle, order):
        answer = f'{{"order":{order},"vehicle":"{vehicle}"}}'
        line = f'POST /incidents/{incident}/mobilise'
        return self.ask('deskone1', line, answer, vehicle=vehicle)

    def report(self, crew, number, button, order, place, outcome, status):
        answer = f'{{"number":{number},"outcome":"{outcome}","status":{status}}}'
        return self.ask(crew, 'POST /report', answer,
                        number=number, button=button, order=order, place=place)


def begin_shifts(room):
    room.do('deskone1', 'POST /points/7', cover=9, place='TQ300800')
    room.do('deskone1', 'POST /points/7', cover=1, place='TQ3000180002')
    room.do('desktwo2', 'POST /points/99', cover=0, place='TQ600800')
    for desk, vehicle, place, until in [('deskone1', 'A1', 'TQ303804', 4000000001),
                                        ('deskone1', 'A2', 'TQ304803', 4000000002),
                                        ('deskone1', 'A3', 'TQ300801', 4000000003),
                                        ('desktwo2', 'B1', 'TQ610810', 4000000004),
                                        ('deskone1', 'C1', 'TQ301802', 4000000005)]:
        room.do(desk, f'POST /vehicles/{vehicle}/duty', place=place, until=until)
    for desk, vehicle, point in [('deskone1', 'A2', 7), ('deskone1', 'C1', 7),
                                 ('desktwo2', 'B1', 99)]:
        room.do(desk, f'POST /vehicles/{vehicle}/standby', point=point)


def called(division, incident, linked='false'):
    return f'{{"division":{division},"incident":{incident},"linked":{linked}}}'


def take_calls(room, at):
    """Calls that make four incidents of division 1 and one of 2: the second is linked to the
    first, and the last is closed."""
    at['call 1'] = room.call(1, 'TQ300800', 2, [2, 0, 0], 'a fall', called(1, 1))
    at['call 2'] = room.later().call(2, 'TQ302800', 1, [1, 1, 0], 'Gärten', called(1, 1, 'true'))
    at['call 3'] = room.later().call(3, 'TQ350850', 3, [1, 0, 2], '', called(1, 2))
    at['call 4'] = room.call(4, 'TQ400900', 3, [0, 0, 1], "it's", called(1, 3))
    at['call 5'] = room.call(5, 'TQ600800', 2, [1, 0, 0], '', called(2, 1))
    room.do('desktwo2', 'POST /incidents/1/needs', needs=[9, 8, 7])
    room.do('deskone1', 'POST /incidents/3/close')


def send_vehicles(room, at):
    """A3 is sent to incident 2 and stood down, A1 goes through a whole turn, and A3 is at the
    scene of incident 1."""
    at['A3 sent'] = room.later().mobilise(2, 'A3', 1)
    at['A1 sent'] = room.later().mobilise(1, 'A1', 1)
    at['A3 stood down'] = room.later().do('deskone1', 'POST /vehicles/A3/standdown')
    room.do('deskone1', 'POST /incidents/2/merge', into=1)
    at['A1 mobile'] = room.later().report('crewofa1', 1, 'mobile', 1, 'TQ301801', 'normal', 2)
    at['A1 scene'] = room.later().report('crewofa1', 2, 'scene', 1, 'TQ300800', 'normal', 3)
    at['A1 leave'] = room.later().report('crewofa1', 3, 'leave', 1, 'TQ300801', 'normal', 4)
    at['A1 hospital'] = room.later().report('crewofa1', 4, 'hospital', 1, 'TQ310810', 'normal', 5)
    at['A1 return'] = room.later().report('crewofa1', 5, 'return', 1, 'TQ311811', 'normal', 6)
    at['A1 home'] = room.report('crewofa1', 7, 'home', 1, 'TQ304805', 'normal', 1)
    at['A1 late'] = room.report('crewofa1', 6, 'position', 0, 'TQ320820', 'late', 1)
    at['A1 stale'] = room.report('crewofa1', 8, 'mobile', 9, 'TQ321821', 'stale', 1)
    at['A1 wrong'] = room.report('crewofa1', 10, 'scene', 1, 'TQ322822', 'wrong', 1)
    room.do('deskone1', 'POST /queue/A1/6/clear')
    at['A3 sent again'] = room.mobilise(1, 'A3', 2)
    at['A3 scene'] = room.later().report('crewofa3', 1, 'scene', 2, 'TQ300802', 'skipped', 3)


def lend_vehicles(room, at):
    """A1 is lent and given back; of A2's offers one is declined, one withdrawn, one accepted and
    recalled; B1 is offered."""
    room.do('deskone1', 'POST /vehicles/A1/lend', to=2, until=4000000011)
    room.do('desktwo2', 'POST /vehicles/A1/accept')
    at['A1 lent'] = room.report('crewofa1', 11, 'position', 0, 'TQ601801', 'normal', 1)
    room.do('desktwo2', 'POST /vehicles/A1/giveback')
    room.do('deskone1', 'POST /vehicles/A2/lend', to=2, until=4000000012)
    room.do('desktwo2', 'POST /vehicles/A2/decline')
    room.do('deskone1', 'POST /vehicles/A2/lend', to=2, until=4000000013)
    room.do('deskone1', 'POST /vehicles/A2/withdraw')
    room.do('deskone1', 'POST /vehicles/A2/lend', to=2, until=4000000014)
    at['A2 accepted'] = room.later().do('desktwo2', 'POST /vehicles/A2/accept')
    room.do('deskone1', 'POST /vehicles/A2/recall')
    at['B1 offered'] = room.do('desktwo2', 'POST /vehicles/B1/lend', to=1, until=4000000015)


def play(port):
    """Plays the day; gives what was asked, and the moments."""
    at = {}
    with socket.create_connection(('127.0.0.1', port), timeout=180) as connection:
        room = Room(connection)
        begin_shifts(room)
        take_calls(room, at)
        send_vehicles(room, at)
        lend_vehicles(room, at)
    return room.asked, at


# ---- the rows that the day leaves, in the order of their keys

DIVISION_ROWS = {
    'divisions': [(1, 3), (2, 1)],
    'points': [(1, 7, 530001, 180002, 1), (2, 99, 560000, 180000, 0)],
}


def incident_rows(at):
    return {
        'incidents': [
            (1, 1, 530000, 180000, 1, 2, 1, 2, at['call 1'], at['A3 sent'], 0, None),
            (1, 2, 535000, 185000, 3, 1, 0, 2, at['call 3'], at['A3 sent'], 2, 1),
            (1, 3, 540000, 190000, 3, 0, 0, 1, at['call 4'], None, 1, None),
            (2, 1, 560000, 180000, 2, 9, 8, 7, at['call 5'], None, 0, None)],
        'calls': [
            (1, 1, 1, 1, 1, 0, 530000, 180000, 2, 2, 0, 0, b'a fall', at['call 1']),
            (1, 2, 1, 1, 1, 1, 530200, 180000, 1, 1, 1, 0, 'Gärten'.encode(), at['call 2']),
            (1, 3, 1, 1, 2, 0, 535000, 185000, 3, 1, 0, 2, b'', at['call 3']),
            (1, 4, 1, 3, 3, 0, 540000, 190000, 3, 0, 0, 1, b"it's", at['call 4']),
            (1, 5, 2, 1, 1, 0, 560000, 180000, 2, 1, 0, 0, b'', at['call 5'])],
    }


def vehicle_rows(at):
    return {
        'vehicles': [
            ('A1', 1, 1, 1, 560100, 180100, 1, 4000000001, None, 1, 11),
            ('A2', 1, 2, 1, 530400, 180300, 1, 4000000002, None, 0, 0),
            ('A3', 1, 1, 1, 530000, 180200, 3, 4000000003, None, 2, 1),
            ('B1', 2, 2, 1, 561000, 181000, 7, 4000000004, None, 0, 0),
            ('C1', 1, 1, 2, 530100, 180200, 1, 4000000005, 7, 0, 0)],
        'turns': [
            ('A1', 1, 1, 1, 1, at['A1 sent'], at['A1 mobile'], at['A1 scene'], at['A1 leave'],
             at['A1 hospital'], at['A1 return'], 0),
            ('A3', 1, 1, 2, 1, at['A3 sent'], None, None, None, None, at['A3 stood down'], 1),
            ('A3', 2, 1, 1, 1, at['A3 sent again'], None, at['A3 scene'], None, None, None, 0)],
        'assignments': [('A3', 1, 1, 2, 530000, 180000, 1)],
        'loans': [('A2', 1, 2, at['A2 accepted'], 4000000014, 1)],
        'offers': [('B1', 2, 1, at['B1 offered'], 4000000015)],
    }


def report_rows(at):
    return {'reports': [
        ('A1', 1, 1, 1, 530100, 180100, at['A1 mobile'], 1, 0, 2, 0),
        ('A1', 2, 2, 1, 530000, 180000, at['A1 scene'], 1, 0, 3, 0),
        ('A1', 3, 3, 1, 530000, 180100, at['A1 leave'], 1, 0, 4, 0),
        ('A1', 4, 4, 1, 531000, 181000, at['A1 hospital'], 1, 0, 5, 0),
        ('A1', 5, 5, 1, 531100, 181100, at['A1 return'], 1, 0, 6, 0),
        ('A1', 6, 0, 0, 532000, 182000, at['A1 late'], 1, 3, 1, 1),
        ('A1', 7, 6, 1, 530400, 180500, at['A1 home'], 1, 0, 1, 0),
        ('A1', 8, 1, 9, 532100, 182100, at['A1 stale'], 1, 4, 1, 0),
        ('A1', 10, 2, 1, 532200, 182200, at['A1 wrong'], 1, 2, 1, 0),
        ('A1', 11, 0, 0, 560100, 180100, at['A1 lent'], 2, 0, 1, 0),
        ('A3', 1, 2, 2, 530000, 180200, at['A3 scene'], 1, 1, 3, 0)]}


# ---- what sqlite3 reads


def literal(value):
    """A value as sqlite3 quotes it."""
    if value is None:
        return 'NULL'
    if isinstance(value, bytes):
        return f"X'{value.hex()}'"
    return f"'{value}'" if isinstance(value, str) else str(value)


class Tables(TestCase):
    @classmethod
    def setUpClass(cls):
        folder = cls.enterClassContext(tempfile.TemporaryDirectory())
        cls.room = made(pathlib.Path(folder) / 'room.db')
        run('import', cls.room, FLEET)
        with serving(cls.room, 1) as (port, process):
            cls.asked, cls.at = play(port)
            cls.status = process.wait(timeout=180)

    def test_day(self):
        for line, answered, wanted in self.asked:
            self.check(line, answered, wanted)
        self.check('the day ends', self.status, 0)

    def test_file_is_whole(self):
        self.assertEqual(sql(self.room, 'PRAGMA integrity_check'), 'ok\n')

    def test_tables_and_indexes_alone(self):
        counts = 'SELECT type, count(*) FROM sqlite_schema WHERE sql IS NOT NULL GROUP BY type'
        self.assertEqual(sql(self.room, counts), 'index|5\ntable|13\n')

    def test_tables(self):
        names = "SELECT name FROM sqlite_schema WHERE type = 'table' ORDER BY rowid"
        self.assertEqual(sql(self.room, names).split(), list(TABLES))

    def test_tables_are_strict(self):
        strict = "SELECT count(*) FROM pragma_table_list WHERE schema = 'main' AND strict"
        self.assertEqual(sql(self.room, strict), '13\n')

    def test_columns(self):
        for table, (key, columns) in TABLES.items():
            info = f"""SELECT name, type, "notnull", pk FROM pragma_table_xinfo('{table}')"""
            self.check(f'the columns of {table}', sql(self.room, info),
                       lines(columns_of(key, columns), str, '|'))

    def test_indexes(self):
        self.assertEqual(sql(self.room, INDEX_QUERY), INDEXES)

    def test_rows(self):
        at = self.at
        wanted = PLAN_ROWS | DIVISION_ROWS | incident_rows(at) | vehicle_rows(at)
        wanted |= report_rows(at)
        self.check('all tables have rows',
                   sorted(table for table in wanted if wanted[table]), sorted(TABLES))
        for table in TABLES:
            found = sql(self.room, '.mode quote', f'SELECT * FROM {table} ORDER BY 1, 2')
            self.check(f'the rows of {table}', found, lines(wanted[table], literal, ','))
