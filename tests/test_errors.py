"""What failed, where and why, from outside: with --explain and on a terminal a line that says so
stands before the specification's line, the only one where standard error is no terminal. The
statuses are the same. The words of the system are those of its errno.h."""
# needs: python3 gcc libc6-dev sqlite3
# builds: dispatch_room
import errno
import os
import socket
import subprocess

from preloaded import LAST, PreloadedTestCase, faults, sync_fault
from room import (FLEET, PATIENT, PLAN, PROGRAM, TestCase, ask, drop_indexes, fleet_of, free_port,
                  made, message, on_terminal, refusal, run, serving, sql)

HEADER = 'what,number,a,b,c,d'
ZONE, AREA = 'zone,0,GMT0,,,', 'area,1,500000,100000,549999,199999'
DESK = 'desk,1,deskone1,,,'

# Files that are no table, with what is reported of them behind their name.
NO_FLEETS = [
    (b'', ': no header'),
    (b'\xff\n', ': not UTF-8'),
    (b'callsign,division,kind,place,token\nA1,1,1,TQ303804\n', ':2: 4 fields where 5 are expected'),
    (b'callsign,division,kind,place,token\n\n\nA1\n', ':4: 1 field where 5 are expected'),
    (b'callsign;division;kind;place;token\nA1;1;1;TQ303804;crewofa1\n',
     ':1: the header is not callsign,division,kind,place,token'),
    (b'callsign,division,kind,token,place\n',
     ':1: the header is not callsign,division,kind,place,token'),
]

# Rows of a fleet, with what is reported of them.
BAD_ROWS = [
    ('a7,1,1,TQ303804,crewofa7', 'callsign "a7" is not 1 to 8 of A-Z and 0-9'),
    (',1,1,TQ303804,crewofa7', 'callsign "" is not 1 to 8 of A-Z and 0-9'),
    ('A7,10,1,TQ303804,crewofa7', 'division "10" is not 1 to 9'),
    ('A7,1,4,TQ303804,crewofa7', 'kind "4" is not 1, 2 or 3'),
    ('A7,1,1,TX303804,crewofa7',
     'place "TX303804": the reference begins with none of TQ, TL, SU and SP'),
    ('A7,1,1,TQ30380,crewofa7', 'place "TQ30380": the reference has not 6, 8 or 10 digits'),
    ('A7,1,1,TQ303804,short', 'token is not 8 to 32 of A-Z, a-z and 0-9'),
    ('a7,10,4,TX303804,short', 'callsign "a7" is not 1 to 8 of A-Z and 0-9'),
    ('A7,9,1,TQ303804,crewofa7', 'no division 9 in the plan'),
    ('A1,1,2,TQ303804,crewofa1', 'vehicle A1 is there with another division, kind or token'),
    ('A7,1,1,TQ303804,crewofa1', "its token is another terminal's"),
]

# Plans that are refused: by which row, and what is reported of them behind their name.
BAD_PLANS = [
    (0, [AREA], ': no zone'),
    (0, [ZONE], ': no area'),
    (0, [ZONE] + [AREA] * 65, ': more than 64 areas'),
    (1, ['zone,0,Europe/London,,,', AREA],
     ':2: zone "Europe/London" is no POSIX rule such as GMT0BST,M3.5.0/1,M10.5.0'),
    (1, ['zone,1,GMT0,,,', AREA], ':2: number "1" is not 0'),
    (1, ['zone,0,GMT0,x,,', AREA], ':2: b "x" is not empty'),
    (3, [ZONE, AREA, ZONE], ':4: a second zone'),
    (1, ['zonk,0,GMT0,,,', ZONE, AREA], ':2: "zonk" is no zone, area, desk or position'),
    (2, [ZONE, 'area,10,500000,100000,549999,199999'], ':3: division "10" is not 1 to 9'),
    (2, [ZONE, 'area,1,5,100000,549999,199999'], ':3: west "5" is not 400000 to 599999'),
    (2, [ZONE, 'area,1,500000,100000,549999,x'], ':3: north "x" is not 100000 to 299999'),
    (2, [ZONE, 'area,1,549999,100000,500000,199999'],
     ':3: west above east, or south above north'),
    (3, [ZONE, AREA, 'desk,12,deskone1,,,'], ':4: desk "12" is not 1 to 9'),
    (3, [ZONE, AREA, 'desk,2,deskone1,,,'], ':4: division 2 has no area'),
    (3, [ZONE, AREA, 'desk,1,short,,,'], ':4: token is not 8 to 32 of A-Z, a-z and 0-9'),
    (4, [ZONE, AREA, DESK, 'position,2,deskone1,,,'], ':5: an earlier row has this token'),
    (3, [ZONE, AREA, 'position,100,takerone,,,'], ':4: position "100" is not 1 to 99'),
    (3, [ZONE, AREA, 'desk,1,deskone1,,,x'], ':4: d "x" is not empty'),
]

# Addresses at which no room is served, with what is reported of them.
ADDRESSES = [
    ('127.0.0.1', 'no port'), ('::1', 'no port'), ('[::1]', 'no port'), ('', 'no port'),
    ('127.0.0.1:', 'no port'), ('127.0.0.1:http', 'no port'),
    ('127.0.0.1:80000', 'port above 65535'), (':80000', 'port above 65535'),
    ('localhost:8080', 'no name or zone is taken: write 127.0.0.1 or [::1]'),
    ('[::1%lo]:80', 'no name or zone is taken: write 127.0.0.1 or [::1]'),
    ('0.0.0.0:8080', 'other machines reach it'), ('[::]:80', 'other machines reach it'),
]

# What may be the address of another machine, so that no board asks there: addresses by RFC 1122
# and RFC 4291 that are not of loopback, names but `localhost` of RFC 6761, and no addresses.
ELSEWHERE = [
    '192.0.2.1:8080', '126.255.255.255:8080', '128.0.0.1:8080', '0.0.0.0:8080', '[::]:8080',
    '[2001:db8::1]:8080', '[::ffff:127.0.0.1]:8080', 'room.example:8080', 'localhost.example:8080',
    '127.0.0.1.example:8080', 'localhost:80@room.example:8080', 'localhost:room.example:8080',
    'LOCALHOST:8080', 'localhost', 'localhost:', 'localhost:http', 'localhost:65536', '127.0.0.1',
    '127.0.0.1:65536', '',
]


def os_words(code):
    """What the system says of an error, as the program reports it."""
    return f'{os.strerror(code)} (os error {code})'


class ErrorCase(TestCase):
    def check_error(self, what, words, status, named, *explained):
        """A command fails, and is explained by these lines where that is wanted."""
        named = f'{named}\n' if named else ''
        whole = ''.join(f'{line}\n' for line in explained) + named
        ended = run(*words)
        self.check(f'{what}: no terminal', (ended[0], ended[2]), (status, named))
        ended = run(*words, '--explain')
        self.check(f'{what}: --explain', (ended[0], ended[2]), (status, whole))
        self.check(f'{what}: a terminal', on_terminal(*words), (status, whole))


class Texts(ErrorCase):
    def setUp(self):
        super().setUp()
        self.text = self.folder / 'text.csv'
        self.room = self.folder / 'room.db'

    def test_no_file(self):
        missing = f'{self.text}: {os_words(errno.ENOENT)}'
        self.check_error('init', ['init', self.room, self.text], 1, 'refused: input', missing)
        made(self.room)
        self.check_error('import', ['import', self.room, self.text], 1, 'refused: input', missing)
        self.check_error('a folder', ['import', self.room, self.folder], 1, 'refused: input',
                         f'{self.folder}: {os_words(errno.EISDIR)}')

    def test_no_fleets(self):
        made(self.room)
        for text, cause in NO_FLEETS:
            self.text.write_bytes(text)
            self.check_error(f'fleet {text}', ['import', self.room, self.text], 1,
                             'refused: input', f'{self.text}{cause}')

    def test_no_plan(self):
        self.text.write_text('what,number,a,b,c\n')
        self.check_error('plan', ['init', self.room, self.text], 1, 'refused: input',
                         f'{self.text}:1: the header is not {HEADER}')

    def test_bad_rows(self):
        made(self.room, 'A1,1,1,TQ303804,crewofa1')
        for row, cause in BAD_ROWS:
            self.text.write_text(fleet_of(row))
            self.check_error(f'row {row}', ['import', self.room, self.text], 1, '',
                             f'{self.text}:2: {cause}')

    def test_lines(self):
        """Each bad row is reported by its line, also behind empty lines."""
        made(self.room)
        self.text.write_text(fleet_of('a1,1,1,TQ303804,crewofa1', '', 'B1,1,1,TQ303804,crewofb1',
                                      '', '', 'b2,1,1,TQ303804,crewofb2'))
        self.check_error('a fleet', ['import', self.room, self.text], 1, '',
                         f'{self.text}:2: callsign "a1" is not 1 to 8 of A-Z and 0-9',
                         f'{self.text}:7: callsign "b2" is not 1 to 8 of A-Z and 0-9')

    def test_bad_plans(self):
        for row, rows, cause in BAD_PLANS:
            self.text.write_text('\n'.join([HEADER, *rows]) + '\n')
            self.check_error(f'plan {rows[:4]}', ['init', self.room, self.text], 1,
                             f'refused: plan row {row}', f'{self.text}{cause}')


class Rooms(ErrorCase):
    def setUp(self):
        super().setUp()
        self.room = made(self.folder / 'room.db')
        self.other = self.folder / 'other.db'

    def commands(self, room):
        """The commands that open a room that is there."""
        return [('check', room), ('times', room, 1, '2026-03-29'), ('import', room, FLEET),
                ('terminals', room), ('terminals', room, '--new', 'desk:1'),
                ('replay', room), ('serve', room, f'127.0.0.1:{free_port()}')]

    def test_in_use(self):
        with serving(self.room, 1) as (_, process):
            cause = f'{self.room} is in use by process {process.pid}'
            for words in [*self.commands(self.room), ('migrate', self.room),
                          ('init', self.room, PLAN)]:
                self.check_error(f'{words[0]} of a served room', words, 3, 'storage', cause)

    def test_no_file(self):
        cause = f'{self.other}: {os_words(errno.ENOENT)}'
        for words in self.commands(self.other):
            self.check_error(f'{words[0]} of no file', words, 1, 'refused: file', cause)
        self.assertFalse(self.other.exists())

    def test_no_folder(self):
        room = self.folder / 'nowhere' / 'room.db'
        self.check_error('no folder', ['init', room, PLAN], 3, 'storage',
                         f'{room}: {os_words(errno.ENOENT)}')

    def test_a_folder(self):
        self.check_error('init', ['init', self.folder, PLAN], 3, 'storage',
                         f'{self.folder} is no regular file')
        self.check_error('check', ['check', self.folder], 3, 'storage',
                         f'{self.folder}: {os_words(errno.EISDIR)}')

    def test_no_right(self):
        """Another user has no right to the folder of the test, which is its owner's only. Who is
        no root tries a file without rights."""
        user = 65534 if os.geteuid() == 0 else None
        if user is None:
            self.room.chmod(0)
        done = subprocess.run([PROGRAM, 'check', self.room, '--explain'], user=user,
                              stdin=subprocess.DEVNULL, capture_output=True, timeout=180)
        self.assertEqual((done.returncode, done.stderr.decode()),
                         (3, f'{self.room}: {os_words(errno.EACCES)}\nstorage\n'))

    def test_two_names(self):
        os.link(self.room, self.other)
        self.check_error('two names', ['check', self.room], 3, 'storage',
                         f'{self.room} has a second hard link')

    def test_log(self):
        """A room's log is at fault as the room's file would be, and a link may not stand there."""
        log = self.folder / 'room.db-wal'
        log.touch()
        os.link(log, self.other)
        self.check_error('two names', ['check', self.room], 3, 'storage',
                         f'{log} has a second hard link')
        log.unlink()
        log.symlink_to(self.other)
        self.check_error('a link', ['check', self.room], 3, 'storage',
                         f'{log} is no regular file')

    def test_a_link(self):
        """What is wrong is said of the name that was given, and of the log beside the file."""
        link = self.folder / 'link'
        link.symlink_to(self.room)
        self.check('a link', run('check', link, '--explain')[2], '')
        os.link(self.room, self.other)
        self.check_error('two names', ['check', link], 3, 'storage',
                         f'{link} has a second hard link')

    def test_no_database(self):
        for text, status, named, cause in [
                ('', 1, 'refused: file',
                 f'{self.other} is no room: it is empty, or `init` was stopped'),
                ('no database' * 100, 3, 'storage',
                 f'{self.other}: file is not a database that obeys its schema')]:
            self.other.write_text(text)
            self.check_error(f'check of {text[:11]!r}', ['check', self.other], status, named, cause)

    def test_a_room_already(self):
        words = ['init', self.room, PLAN]
        self.check_error('init', words, 1, 'refused: file', f'{self.room} is a room already')
        drop_indexes(self.room)
        sql(self.room, 'UPDATE meta SET version = 1; DROP TABLE offers')
        self.check_error('of version 1', words, 1, 'refused: file',
                         f'{self.room} is a room already')

    def test_another_database(self):
        for text in ['CREATE TABLE vehicles (callsign TEXT)', 'CREATE VIEW meta AS SELECT 1']:
            self.other.unlink(missing_ok=True)
            sql(self.other, text)
            self.check_error(text, ['init', self.other, PLAN], 1, 'refused: file',
                             f'{self.other} is another database')

    def test_no_room(self):
        sql(self.other, 'CREATE TABLE vehicles (callsign TEXT)')
        cause = f'{self.other} is no room: `dispatch_room check` says what is wrong'
        self.check_error('times', ['times', self.other, 1, '2026-03-29'], 1, 'refused: file', cause)

    def test_versions(self):
        self.check_error('migrate', ['migrate', self.room], 1, 'refused: version',
                         f'{self.room} is a room of this version already')
        drop_indexes(self.room)
        sql(self.room, 'UPDATE meta SET version = 1; DROP TABLE offers')
        cause = f'{self.room} is a room of version 1: `dispatch_room migrate` moves it'
        self.check_error('times', ['times', self.room, 1, '2026-03-29'], 1, 'refused: version',
                         cause)

    def test_times(self):
        self.check_error('a division', ['times', self.room, 9, '2026-03-29'], 1,
                         'refused: division', f'no division 9 in the plan of {self.room}')
        self.check_error('a day', ['times', self.room, 1, '29.3.2026'], 1, 'refused: day',
                         '"29.3.2026" is no day from 1970-01-01 to 2099-12-31')

    def test_renew(self):
        """Of a room in which nothing has happened yet no day is two days old."""
        for day, cause in [
                ('29.3.2026', '"29.3.2026" is no day from 1970-01-01 to 2099-12-31'),
                ('2026-02-29', '"2026-02-29" is no day from 1970-01-01 to 2099-12-31'),
                ('2026-03-29', '2026-03-29 begins less than two days before the last moment of '
                               f'{self.room}')]:
            self.check_error(day, ['renew', self.room, self.other, '--since', day], 1,
                             'refused: day', cause)
        self.assertFalse(self.other.exists())


class Journals(ErrorCase):
    def setUp(self):
        super().setUp()
        self.room = made(self.folder / 'room.db')
        self.list = self.folder / 'list'

    def check_list(self, what, path, cause):
        words = ['serve', self.room, f'127.0.0.1:{free_port()}', '--journal', path]
        self.check_error(what, words, 6, 'journal', f'{path}{cause}')

    def test_no_file(self):
        self.check_list('a folder', self.folder, f': {os_words(errno.EISDIR)}')
        self.check_list('in no folder', self.folder / 'none' / 'list',
                        f': {os_words(errno.ENOENT)}')
        self.check_list('what has no disk', '/dev/full', f': {os_words(errno.EINVAL)}')

    def test_no_journal(self):
        self.list.write_text('no record\n')
        self.check_list('another text', self.list, ' is no journal: no record begins at byte 0')
        self.list.unlink()
        with serving(self.room, 1, *PATIENT, '--journal', str(self.list)) as (port, process):
            ask(port, message('deskone1', 'GET /queue'))
            process.wait(180)
        whole = self.list.stat().st_size
        with self.list.open('a') as file:
            file.write('no record\n')
        self.check('records stand before it', whole > 0, True)
        self.check_list('behind whole records', self.list, ' is no journal: `dispatch_room verify '
                        f'{self.list}` says at which record')
        text = bytearray(self.list.read_bytes()[:whole])
        text[len('list 2\n00000 ')] ^= 1
        self.list.write_bytes(text)
        self.check_list('a changed check', self.list, ' is no journal: `dispatch_room verify '
                        f'{self.list}` says at which record')

    def test_in_use(self):
        other = made(self.folder / 'other.db')
        with serving(other, 1, *PATIENT, '--journal', str(self.list)):
            self.check_list('in use', self.list, ' is in use by another process')


class Network(ErrorCase):
    def test_taken(self):
        room = made(self.folder / 'room.db')
        with socket.create_server(('127.0.0.1', 0)) as taken:
            address = f'127.0.0.1:{taken.getsockname()[1]}'
            self.check_error('serve', ['serve', room, address], 4, 'network',
                             f'{address}: {os_words(errno.EADDRINUSE)}')

    def test_nobody(self):
        address = f'127.0.0.1:{free_port()}'
        self.check_error('board', ['board', address, 'deskone1'], 4, 'network',
                         f'{address}: {os_words(errno.ECONNREFUSED)}')

    def test_no_token(self):
        self.check_error('board', ['board', '127.0.0.1:9', 'short'], 1, 'refused: input',
                         'TOKEN is not 8 to 32 of A-Z, a-z and 0-9')
        file = self.folder / 'token'
        words = ['board', '127.0.0.1:9', '--token', file]
        self.check_error('no file', words, 1, 'refused: input', f'{file}: {os_words(errno.ENOENT)}')
        for text in [b'', b'\ndeskone1\n', b'short\n', b'deskone1\r\n', b' deskone1', b'\xff' * 8]:
            file.write_bytes(text)
            self.check_error(f'a file with {text}', words, 1, 'refused: input',
                             f'{file}:1: token is not 8 to 32 of A-Z, a-z and 0-9')

    def test_elsewhere(self):
        for address in ELSEWHERE:
            self.check_error(f'board of {address!r}', ['board', address, 'deskone1'], 1,
                             'refused: input', f"{address} may be another machine's, to which the "
                             'token would go in plain HTTP: --plain lets it')

    def test_addresses(self):
        for address, cause in ADDRESSES:
            status, _, err = run('serve', self.folder / 'room.db', address)
            self.check(f'{address}: status', status, 2)
            with self.subTest(f'{address}: what is wrong'):
                self.assertIn(f"invalid value '{address}' for '<ADDRESS>': {cause};", err)


BODIES = [
    ('{}', '"serial" is missing'),
    ('no JSON', 'the body is no object of JSON'),
    ('{"class":2,"needs":[1,0,0],"note":"","place":"TQ300800","serial":"1"}',
     '"serial" is not a whole number from 1 to 2147483647'),
    ('{"class":2,"needs":[1,0,0],"note":"","place":"TX300800","serial":1}',
     '"place" is not a grid reference such as "TQ300800"'),
    ('{"class":2,"needs":[0,0,0],"note":"","place":"TQ300800","serial":1}',
     '"needs" is not three whole numbers from 0 to 9, not all 0'),
    ('{"class":2,"more":0,"needs":[1,0,0],"note":"","place":"TQ300800","serial":1}',
     'the body has a member too many'),
]


class Bodies(TestCase):
    def test_bodies(self):
        """The answer says no more than its number; the log has the member and the fault."""
        room = made(self.folder / 'room.db')
        with serving(room, len(BODIES), *PATIENT, '--log') as (port, process):
            for body, cause in BODIES:
                answers = ask(port, message('takerone', 'POST /call', body))
                self.check(f'{body}: the answer', answers, [(400, refusal('BadBody', 40))])
                process.stderr.readline()
                self.check(f'{body}: the log', process.stderr.readline().decode(),
                           f'POST /call: {cause}\n')


class Disks(PreloadedTestCase):
    def test_disk(self):
        """Each call of the disk in turn fails, and all after it: what ends as `storage` has said
        of which file."""
        explained = 0
        self.program.run(faults(0, 0), 'init', self.fresh(), PLAN)
        for first in range(1, self.program.total() + 1):
            file = self.fresh()
            status, _, err = self.program.run(faults(first, LAST), 'init', file, PLAN, '--explain')
            if status == 3:
                explained += 1
                lines = err.decode().splitlines()
                self.check(f'from {first} on: what is reported',
                           (len(lines) > 1 and lines[0].startswith(str(file)), lines[-1]),
                           (True, 'storage'))
        self.check('a fault is explained', explained > 0, True)

    def test_journal(self):
        """Each sync of a journal fails in turn: the system's words are given, and of which file."""
        room, journal = made(self.folder / 'room.db'), self.folder / 'list'
        words = '--journal', journal, '--journal-sync', 'always', '--explain'
        cause = f'{journal}: {os_words(errno.EIO)}\njournal\n'.encode()
        sent = message('deskone1', 'GET /queue')
        # the start's, the first line's, the head's, the message's, the end's, and none
        for at in range(1, 7):
            journal.unlink(missing_ok=True)
            _, *end = self.program.serve(sync_fault(at, journal), room, sent, *words)
            self.check(f'where sync {at} fails', end, [6, cause] if at < 6 else [0, b''])
