"""The commands of the program from outside: what they print, their exit statuses, what the file
holds afterwards by the command sqlite3, and a room that is served over sockets."""
# needs: python3 sqlite3
# builds: dispatch_room
import contextlib
import json
import random
import signal
import socket
import subprocess
import threading
import time

from room import (FLEET, PLAN, PROGRAM, TestCase, ask, call, drop_indexes, dump, fleet_of, made,
                  message, read_answer, run, serving, sql)

A1 = 'A1,1,1,TQ303804,crewofa1'
USAGE_MISTAKES = [
    ['bogus'], ['init'], ['init', 'a'], ['init', 'a', 'b', 'c'], ['import', 'a'],
    ['times', 'a', '1'], ['times', 'a', '0', '2026-01-01'], ['times', 'a', '10', '2026-01-01'],
    ['times', 'a', 'x', '2026-01-01'], ['times', 'a', '01', '2026-01-01'],
    ['times', 'a', '+1', '2026-01-01'], ['migrate'], ['migrate', 'a', 'b'], ['check'],
    ['serve', 'a', 'b'], ['serve', 'a', '127.0.0.1:9', '--connections', '0'],
    ['serve', 'a', '127.0.0.1:9', '--connections', '18446744073709551616'],
    ['serve', 'a', '127.0.0.1:9', '--patience', '0'],
    ['serve', 'a', '127.0.0.1:9', '--patience', '3601'],
    ['serve', 'a', '127.0.0.1:9', '--idle', '0'], ['serve', 'a', '127.0.0.1:9', '--idle', '60001'],
    ['serve', 'a', '127.0.0.1:9', '--keep', '0'], ['serve', 'a', '127.0.0.1:9', '--keep', '3601'],
    ['serve', 'a', '127.0.0.1:9', '--journal'],
    ['serve', 'a', '127.0.0.1:9', '--journal', 'b', '--journal-sync', 'never'],
    ['serve', 'a', '127.0.0.1:9', '--journal', 'b', '--journal-of', 'questions'], ['replay'],
    ['replay', 'a', 'b'], ['replay', 'a', '--until', '4102444800'], ['replay', 'a', '--until', '-1'],
    ['verify'], ['verify', 'a', 'b'], ['verify', 'a', '--until', '1'],
]


# Mistakes of one word, with what is reported of them.
NAMED_MISTAKES = [
    (['bogus'], "unrecognized subcommand 'bogus'"),
    (['init', 'a'], '<PLAN>'),
    (['migrate', 'a', 'extra'], "unexpected argument 'extra'"),
    (['times', 'a', '01', '2026-01-01'], "invalid value '01' for '<DIVISION>'"),
    (['serve', 'a', 'b', '--connections', '0'], "invalid value '0' for '--connections <N>'"),
    (['serve', 'a', 'b', '--connection', '1'], "unexpected argument '--connection'"),
    (['serve', 'a', '0.0.0.0:8080'], 'an address of this machine only'),
]


class Usage(TestCase):
    def test_help(self):
        status, out, err = run('--help')
        self.assertEqual([status, 'Usage:' in out, err], [0, True, ''])

    def test_help_of_commands(self):
        for name in ['init', 'import', 'terminals', 'replan', 'migrate', 'check', 'serve', 'replay',
                     'verify', 'renew', 'board', 'times']:
            status, out, err = run(name, '--help')
            self.check(f'help of {name}',
                       [status, f'Example: dispatch_room {name}' in out, err], [0, True, ''])

    def test_mistakes(self):
        for words in USAGE_MISTAKES:
            status, out, err = run(*words)
            self.check(f'usage of {" ".join(words)}',
                       [status, out, err.startswith('error: ')], [2, '', True])

    def test_mistakes_are_named(self):
        for words, printed in NAMED_MISTAKES:
            with self.subTest(' '.join(words)):
                self.assertIn(printed, run(*words)[2])

    def test_version(self):
        self.assertEqual(run('--version'), (0, 'dispatch_room 2.1\n', ''))

    def test_word_that_is_no_text(self):
        printed = 'error: invalid UTF-8 was detected in one or more arguments\n'
        self.assertEqual(run('times', '\udcff', '1', '2026-01-01'), (2, '', printed))

    def test_help_that_is_not_taken(self):
        with open('/dev/full', 'w') as full:
            done = subprocess.run([PROGRAM, '--help'], stdout=full, stderr=subprocess.PIPE,
                                  timeout=180)
        self.assertEqual((done.returncode, done.stderr), (4, b'network\n'))


class Init(TestCase):
    def setUp(self):
        super().setUp()
        self.room = self.folder / 'room.db'
        self.printed = run('init', self.room, PLAN)

    def test_init(self):
        created = 'created: divisions 2, areas 2, terminals 3\n'
        self.check('init', self.printed, (0, created, ''))
        self.check('the file is whole', sql(self.room, 'PRAGMA integrity_check'), 'ok\n')
        self.check('divisions', sql(self.room, 'SELECT * FROM divisions'), '1|0\n2|0\n')

    def test_again(self):
        before = dump(self.room)
        self.check('init again', run('init', self.room, PLAN), (1, '', 'refused: file\n'))
        self.check('init again changes nothing', dump(self.room), before)

    def test_of_a_folder(self):
        self.assertEqual(run('init', self.folder, PLAN), (3, '', 'storage\n'))

    def test_without_a_plan(self):
        other, missing = self.folder / 'other.db', self.folder / 'missing.csv'
        self.check('init without a plan', run('init', other, missing), (1, '', 'refused: input\n'))
        self.check('init without a plan makes no file', other.exists(), False)


# ---- plans

PLAN_HEADER = 'what,number,a,b,c,d'
ZONE, AREA = 'zone,0,GMT0,,,', 'area,1,500000,100000,549999,199999'
DESK, POSITION = 'desk,1,deskone1,,,', 'position,1,takerone,,,'

# Plans that are refused, by the first row that is; 0 where it is the plan as a whole.
REFUSED_PLANS = [
    (0, [AREA, DESK]),
    (0, [ZONE, DESK]),
    (0, [ZONE] + [AREA] * 65),
    (0, ['area,1,x,0,0,0', 'zonk,0,GMT0,,,']),
    (1, ['zone,1,GMT0,,,', AREA]),
    (1, ['zone,0,no zone,,,', AREA]),
    (3, [ZONE, AREA, ZONE]),
    (2, [ZONE, 'area,0,500000,100000,549999,199999']),
    (2, [ZONE, 'area,10,500000,100000,549999,199999']),
    (2, [ZONE, 'area,1,549999,100000,500000,199999']),
    (2, [ZONE, 'area,1,+500000,100000,549999,199999']),
    (2, [ZONE, 'area,1,500000,100000,549999,' + '9' * 30]),
    (3, [ZONE, AREA, 'desk,2,deskone1,,,']),
    (3, [ZONE, AREA, 'desk,1,short,,,']),
    (4, [ZONE, AREA, DESK, 'position,2,deskone1,,,']),
    (3, [ZONE, AREA, 'position,0,takerone,,,']),
    (3, [ZONE, AREA, 'position,100,takerone,,,']),
    (3, [ZONE, AREA, 'desk,1,deskone1,x,,']),
    (3, [ZONE, AREA, 'crew,1,crewofa1,,,']),
    (3, [ZONE, AREA, 'desk,,deskone1,,,']),
]

# Texts that are no plan.
NO_PLANS = [
    b'',
    b'what,number,a,b,c\n',
    b'what,number,a,b,c,d\nzone,0,GMT0\n',
    f'{ZONE}\n{AREA}\n'.encode(),
    b'what,number,a,b,c,d\nzone,0,\xff,,,\n',
]


class Plans(TestCase):
    def init(self, text):
        """What comes of a room by the plan of this text."""
        plan = self.folder / 'plan.csv'
        plan.write_bytes(text)
        return run('init', self.folder / 'room.db', plan)

    def test_refused(self):
        for row, rows in REFUSED_PLANS:
            text = '\n'.join([PLAN_HEADER, *rows]) + '\n'
            self.check(f'plan {rows}', self.init(text.encode()),
                       (1, '', f'refused: plan row {row}\n'))

    def test_no_plans(self):
        for text in NO_PLANS:
            self.check(f'plan {text}', self.init(text), (1, '', 'refused: input\n'))

    def test_rows_in_any_order(self):
        rows = [PLAN_HEADER, DESK, 'desk,01,deskoneB,,,', POSITION, 'position,1,takertwo,,,', AREA,
                ZONE]
        created = 'created: divisions 1, areas 1, terminals 4\n'
        self.assertEqual(self.init('\n'.join(rows).encode()), (0, created, ''))


# ---- fleets


class Import(TestCase):
    def setUp(self):
        super().setUp()
        self.room = made(self.folder / 'fleet.db')
        self.printed = run('import', self.room, FLEET)

    def enrol(self, *rows):
        fleet = self.folder / 'fleet.csv'
        fleet.write_text(fleet_of(*rows))
        return run('import', self.room, fleet)

    def test_import(self):
        added = 'A1 added\nA2 added\nA3 added\nB1 added\nC1 added\n'
        self.check('import', self.printed, (0, added, ''))
        self.check('vehicles', sql(self.room, 'SELECT * FROM vehicles LIMIT 1'),
                   'A1|1|1|1|530300|180400|0|0||0|0\n')
        crews = 'SELECT token, callsign FROM terminals WHERE role = 2 ORDER BY token LIMIT 2'
        self.check('crews', sql(self.room, crews), 'crewofa1|A1\ncrewofa2|A2\n')

    def test_again(self):
        before = dump(self.room)
        same = 'A1 same\nA2 same\nA3 same\nB1 same\nC1 same\n'
        self.check('import again', run('import', self.room, FLEET), (0, same, ''))
        self.check('import again changes nothing', dump(self.room), before)

    def test_refused_rows(self):
        before = dump(self.room)
        self.check('a vehicle of another kind', self.enrol('A1,1,2,TQ303804,crewofa1'),
                   (1, 'A1 refused 20\n', ''))
        self.check('a vehicle of no division', self.enrol('D1,7,1,TQ303804,crewofd1'),
                   (1, 'D1 refused 13\n', ''))
        self.check('a token of another', self.enrol('A9,1,1,TQ303804,crewofa1'),
                   (1, 'A9 refused 21\n', ''))
        self.check('these changed nothing', dump(self.room), before)

    def test_token(self):
        self.check('its own token', self.enrol('A9,1,1,TQ303804,crewofa9'), (0, 'A9 added\n', ''))
        self.check('another token later', self.enrol('A9,1,1,TQ303804,crewofa1'),
                   (1, 'A9 refused 20\n', ''))

    def test_bad_rows(self):
        printed = self.enrol('a1,1,1,TQ303804,crewofa1', 'A7,1,1,TQ303804,crewofa7',
                             'A8,10,1,TQ303804,crewofa8', 'A8,1,4,TQ303804,crewofa8',
                             'A8,1,1,TX303804,crewofa8', 'A8,1,1,TQ303804,short')
        wanted = 'row 1 bad\nA7 added\nrow 3 bad\nrow 4 bad\nrow 5 bad\nrow 6 bad\n'
        self.assertEqual(printed, (1, wanted, ''))

    def test_another_header(self):
        fleet, missing = self.folder / 'other.csv', self.folder / 'missing.db'
        fleet.write_text('callsign,division\n')
        refused = (1, '', 'refused: input\n')
        self.check('another header', run('import', self.room, fleet), refused)
        self.check('the fleet is read before the room', run('import', missing, fleet), refused)

    def test_into_no_file(self):
        missing = self.folder / 'missing.db'
        self.check('import into no file', run('import', missing, FLEET),
                   (1, '', 'refused: file\n'))
        self.check('import makes no file', missing.exists(), False)

    def test_into_a_text(self):
        text = self.folder / 'text.db'
        text.write_text('this is no database, but it is long enough to have a header of one '
                        'hundred bytes, which is what counts here')
        self.assertEqual(run('import', text, FLEET), (3, '', 'storage\n'))

    def test_into_no_database(self):
        """An empty file, and one whose first page is not finished, as its first byte is written
        last."""
        for what, held in [('an empty file', b''), ('a begun file', bytes(512))]:
            room = self.folder / 'none.db'
            room.write_bytes(held)
            self.check(f'import into {what}', run('import', room, FLEET),
                       (1, '', 'refused: file\n'))
            files = [(it.name, it.read_bytes()) for it in self.folder.glob('none.db*')]
            self.check(f'{what} stays as it is, and is the only one', files, [('none.db', held)])


class Versions(TestCase):
    def test_first_version(self):
        """Files of version 1, which had no offers and no indexes but those of keys, whole and
        broken."""
        room = made(self.folder / 'first.db', A1)
        drop_indexes(room)
        sql(room, 'UPDATE meta SET version = 1; DROP TABLE offers')
        self.check('tables of version 1',
                   sql(room, 'SELECT count(*) FROM sqlite_schema WHERE sql IS NOT NULL'), '12\n')
        for what, change in [('whole', ''), ('of broken rows', 'DELETE FROM divisions'),
                             ('with a table less', 'DROP TABLE calls')]:
            sql(room, change)
            before = dump(room)
            for words in [('times', room, 3, 'today'), ('import', room, FLEET),
                          ('serve', room, '127.0.0.1:9', '--connections', '1')]:
                self.check(f'{words[0]} of a room of version 1, {what}', run(*words),
                           (1, '', 'refused: version\n'))
            self.check(f'a room of version 1, {what}, stays as it is', dump(room), before)

    def test_versions_that_are_printed(self):
        room = made(self.folder / 'printed.db')
        sql(room, 'UPDATE meta SET version = 1')
        self.check('a room that says it is of version 1', run('times', room, 1, '2026-03-29'),
                   (1, '', 'refused: version\n'))
        sql(room, 'UPDATE meta SET version = 3')
        self.check('a room of a version to come', run('times', room, 1, '2026-03-29'),
                   (3, '', 'storage\n'))


class Times(TestCase):
    """A day of 23 hours, whose incidents a script puts into the file."""

    def setUp(self):
        super().setUp()
        self.room = made(self.folder / 'times.db', A1)
        script = ['UPDATE divisions SET last_incident = 3 WHERE number = 1']
        for number, opened, first_order in [(1, 1774742400, 1774742520), (2, 1774825199, 'NULL'),
                                            (3, 1774825200, 'NULL')]:
            script.append(f'INSERT INTO incidents VALUES (1, {number}, 530000, 180000, 2, 1, 0, '
                          f'0, {opened}, {first_order}, 0, NULL)')
            script.append(f'INSERT INTO calls VALUES (1, {number}, 1, {number}, {number}, 0, '
                          f"530000, 180000, 2, 1, 0, 0, x'', {opened})")
        self.printed = sql(self.room, ';'.join(script))

    def test_times(self):
        self.check('a script', self.printed, '')
        header = 'incident,opened,activation\n'
        self.check('times', run('times', self.room, 1, '2026-03-29'),
                   (0, f'{header}1,1774742400,120\n2,1774825199,\n', ''))
        self.check('times of another day', run('times', self.room, 1, '2026-03-30')[1],
                   f'{header}3,1774825200,\n')
        self.check('times of a day without incidents', run('times', self.room, 2, '2026-03-29'),
                   (0, header, ''))

    def test_refused(self):
        """The file is looked at first, and then the division, and then the day."""
        missing = self.folder / 'no.db'
        self.check('times of no division', run('times', self.room, 3, '2026-02-30'),
                   (1, '', 'refused: division\n'))
        self.check('times of no day', run('times', self.room, 1, '2026-02-30'),
                   (1, '', 'refused: day\n'))
        self.check('times of no file', run('times', missing, 3, '2026-02-30'),
                   (1, '', 'refused: file\n'))


# ---- a room that is served

CALLED = (200, '{"division":1,"incident":1,"linked":false}')
ORDERED = (200, '{"order":1,"vehicle":"A1"}')
REPORTED = (200, '{"number":1,"outcome":"normal","status":2}')
PROPOSE = message('deskone1', 'GET /incidents/1/propose')
MOBILISE = message('deskone1', 'POST /incidents/1/mobilise', '{"vehicle":"A1"}')
REPORT = message('crewofa1', 'POST /report',
                 '{"button":"mobile","number":1,"order":1,"place":"TQ303804"}')


def duty():
    until = int(time.time()) + 3600
    body = f'{{"place":"TQ303804","until":{until}}}'
    return message('deskone1', 'POST /vehicles/A1/duty', body)


class Serve(TestCase):
    def setUp(self):
        super().setUp()
        self.room = made(self.folder / 'served.db', A1)

    def test_refused(self):
        self.check('no file',
                   run('serve', self.folder / 'no.db', '127.0.0.1:9', '--connections', '1'),
                   (1, '', 'refused: file\n'))

    def test_connections(self):
        """Five connections, what the file holds after them, and the room served again."""
        with serving(self.room, 5) as (port, process):
            self.check_connections(port)
            self.check('it ends by itself', process.wait(timeout=180), 0)
        held = ('SELECT (SELECT count(*) FROM calls), (SELECT count(*) FROM incidents), '
                '(SELECT status FROM vehicles), (SELECT count(*) FROM reports)')
        self.check('what the file holds', sql(self.room, held), '1|1|2|1\n')
        with serving(self.room, 1) as (port, process):
            _, body = ask(port, message('deskone1', 'GET /vehicles'))[0]
        vehicles = json.loads(body)['vehicles']
        self.check('served again',
                   [(it['vehicle'], it['status'], it['incident']) for it in vehicles],
                   [('A1', 2, 1)])

    def check_connections(self, port):
        self.check('pipelined', ask(port, call(1), call(1), duty()),
                   [CALLED, CALLED, (200, '{"done":true}')])
        self.check('a message that is cut', ask(port, call(2)[:-1]), [])
        self.check('a message that is refused closes', ask(port, b'nonsense\r\n\r\n', call(3)),
                   [(400, '{"error":"BadMessage","number":30}')])
        status, body = ask(port, PROPOSE)[0]
        proposal = {'breaks': False, 'distance': 500, 'kind': 1, 'vehicle': 'A1'}
        self.check('proposals', (status, json.loads(body)), (200, {'proposals': [proposal]}))
        self.check('an order and a report', ask(port, MOBILISE, REPORT, REPORT),
                   [ORDERED, REPORTED, REPORTED])

    def test_silent_peer(self):
        with serving(self.room, 2, '--idle', '3000', '--patience', '60') as (port, _):
            began = time.monotonic()
            with socket.create_connection(('127.0.0.1', port), timeout=180) as silent:
                self.check('after a silent peer the next is served',
                           ask(port, message('deskone1', 'GET /loans')), [(200, '{"loans":[]}')])
                self.check('a silent peer is let go', silent.recv(1), b'')
            took = time.monotonic() - began
        self.check(f'after about three seconds: {took}', 2.9 < took < 50, True)

    def test_what_is_in_use(self):
        other = made(self.folder / 'other.db')
        with serving(self.room, 1) as (port, _):
            self.check('a port that is taken',
                       run('serve', other, f'127.0.0.1:{port}', '--connections', '1'),
                       (4, '', 'network\n'))
            self.check('a file that is in use', run('times', self.room, 1, '2026-03-29'),
                       (3, '', 'storage\n'))


# ---- a program that is killed


def call_of(serial):
    """A call at a place of its own."""
    return call(serial, f'TQ3{serial % 100:02}8{serial // 100 % 100:02}')


def call_until_killed(port, process, serial):
    """Makes calls from a serial on, until the program is killed in the middle of them; gives the
    last serial, and the answers by their serials."""
    answers = {}
    threading.Timer(random.uniform(0.01, 0.12), process.send_signal, [signal.SIGKILL]).start()
    with contextlib.suppress(OSError), \
            socket.create_connection(('127.0.0.1', port), timeout=180) as it:
        stream = it.makefile('rb')
        while True:
            serial += 1
            it.sendall(call_of(serial))
            answer = read_answer(stream)
            if answer is None:
                break
            answers[serial] = answer
    return serial, answers


class Kill(TestCase):
    def test_kill(self):
        """The program is killed in the middle of a stream of calls, again and again: each call
        that was answered is kept."""
        room, serial, answers, kills = made(self.folder / 'killed.db'), 0, {}, 0
        until = time.monotonic() + 180
        while kills < 50 or len(answers) <= 100 and time.monotonic() < until:
            with serving(room, 1) as (port, process):
                serial, more = call_until_killed(port, process, serial)
                answers |= more
            kills += 1
        self.check('each call that was made was answered 200',
                   {status for status, _ in answers.values()}, {200})
        self.check('a good many were answered', len(answers) > 100, True)
        self.check('the room is opened again', run('times', room, 1, '2026-03-29')[0], 0)
        rows = sql(room, 'SELECT serial, incident FROM calls ORDER BY serial').split()
        found = dict(map(int, row.split('|')) for row in rows)
        self.check('no serial twice', len(rows), len(found))
        given = {it: json.loads(body)['incident'] for it, (_, body) in answers.items()}
        self.check('each answered call is in the file', {it: found.get(it) for it in given}, given)
        last = max(answers)
        with serving(room, 1) as (port, process):
            self.check('the last one again', ask(port, call_of(last)), [answers[last]])
