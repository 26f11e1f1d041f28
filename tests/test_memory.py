"""Memory from outside: each allocation of the program is refused in turn, singly or with all that
come after it. What was answered stands, what was not has changed nothing, and the same command
then ends well. Where the program gets along without what was refused, it does as ever. A room that
is served goes on after a request that was refused for memory, and answers it when it comes
again."""
# needs: python3 gcc libc6-dev sqlite3
# builds: dispatch_room
import bisect
import re

from boards import EMPTY, UNHEARD, UNHURRIED, peer, without_tables
from first_version import all_rows, old_room
from preloaded import EVERY, LAST, PreloadedTestCase, clock_of, refusals
from room import (FLEET, PATIENT, PLAN, call, dump, free_port, made, message, rows_of, run, sql,
                  talk)
from scripts import ROWS, answers, messages

# How the program ends where it wants memory, and its last answer then.
NO_MEMORY = (5, b'', b'memory\n')
WANT = (b'HTTP/1.1 503 Service Unavailable\r\nContent-Type: application/json\r\n'
        b'Content-Length: 30\r\nConnection: close\r\n\r\n'
        b'{"error":"Memory","number":41}')



NOTHING = refusals(0, 0)

# ---- the dry run

DRY_RUN = [
    message('deskone1', 'POST /points/7', '{"cover":2,"place":"TQ300800"}'),
    message('deskone1', 'POST /vehicles/A1/duty', '{"place":"TQ303804","until":50000}'),
    message('deskone1', 'POST /vehicles/A2/duty', '{"place":"TQ304803","until":50000}'),
    message('deskone1', 'POST /vehicles/A2/standby', '{"point":7}'),
    call(1),
    message('deskone1', 'GET /incidents/1/propose'),
    message('deskone1', 'POST /incidents/1/mobilise', '{"vehicle":"A1"}'),
    message('crewofa1', 'POST /report',
            '{"button":"scene","number":1,"order":1,"place":"TQ300800"}'),
    message('deskone1', 'GET /queue'),
    message('deskone1', 'POST /queue/A1/1/clear'),
    message('deskone1', 'POST /vehicles/A2/lend', '{"to":2,"until":9000}'),
    message('desktwo2', 'POST /vehicles/A2/accept'),
    message('deskone1', 'GET /loans'),
    message('deskone1', 'GET /vehicles'),
    message('deskone1', 'GET /times/1970-01-01'),
]


def split(answers):
    """The answers of a stream, each whole."""
    found = []
    while answers:
        head, _, _ = answers.partition(b'\r\n\r\n')
        length = len(head) + 4 + int(re.search(rb'Content-Length: (\d+)', head)[1])
        found.append(answers[:length])
        answers = answers[length:]
    return found


# ---- the commands over a file

CALLSIGNS = ['A1', 'A2', 'A3', 'B1', 'C1']

INCIDENT = """
UPDATE divisions SET last_incident = 1 WHERE number = 1;
INSERT INTO incidents VALUES (1, 1, 530000, 180000, 2, 1, 0, 0, 1774742400, NULL, 0, NULL);
INSERT INTO calls VALUES (1, 1, 1, 1, 1, 0, 530000, 180000, 2, 1, 0, 0, x'', 1774742400);
"""

# What comes of a call to a room that is served, and what may come of it where memory is refused:
# the answers, the status, and what is reported.
ANSWERED = [(200, '{"division":1,"incident":1,"linked":false}')]
WANTING = [(503, '{"error":"Memory","number":41}')]
CALLED = (ANSWERED, 0, b'')
ENDS = [CALLED, (ANSWERED, 5, b'memory\n'), (WANTING, 0, b''), (WANTING, 5, b'memory\n'),
        (WANTING, 3, b'storage\n'), ([], 5, b'memory\n')]


class MemoryTestCase(PreloadedTestCase):
    """A test case that refuses allocations in turn."""

    def numbers(self, most):
        """Which allocations are refused, once a run with nothing refused has shown how many there
        are: each of the first, then one in so many that there are about so many in all; with --all
        each of them."""
        total = self.program.total()
        self.check('memory is asked for', total > 0, True)
        most = 2 * total if EVERY else most
        near = range(1, min(total, most // 2) + 1)
        far = range(len(near) + 1, total + 1, 1 + (total - len(near)) // (most // 2))
        return [*near, *far]


class Memory(MemoryTestCase):
    def each(self, most):
        """What is refused in turn, each allocation singly and with all that follow it; beside it,
        its name."""
        for number in self.numbers(most):
            yield refusals(number, number), f'allocation {number}'
            yield refusals(number, LAST), f'allocation {number} and all after it'

    def test_dry_run(self):
        stream = b''.join(DRY_RUN)
        ever = status, out, err = self.program.run(NOTHING, given=stream)
        answers = split(out)
        self.check('the dry run', (status, err, [answer[:15] for answer in answers]),
                   (0, b'', [b'HTTP/1.1 200 OK'] * len(DRY_RUN)))
        ends = [NO_MEMORY]
        ends += [(0, b''.join(answers[:count]) + WANT, b'') for count in range(len(answers))]
        ends += [ever]
        numbers = range(1, self.program.total() + 1)
        for refused, name in self.each(400):
            with self.subTest(f'the dry run without {name}'):
                self.assertIn(self.program.run(refused, given=stream), ends)

        def end_before(number):
            """Which of the ends it is, where so many allocations are refused and all after them:
            the later, the more is answered."""
            return ends.index(self.program.run(refusals(number, LAST), given=stream))

        met = [bisect.bisect_left(numbers, place, key=end_before) for place in range(len(ends) - 1)]
        self.check('memory is wanted before and at each answer',
                   [end_before(numbers[it]) for it in met], [*range(len(ends) - 1)])

    def test_init(self):
        ever = (0, b'created: divisions 2, areas 2, terminals 3\n', b'')
        self.check('init', self.program.run(NOTHING, 'init', self.fresh(), PLAN), ever)
        for refused, name in self.each(80):
            file = self.fresh()
            done = self.program.run(refused, 'init', file, PLAN)
            if done == ever:
                continue
            self.check(f'init without {name}', done, NO_MEMORY)
            tables = sql(file, 'SELECT count(*) FROM sqlite_schema') if file.exists() else '0\n'
            self.check(f'init without {name} makes no table', tables, '0\n')
            again = self.program.run(NOTHING, 'init', file, PLAN)
            self.check(f'init without {name}, then init', again, ever)

    def test_import(self):
        """The rows reported are in the file, each a vehicle with its crew, and no other."""
        room = made(self.folder / 'room.db')
        file = self.fresh(room)
        whole = ''.join(f'{it} added\n' for it in CALLSIGNS)
        self.check('import', self.program.run(NOTHING, 'import', file, FLEET),
                   (0, whole.encode(), b''))
        wanted = dump(file)
        for refused, name in self.each(80):
            self.import_without(refused, f'import without {name}', room, wanted)

    def import_without(self, refused, name, room, wanted):
        file = self.fresh(room)
        status, out, err = self.program.run(refused, 'import', file, FLEET)
        count = out.count(b'\n')
        printed = ''.join(f'{it} added\n' for it in CALLSIGNS[:count])
        self.check(f'{name}: what is reported', out.decode(), printed)
        with self.subTest(f'{name}: the end, after {count}'):
            ends = [(5, b'memory\n'), (0, b'')] if count == 5 else [(5, b'memory\n')]
            self.assertIn((status, err), ends)
        vehicles = sql(file, 'SELECT callsign FROM vehicles ORDER BY rowid').split()
        self.check(f'{name}: its vehicles', vehicles, CALLSIGNS[:count])
        crews = sql(file, 'SELECT callsign FROM terminals WHERE role = 2 ORDER BY rowid').split()
        self.check(f'{name}: its crews', crews, CALLSIGNS[:count])
        again = ''.join(f'{it} {"same" if at < count else "added"}\n'
                        for at, it in enumerate(CALLSIGNS))
        self.check(f'{name}, then import', self.program.run(NOTHING, 'import', file, FLEET),
                   (0, again.encode(), b''))
        self.check(f'{name}, then import: the file', dump(file), wanted)

    def test_times(self):
        room = made(self.folder / 'times.db')
        sql(room, INCIDENT)
        words = 'times', room, 1, '2026-03-29'
        ever = (0, b'incident,opened,activation\n1,1774742400,\n', b'')
        before = dump(room)
        self.check('times', self.program.run(NOTHING, *words), ever)
        for refused, name in self.each(80):
            done = self.program.run(refused, *words)
            with self.subTest(f'times without {name}'):
                self.assertIn(done, [NO_MEMORY, ever])
            self.check(f'times without {name} changes nothing', dump(room), before)
        self.check('times after all', self.program.run(NOTHING, *words), ever)

    def test_check(self):
        room = made(self.folder / 'checked.db')
        sql(room, INCIDENT)
        status, printed, _ = ever = self.program.run(NOTHING, 'check', room)
        self.check('check', status, 0)
        before = dump(room)
        for refused, name in self.each(80):
            done = self.program.run(refused, 'check', room)
            with self.subTest(f'check without {name}'):
                self.assertIn(done, [NO_MEMORY, (NO_MEMORY[0], printed, NO_MEMORY[2]), ever])
            self.check(f'check without {name} changes nothing', dump(room), before)
        self.check('check after all', self.program.run(NOTHING, 'check', room), ever)

    def test_migrate(self):
        """What is reported moved is of version 2. Where memory runs out, the file is of version 1,
        or of version 2 where there was none as the file was closed."""
        room = old_room(self.folder / 'old.db')
        file, before, ever = self.fresh(room), all_rows(room), (0, b'migrated\n', b'')
        self.check('migrate', self.program.run(NOTHING, 'migrate', file), ever)
        after = all_rows(file)
        self.check('migrate changes the room', before != after, True)
        for refused, name in self.each(80):
            file = self.fresh(room)
            done = self.program.run(refused, 'migrate', file)
            found = all_rows(file)
            with self.subTest(f'migrate without {name}'):
                self.assertIn((done, found), [(NO_MEMORY, before), (NO_MEMORY, after),
                                              (ever, after)])
            if found == before:
                again = self.program.run(NOTHING, 'migrate', file)
                self.check(f'migrate without {name}, then migrate', again, ever)
                self.check(f'migrate without {name}, then migrate: the room', all_rows(file), after)

    def test_board(self):
        """A board that can't reach its room for lack of memory says that it can't."""
        def looked(refused):
            with peer(lambda stream: stream.sendall(b''.join(EMPTY))) as (address, _):
                return self.program.run(refused, 'board', address, 'deskone1', *UNHURRIED)
        ever, unheard = looked(NOTHING), (4, without_tables(UNHEARD).encode(), b'network\n')
        self.check('board', (ever[0], ever[2]), (0, b''))
        for refused, name in self.each(80):
            with self.subTest(f'board without {name}'):
                self.assertIn(looked(refused), [NO_MEMORY, unheard, ever])
        self.check('board after all', looked(NOTHING), ever)

    def test_serve(self):
        room = made(self.folder / 'served.db')
        file, before = self.fresh(room), rows_of(room)
        self.check('a call', self.program.serve(NOTHING, file, call(1)), CALLED)
        after = rows_of(file)
        self.check('a call changes the room', before != after, True)
        for refused, name in self.each(80):
            file = self.fresh(room)
            done = self.program.serve(refused, file, call(1))
            with self.subTest(f'a call without {name}'):
                self.assertIn(done, ENDS)
            is_answered = done[0] == ANSWERED
            self.check(f'a call without {name}: the room', rows_of(file),
                       after if is_answered else before)
            again = self.program.serve(NOTHING, file, call(1))
            self.check(f'a call without {name}, then the call', again, CALLED)
            self.check(f'a call without {name}, then the call: the room', rows_of(file), after)

    def test_log(self):
        """A log for whose line memory fails changes no answer. Its line is made at the end."""
        room = made(self.folder / 'served.db')

        def logged(refused):
            answers, status, err = self.program.serve(refused, self.fresh(room), call(1), '--log')
            line, _, err = err.rpartition(b' ms\n')
            return line[20:].rpartition(b' ')[0], (answers, status, err)
        line = b' position 1 POST /call 200'
        self.check('a call that is logged', logged(NOTHING), (line, CALLED))
        last, lines = self.program.total(), set()
        for number in range(last - 40, last + 1):
            printed, done = logged(refusals(number, number))
            with self.subTest(f'a call that is logged without allocation {number}'):
                self.assertIn(done, ENDS)
            if done == CALLED:
                lines.add(printed)
        self.check('with a line and without', lines, {b'', line})


def is_want(answer):
    """Whether a message is refused for memory."""
    return answer.content == WANTING[0][1]


class Again(MemoryTestCase):
    """One room in one process, after a request that was refused for memory."""

    def setUp(self):
        super().setUp()
        self.moment = self.folder / 'moment'
        self.room = made(self.folder / 'again.db')
        run('import', self.room, FLEET)

    def talk_to(self, port, asked):
        """The answer to a message over a connection of its own, at its moment; none where the
        program has ended."""
        self.moment.write_text(asked.moment)
        try:
            got = talk(port, asked.text().encode())
        except OSError:
            return None
        return answers(got.decode(), [asked])[0] if got else None

    def serve(self, refused, file, left, spare=0):
        """Serves a room to messages, and to so many more. Takes off those that are answered, and
        gives the answers, those that are refused for memory too, and how the room ended."""
        port, got = free_port(), []
        words = 'serve', file, f'127.0.0.1:{port}', '--connections', len(left) + spare, *PATIENT
        with self.program.start(refused | clock_of(self.moment), *words) as process:
            answer = process.stdout.readline() == b'serving\n'
            while answer and left:
                answer = self.talk_to(port, left[0])
                if answer:
                    got.append(answer)
                    if not is_want(answer):
                        left.pop(0)
            if spare and not left:
                process.kill()
            _, err = process.communicate(timeout=180)
        return got, (process.returncode, err)

    def check_answers(self, what, asked, got):
        """Each message is answered as its script wants it."""
        self.check(f'{what}: each message is answered', len(got), len(asked))
        for message, answer, before in zip(asked, got, [None, *got]):
            with self.subTest(f'{what}: {message.line}'):
                self.assertTrue(message.fits(answer, before),
                                f'  wanted {message.wanted}\n  got    {answer}')

    def play(self, name):
        """Plays a script, with one allocation refused; where the room ends, it is served again."""
        asked = messages(ROWS / name)
        file = self.fresh(self.room)
        got, end = self.serve(NOTHING, file, list(asked))
        self.check(f'{name}: how it ends', end, (0, b''))
        self.check_answers(name, asked, got)
        wanted, went_on = dump(file), 0
        for number in self.numbers(60):
            what = f'{name} without allocation {number}'
            file, left = self.fresh(self.room), list(asked)
            got, end = self.serve(refusals(number, number), file, left, spare=1)
            went_on += not left and any(map(is_want, got))
            if left:
                with self.subTest(f'{what}: how it ends'):
                    self.assertIn(end, [(5, b'memory\n'), (3, b'storage\n')])
                got += self.serve(NOTHING, file, left)[0]
            self.check_answers(what, asked, [it for it in got if not is_want(it)])
            self.check(f'{what}: the room', dump(file), wanted)
        self.check(f'{name}: a request that was refused is answered', went_on > 0, True)

    def test_orders_and_reports(self):
        self.play('orders-and-reports.rows')

    def test_an_offer(self):
        self.play('offer-accepted.rows')
