"""A disk that fails, from outside: each call in turn that reads or changes a file fails, singly or
with all calls after it. A request gets its answer or 42. After 42 either the room is served on and
nothing has changed, or it ends as `storage` within that connection, and its file holds the room
before the request or after it. The request, sent again to the room opened again, gets its answer. A
room that is reported as created stands."""
# needs: python3 gcc libc6-dev sqlite3
# builds: dispatch_room
import contextlib
import errno
import subprocess

from preloaded import LAST, SERVING, PreloadedTestCase, faults, sampled
from room import PATIENT, PLAN, ask, call, free_port, made, rows_of, run

FEW, MOST = 3, 6  # so many connections come to a service that is without end
NEVER = faults(0, 0)
ANSWERED = [(200, '{"division":1,"incident":1,"linked":false}')]
CREATED = b'created: divisions 2, areas 2, terminals 3\n'
FAILED = [(503, '{"error":"Storage","number":42}')]


class Faults(PreloadedTestCase):
    def served(self, switches, room, connections=2):
        """Serves a room to connections that send one call; the answers of each, the status, and what
        was printed."""
        port, answers = free_port(), []
        words = ['serve', room, f'127.0.0.1:{port}', '--connections', connections, *PATIENT]
        with self.program.start(switches, *words) as process:
            if process.stdout.readline() == b'serving\n':
                for _ in range(connections):
                    with contextlib.suppress(OSError):
                        answers.append(ask(port, call(1)))
            try:
                _, err = process.communicate(timeout=180)
            except subprocess.TimeoutExpired:
                process.kill()
                raise
        return answers, process.returncode, err

    def test_init(self):
        """What is reported as created stands, also where the file fails as it is closed."""
        ends = [(0, CREATED, b''), (3, CREATED, b'storage\n'), (3, b'', b'storage\n')]
        self.check('init', self.program.run(NEVER, 'init', self.fresh(), PLAN), ends[0])
        total, met = self.program.total(), set()
        for first in range(1, total + 1):
            file = self.fresh()
            end = self.program.run(faults(first, LAST), 'init', file, PLAN)
            with self.subTest(f'init, from {first} on'):
                self.assertIn(end, ends)
            if end[1]:
                self.check(f'init, from {first} on, then check', run('check', file)[0], 0)
            met.add(end)
        self.check('a fault is reported of a room that stands', ends[1] in met, True)

    def test_call(self):
        room = made(self.folder / 'served.db')
        file, before = self.fresh(room), rows_of(room)
        wanted = ([ANSWERED, ANSWERED], 0, b'')
        self.check('a call', self.served(NEVER, file), wanted)
        after, total = rows_of(file), self.program.total()
        ended = 0
        for first in sampled(total):
            for last, name in ((first, f'where {first} fails'), (LAST, f'from {first} on')):
                file = self.fresh(room)
                answers, status, err = self.served(faults(first, last), file)
                with self.subTest(f'a call, {name}: how it ends'):
                    self.assertIn((status, err), [(0, b''), (3, b'storage\n')])
                ended += status == 3 and answers[:1] == [FAILED]
                for answer in answers:
                    with self.subTest(f'a call, {name}: an answer'):
                        self.assertIn(answer, [ANSWERED, FAILED])
                now = rows_of(file)
                with self.subTest(f'a call, {name}: the room'):
                    self.assertIn(now, [after] if ANSWERED in answers else [before, after])
                self.check(f'a call, {name}, then the call', self.served(NEVER, file, 1),
                           ([ANSWERED], 0, b''))
                self.check(f'a call, {name}, then the call: the room', rows_of(file), after)
        self.check('a fault has ended the room', ended > 0, True)

    def served_on(self, switches, room):
        """Serves a room to whoever comes, without end: to connections that send one and the same
        call, until it answers no more, or has answered a few of them and last none with 42. The
        answers, the status (none where it is served on), and what was reported."""
        port, answers = free_port(), []
        words = ['serve', room, f'127.0.0.1:{port}', *PATIENT]
        with self.program.start(switches, *words) as process:
            is_served = process.stdout.readline() == b'serving\n'
            while is_served and len(answers) < (MOST if answers[-1:] == [FAILED] else FEW):
                answer = None
                with contextlib.suppress(OSError):
                    answer = ask(port, call(1))
                is_served = bool(answer)
                answers += [answer] if is_served else []
            with contextlib.suppress(subprocess.TimeoutExpired):
                process.wait(0 if is_served else 60)
            status = process.poll()
            process.kill()
            return answers, status, process.stderr.read()

    def test_service(self):
        """Each call of the disk in turn fails while a room is served to whoever comes. The request that
        meets it gets its answer or 42; the next one gets its answer, or the program has ended as
        `storage`, so that whoever started it starts it again."""
        room = made(self.folder / 'served.db')
        file, before = self.fresh(room), rows_of(room)
        served = self.served(NEVER | SERVING, file)
        self.check('a service', served, ([ANSWERED, ANSWERED], 0, b''))
        after, total = rows_of(file), self.program.total()
        ended = 0
        for first in range(1, total + 1):
            for error in (errno.EIO, errno.ENOSPC):
                name = f'a service, where {first} fails with {errno.errorcode[error]}'
                file = self.fresh(room)
                switches = faults(first, first, error) | SERVING
                answers, status, err = self.served_on(switches, file)
                ended += status == 3 and FAILED in answers
                with self.subTest(f'{name}: how it goes on'):
                    self.assertIn((status, err), [(None, b''), (3, b'storage\n')])
                with self.subTest(f'{name}: the answers'):
                    wanted = [ANSWERED] * len(answers)
                    if FAILED in answers:
                        wanted[answers.index(FAILED)] = FAILED
                    self.assertEqual(answers, wanted)
                    last = [ANSWERED] if status is None else [FAILED]
                    self.assertEqual(answers[-1:], last if answers else [])
                now = rows_of(file)
                with self.subTest(f'{name}: the room'):
                    self.assertIn(now, [after] if ANSWERED in answers else [before, after])
                self.check(f'{name}, then the call', self.served(NEVER, file, 1), ([ANSWERED], 0, b''))
                self.check(f'{name}, then the call: the room', rows_of(file), after)
        self.check('a fault has ended the service', ended > 0, True)
