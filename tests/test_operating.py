"""What docs/OPERATING.md says to whoever runs a room: how it is stopped and started again, what a
copy of it holds that was made while it was served, after it, or after the program was killed, and
what comes of a full disk."""
# needs: python3 sqlite3
# builds: dispatch_room
import contextlib
import os
import re
import resource
import shutil
import signal
import socket
import subprocess
import threading
import time

from room import (PATIENT, PROGRAM, TOP, TestCase, ask, call, dump, free_port, made, message, run,
                  serving, sql)

ANSWERED = (200, '{"division":1,"incident":1,"linked":false}')
LINKED = (200, '{"division":1,"incident":1,"linked":true}')
FAILED = (503, '{"error":"Storage","number":42}')
STORAGE = (3, '', 'storage\n')
CALLS = 'SELECT count(*) FROM calls'
QUEUE = message('deskone1', 'GET /queue')
COPIES = 20


def log_of(room):
    """The log beside a room's file."""
    return room.with_name(f'{room.name}-wal')


def copied(room, to):
    """A room's file and its log, copied only by the system."""
    shutil.copy(room, to)
    shutil.copy(log_of(room), log_of(to))
    return to


def call_of(serial):
    """A call at a place of its own."""
    return call(serial, f'TQ3{serial % 100:02}8{serial // 100 % 100:02}')


def calls_in(room):
    """How many calls a room has, once it has been opened by the program."""
    status, _, printed = run('times', room, 1, '2026-03-29')
    return sql(room, CALLS).strip() if (status, printed) == (0, '') else (status, printed)


class OperatingTestCase(TestCase):
    def setUp(self):
        super().setUp()
        self.room = made(self.folder / 'room.db')
        self.copy = self.folder / 'copy.db'

    @contextlib.contextmanager
    def called(self, connections=2):
        """The room is served, and one of its connections has made a call that was answered."""
        with serving(self.room, connections) as (port, process):
            self.assertEqual(ask(port, call(1)), [ANSWERED])
            yield port, process

    def kill(self):
        """Leaves the room as a program does that was killed after a call was answered."""
        with self.called() as (_, process):
            process.kill()
            process.wait(timeout=180)

    def end(self):
        """Leaves the room as a program does that came to its end after a call."""
        with self.called(1) as (_, process):
            process.wait(timeout=180)


class Document(OperatingTestCase):
    """What the document says of the program in words."""

    def setUp(self):
        super().setUp()
        self.text = (TOP / 'docs' / 'OPERATING.md').read_text()

    def test_faults(self):
        """Each fault that the program reports is in the table."""
        endings = TOP / 'crates' / 'dispatch_room_exit' / 'src' / 'exit_status.rt'
        faults = re.findall(r'#\[error\("(.*)"\)\]', endings.read_text())
        self.check('there are faults', 'storage' in faults, True)
        for fault in faults:
            with self.subTest(fault):
                self.assertIn(f'`{fault.replace("{0}", "K")}`', self.text)

    def test_words(self):
        """The words of a unit that is changed are taken."""
        line = r'^ +ExecStart=/usr/bin/dispatch_room ((?:.*\\\n)*.*)$'
        words = re.search(line, self.text, re.M)[1].replace('\\\n', '')
        serve, _, _, *more = words.split()
        words = [PROGRAM, serve, self.room, f'127.0.0.1:{free_port()}', *more]
        with subprocess.Popen(words, stdout=subprocess.PIPE) as process:
            self.check('it is served', process.stdout.readline(), b'serving\n')
            process.kill()


class Served(OperatingTestCase):
    """Copies of a room while it is served."""

    def test_locked(self):
        """Whatever wants to open it learns that it is locked, and the room is served on."""
        with self.called() as (port, _):
            for text in [CALLS, f'.backup {self.copy}', f"VACUUM INTO '{self.copy}'"]:
                with self.subTest(text):
                    self.assertIn('database is locked', sql(self.room, text))
            self.check('no copy is made', self.copy.exists() and self.copy.stat().st_size, False)
            self.check('the program', run('times', self.room, 1, '2026-03-29'), STORAGE)
            self.check('it is served on', ask(port, call(1)), [ANSWERED])

    def test_past_the_lock(self):
        """What heeds no lock finds the file without its log."""
        with self.called():
            self.check('sqlite3', sql(f'file:{self.room}?immutable=1', CALLS), '0\n')
            shutil.copy(self.room, self.copy)
        self.check('a copy of only the file', calls_in(self.copy), '0')

    def test_one_after_the_other(self):
        """A file and a log of two moments are no room."""
        with self.called(10000) as (port, _):
            shutil.copy(self.room, self.copy)
            size, serial = self.room.stat().st_size, 1
            while self.room.stat().st_size == size:
                serial += 1
                ask(port, call_of(serial))
            ask(port, call_of(serial + 1))
            shutil.copy(log_of(self.room), log_of(self.copy))
        self.check('the copy', run('times', self.copy, 1, '2026-03-29'), STORAGE)
        self.check('the room', calls_in(self.room), str(serial + 1))

    def test_held(self):
        """Copies of both files, made while the program is held, have each call that was
        answered."""
        answered, copies = [], [self.folder / f'copy{it}.db' for it in range(COPIES)]
        with serving(self.room, 65535) as (port, process):
            caller = Caller(port)
            for copy in copies:
                caller.goes_on()
                time.sleep(0.02)
                process.send_signal(signal.SIGSTOP)
                os.waitid(os.P_PID, process.pid, os.WSTOPPED)
                answered.append(caller.answered)
                copied(self.room, copy)
                process.send_signal(signal.SIGCONT)
            caller.end()
        found = [int(calls_in(it)) for it in copies]
        for number, (least, calls) in enumerate(zip(answered, found)):
            with self.subTest(f'copy {number}'):
                self.assertIn(calls, [least, least + 1])
        self.check('calls were answered between the copies', found[0] < found[-1], True)
        self.check('it is served on after the last', caller.answered > answered[-1], True)


class Caller(threading.Thread):
    """Makes calls, a connection each, and makes a call again that was not answered."""

    def __init__(self, port):
        super().__init__()
        self.port, self.answered, self.is_ending = port, 0, False
        self.start()

    def run(self):
        while not self.is_ending:
            with contextlib.suppress(OSError):
                self.answered += len(ask(self.port, call_of(self.answered + 1)))

    def goes_on(self):
        """Waits for one more answer."""
        last, until = self.answered, time.monotonic() + 180
        while self.answered == last and time.monotonic() < until:
            time.sleep(0.001)

    def end(self):
        """Ends it after one more answer."""
        self.goes_on()
        self.is_ending = True
        self.join()


class NotServed(OperatingTestCase):
    """Copies of a room that is not served."""

    def test_after_the_end(self):
        self.end()
        self.check_copies()

    def test_after_a_kill(self):
        self.kill()
        self.check_copies()

    def check_copies(self):
        """Each way to copy a room, over files as they were left."""
        before = dump(copied(self.room, self.folder / 'before.db'))
        self.check_copy('cp', copied(self.room, self.copy), before)
        for name, text in [('backup', '.backup {}'), ('vacuum', "VACUUM INTO '{}'")]:
            room, copy = copied(self.room, self.folder / f'of-{name}.db'), self.folder / name
            self.check(f'{name}: what sqlite3 says', sql(room, text.format(copy)), '')
            self.check_copy(name, copy, before)

    def check_copy(self, name, copy, before):
        self.check(f'{name}: opened', calls_in(copy), '1')
        self.check(f'{name}: its rows', dump(copy), before)

    def test_other_pages(self):
        """A room has pages of 512 bytes. A copy with others is the same room, and is served as it
        is."""
        self.end()
        self.check('the pages of a room', sql(self.room, 'PRAGMA page_size'), '512\n')
        for size in [4096, 512]:
            printed = sql(self.room, f"PRAGMA page_size = {size}; VACUUM INTO '{self.copy}'")
            self.check('what sqlite3 says', printed, '')
            self.check('its rows', dump(self.copy), dump(self.room))
            with serving(self.copy, 1) as (port, process):
                self.check('it is served', ask(port, call(1), call(2)), [ANSWERED, LINKED])
                process.wait(timeout=180)
            self.check('its pages', sql(self.copy, 'PRAGMA page_size'), f'{size}\n')
            self.check('its calls', sql(self.copy, CALLS), '2\n')
            self.room, self.copy = self.copy, self.folder / 'second.db'

    def test_the_file_alone(self):
        """After an end it is the room."""
        self.end()
        shutil.copy(self.room, self.copy)
        self.check('after the end', calls_in(self.copy), '1')

    def test_the_file_alone_after_a_kill(self):
        """It lacks the log, until the room was opened again."""
        self.kill()
        shutil.copy(self.room, self.copy)
        self.check('after a kill', calls_in(self.copy), '0')
        self.check('it is opened', run('times', self.room, 1, '2026-03-29')[0], 0)
        later = shutil.copy(self.room, self.folder / 'later.db')
        self.check('after that', calls_in(later), '1')

    def test_open_elsewhere(self):
        """While sqlite3 has the file open, the room is not opened."""
        words = ['sqlite3', self.room]
        with subprocess.Popen(words, stdin=subprocess.PIPE, stdout=subprocess.PIPE) as it:
            it.stdin.write(f'{CALLS};\n'.encode())
            it.stdin.flush()
            self.check('sqlite3 reads', it.stdout.readline(), b'0\n')
            self.check('the program', run('times', self.room, 1, '2026-03-29'), STORAGE)
            it.communicate()
        self.check('once it is closed', calls_in(self.room), '0')

    def test_second_name(self):
        """A file with two names is not opened."""
        os.link(self.room, self.copy)
        self.check('with two names', calls_in(self.room), (3, 'storage\n'))
        self.copy.unlink()
        self.check('with one', calls_in(self.room), '0')


class Stopped(OperatingTestCase):
    def test_signal(self):
        """The signal of a stop ends it at once; what was answered is there."""
        with self.called() as (_, process):
            process.terminate()
            self.check('its status', process.wait(timeout=180), -signal.SIGTERM)
        self.check('what was answered', calls_in(self.room), '1')

    def test_callers(self):
        """Who waits as the program ends gets no answer, and who comes after is refused."""
        with serving(self.room, 1) as (port, process):
            first = socket.create_connection(('127.0.0.1', port), timeout=180)
            with socket.create_connection(('127.0.0.1', port), timeout=180) as waits:
                waits.sendall(call(1))
                first.close()
                self.check('it ends', process.wait(timeout=180), 0)
                self.check('who waited', answer_of(waits), b'')
            with self.assertRaises(ConnectionRefusedError):
                socket.create_connection(('127.0.0.1', port), timeout=180)
        with serving(self.room, 1) as (port, _):
            self.check('sent again', ask(port, call(1)), [ANSWERED])


def answer_of(stream):
    """What comes over a connection until it ends or is reset."""
    with contextlib.suppress(ConnectionResetError):
        return stream.makefile('rb').read()
    return b''


class FullDisk(OperatingTestCase):
    """A disk that has no room for longer files: the system lets the program write over what is
    there, and refuses what would lie behind it."""

    @contextlib.contextmanager
    def served(self):
        """The room served by a program that goes on where its files can't grow."""
        port = free_port()
        words = ['serve', self.room, f'127.0.0.1:{port}', '--connections', '1000', *PATIENT]
        # Python ignores the signal of a file that is too long, and so does what it starts.
        with subprocess.Popen([PROGRAM, *words], stdout=subprocess.PIPE,
                              restore_signals=False) as process:
            try:
                self.assertEqual(process.stdout.readline(), b'serving\n')
                yield port, process
            finally:
                process.kill()

    def limit(self, process, longest):
        """How long the files of a program may get."""
        most = resource.getrlimit(resource.RLIMIT_FSIZE)[1]
        longest = most if longest is None else longest
        resource.prlimit(process.pid, resource.RLIMIT_FSIZE, (longest, most))

    def test_full_disk(self):
        with self.served() as (port, process):
            self.check('a call', ask(port, call_of(1)), [ANSWERED])
            self.limit(process, max(os.stat(it).st_size for it in self.folder.glob('room.db*')))
            serial, got = 1, []
            while got != [FAILED] and serial < 100:
                serial += 1
                got = ask(port, call_of(serial))
            self.check('in the end a call is refused', got, [FAILED])
            self.check('and again', ask(port, call_of(serial)), [FAILED])
            self.check('a call that was answered', ask(port, call_of(1)), [ANSWERED])
            self.check('a question', [it for it, _ in ask(port, QUEUE)], [200])
            self.limit(process, None)
            self.check('once there is room', [it for it, _ in ask(port, call_of(serial))], [200])
        self.check('what was answered', calls_in(self.room), str(serial))
