"""What the tests of the program share: its commands, the dry run, the command sqlite3, a room that
is served, and what their test cases stand on."""
import collections
import contextlib
import email.utils
import errno
import io
import os
import pathlib
import pty
import random
import re
import socket
import subprocess
import tempfile
import time
import unittest

TOP = pathlib.Path(__file__).resolve().parent.parent
# What the tests make is theirs only, or the program would report that others can read a room.
os.umask(0o077)

PROGRAM = TOP / 'crates' / 'dispatch_room' / 'out' / 'dispatch_room'
DRY_RUN = TOP / 'crates' / 'dispatch_room_dry_run_main' / 'out' / 'dispatch_room_dry_run_main'
PLAN = TOP / 'examples' / 'plan.csv'
FLEET = TOP / 'examples' / 'fleet.csv'
PATIENCE = 180.0  # seconds that a test waits for what has to come, where other work has the machine


class TestCase(unittest.TestCase):
    """A test case with a folder. What differs is reported whole, and which of it was wanted."""

    def setUp(self):
        # (a process that was killed may not have ended yet, and still write there)
        self.folder = pathlib.Path(self.enterContext(
            tempfile.TemporaryDirectory(ignore_cleanup_errors=True)))

    def assertEqual(self, got, wanted, msg=None):
        if got != wanted:
            text = f'  wanted {wanted!r}\n  got    {got!r}'
            self.fail(text if msg is None else f'{msg}\n{text}')

    def check(self, what, got, wanted):
        """One check of several in a method, which goes on where it fails."""
        with self.subTest(what):
            self.assertEqual(got, wanted)

    def check_comes(self, what, get, wanted):
        """One check of what comes to be so: at once, or on a busy machine later."""
        end = time.monotonic() + PATIENCE
        while (got := get()) != wanted and time.monotonic() < end:
            time.sleep(0.05)
        self.check(what, got, wanted)


# ---- commands


def run(*words):
    """Runs a command; gives its status, what it printed, and what it wrote to standard error."""
    done = subprocess.run([PROGRAM, *map(str, words)], stdin=subprocess.DEVNULL,
                          capture_output=True, timeout=180)
    return done.returncode, done.stdout.decode(), done.stderr.decode()


def on_terminal(*words):
    """Runs a command whose standard error is a terminal; its status, and what stands there."""
    master, slave = pty.openpty()
    try:
        process = subprocess.Popen([PROGRAM, *map(str, words)], stdin=subprocess.DEVNULL,
                                   stdout=subprocess.DEVNULL, stderr=slave)
        status = process.wait(180)
    finally:
        os.close(slave)
    shown = b''
    try:
        while more := os.read(master, 4096):
            shown += more
    except OSError as error:  # so Linux reports that nobody has the other side any longer
        if error.errno != errno.EIO:
            raise
    finally:
        os.close(master)
    return status, shown.decode().replace('\r\n', '\n')


def sql(file, *texts):
    """What the command sqlite3 prints of a room's file."""
    done = subprocess.run(['sqlite3', '-bail', file, *texts], stdin=subprocess.DEVNULL,
                          capture_output=True, timeout=180)
    return done.stdout.decode() if done.returncode == 0 else f'sqlite3: {done.stderr.decode()}'


def dump(file):
    return sql(file, '.dump')


def rows_of(file):
    """All that the file holds, but for the moments of today."""
    return re.sub(r'\b\d{10}\b', 'MOMENT', dump(file))


def drop_indexes(file):
    """Drops the indexes of a room's file, and gives their names in the order in which they were
    made."""
    names = index_names(file)
    printed = sql(file, ';'.join(f'DROP INDEX {name}' for name in names))
    assert printed == '', printed
    return names


def index_names(file):
    return sql(file, "SELECT name FROM sqlite_schema "
                     "WHERE type = 'index' AND sql IS NOT NULL ORDER BY rowid").split()


def fleet_of(*rows):
    """The text of a fleet's file."""
    return '\n'.join(['callsign,division,kind,place,token', *rows]) + '\n'


def made(room, *rows):
    """A room of the example's plan, with rows of a fleet enrolled."""
    run('init', room, PLAN)
    if rows:
        fleet = room.with_suffix('.fleet')
        fleet.write_text(fleet_of(*rows))
        run('import', room, fleet)
    return room


# ---- the dry run


def dry_run(stdin, stdout=subprocess.PIPE, program=PROGRAM, **named):
    """Runs the dry run over a stream, or what is open; gives what it wrote, and its status with
    what it printed."""
    given = {'input': stdin} if isinstance(stdin, bytes) else {'stdin': stdin}
    done = subprocess.run([program], **given, stdout=stdout, stderr=subprocess.PIPE, timeout=180,
                          **named)
    return done.stdout, (done.returncode, done.stderr)


# How the dry run ends: its status, and what it says.
WELL = (0, b'')
CUT = (1, b'refused: connection\n')
FAULT = (4, b'network\n')

CLOSE = 'Connection: close\r\n'


def answer(status, content, more='', sent=None):
    """An answer of the dry run; of the content gets what is given, or else all."""
    head = (f'HTTP/1.1 {status}\r\nDate: Thu, 01 Jan 1970 00:16:40 GMT\r\n'
            f'Content-Type: application/json\r\nContent-Length: {len(content)}\r\n')
    return f'{head}{more}\r\n{content if sent is None else sent}'.encode()


def refusal(name, number):
    """The content of a refusal."""
    return f'{{"error":"{name}","number":{number}}}'


# ---- a room that is served


def held_port(port):
    """What keeps a port away from all other tests until it is closed: a name that only one has."""
    sign = socket.socket(socket.AF_UNIX)
    try:
        sign.bind(f'\0dispatch_room tests {port}')
    except OSError:
        sign.close()
        raise
    return sign


HELD = collections.deque(maxlen=100)  # the ports that this process was given last


def free_port():
    """A port that is free, below those that the system gives to connections by itself. No test that
    runs beside is given it, before it is served or while its server is away."""
    while True:
        port = random.randrange(10_000, 30_000)
        with contextlib.suppress(OSError), socket.socket() as it:
            it.bind(('127.0.0.1', port))
            HELD.append(held_port(port))
            return port


# Of a room that closes no connection where a busy machine keeps a test waiting.
PATIENT = ['--idle', '20000']


@contextlib.contextmanager
def serving(room, connections, *words, port=None):
    """Serves a room to so many connections, patiently by default, at a port that is free or at this
    one; gives the port, and the process."""
    port = port or free_port()
    command = [PROGRAM, 'serve', room, f'127.0.0.1:{port}', '--connections', str(connections)]
    process = subprocess.Popen([*command, *(words or PATIENT)], stdin=subprocess.DEVNULL,
                               stdout=subprocess.PIPE, stderr=subprocess.PIPE)
    try:
        line = process.stdout.readline()
        assert line == b'serving\n', f'not served: {line} {process.stderr.read()}'
        yield port, process
    finally:
        process.kill()
        process.communicate()


def message(token, line, body=''):
    head = f'{line} HTTP/1.1\r\nHost: room\r\nX-Terminal: {token}\r\n'
    return f'{head}Content-Length: {len(body)}\r\n\r\n{body}'.encode()


def call(serial, place='TQ300800'):
    body = f'{{"class":2,"needs":[1,0,0],"note":"","place":"{place}","serial":{serial}}}'
    return message('takerone', 'POST /call', body)


def read_answer(stream):
    """The status and the body of the next answer; nothing at the end."""
    found = read_dated(stream)
    return found and found[1:]


def read_dated(stream):
    """The moment, the status and the body of the next answer; nothing at the end. What has no Date
    has no moment."""
    head = b''
    while not head.endswith(b'\r\n\r\n'):
        line = stream.readline()
        if not line:
            return None
        head += line
    lines = head.decode().split('\r\n')
    named = (it.split(': ', 1) for it in lines[1:] if it)
    fields = {name.lower(): value for name, value in named}
    body = stream.read(int(fields['content-length']))
    if len(body) != int(fields['content-length']):
        return None
    date = email.utils.parsedate_to_datetime(fields['date']) if 'date' in fields else None
    return date and int(date.timestamp()), int(lines[0].split(' ')[1]), body.decode()


def talk(port, *messages):
    """Sends messages over one connection, in one piece, and gives the bytes that come until it
    ends."""
    with socket.create_connection(('127.0.0.1', port), timeout=180) as it:
        it.sendall(b''.join(messages))
        it.shutdown(socket.SHUT_WR)
        return it.makefile('rb').read()


def ask(port, *messages):
    """Sends messages over one connection, in one piece, and gives the answers until it ends."""
    stream = io.BytesIO(talk(port, *messages))
    return list(iter(lambda: read_answer(stream), None))
