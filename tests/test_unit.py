"""The unit of systemd: that systemd takes it, and what its lines do, run in the order in which
systemd runs them, whatever was typed before: the folder made, the room, its fleet, and a start."""
# needs: python3 systemd curl haproxy
# builds: dispatch_room
import contextlib
import http.server
import itertools
import os
import pathlib
import re
import shlex
import shutil
import socket
import subprocess
import threading
import time

from room import FLEET, PLAN, PROGRAM, TOP, TestCase, ask, call, free_port, made, message, run

UNIT = TOP / 'examples' / 'dispatch_room.service'
OF_METRICS = TOP / 'examples' / 'metrics' / 'dispatch_room_metrics.service'
OF_PAGES = TOP / 'examples' / 'desks' / 'dispatch_desks.service'
OF_NIGHTS = [TOP / 'examples' / 'backup' / 'dispatch-room-backup.service',
             TOP / 'examples' / 'weekly' / 'dispatch-room-renew.service']
TIMERS = [it.with_suffix('.timer') for it in OF_NIGHTS]
OPERATING = TOP / 'docs' / 'OPERATING.md'
INSTALLED = '/usr/bin/dispatch_room'
# Whose the folder is where root runs the tests: another's, as in a unit with a user of its own.
OWNER = 65534 if os.geteuid() == 0 else os.geteuid()


def settings(unit):
    """What stands in the unit, each name with its values in their order."""
    found = {}
    for line in unit.read_text().replace('\\\n', '').splitlines():
        if '=' in line and not line.startswith('#'):
            name, _, value = line.partition('=')
            found.setdefault(name, []).append(value)
    return found


def analyze(*words):
    """The status of systemd's own judge, and what it said."""
    done = subprocess.run(['systemd-analyze', '--no-pager', *words], stdin=subprocess.DEVNULL,
                          capture_output=True, timeout=180, env=os.environ | {'LC_ALL': 'C'})
    return done.returncode, (done.stdout + done.stderr).decode()


class Form(TestCase):
    def verified(self, unit, text):
        """What systemd says of a text as a unit of that name, where the program is there."""
        program = self.folder / 'program'
        if not program.exists():
            shutil.copy('/bin/true', program)
        file = self.folder / unit.name
        file.write_text(re.sub(r'/usr/(bin/dispatch_room|share/doc/\S+\.(py|sh))', str(program),
                               text))
        return analyze('verify', '--man=no', file)

    def test_verify(self):
        # (a timer is one of a service, which stands beside it then)
        for unit in UNIT, OF_METRICS, OF_PAGES, *OF_NIGHTS, *TIMERS:
            text = unit.read_text()
            self.check(f'{unit.name} as it is', self.verified(unit, text), (0, ''))
            why = self.verified(unit, text.replace('Description=', 'Descriptoin='))[1]
            self.check('a word that is none', re.findall("Unknown key.*'(.*)'", why),
                       ['Descriptoin'])
            if unit not in TIMERS:
                status, _ = self.verified(unit, text.replace('ExecStart=/', 'ExecStart=/nowhere/'))
                self.check('a program that is not there', status != 0, True)
                self.verified(unit, text)

    def test_calendar(self):
        for timer in TIMERS:
            for when in settings(timer)['OnCalendar']:
                self.check(f'{timer.name}: {when}', analyze('calendar', when)[0], 0)

    def test_exposure(self):
        """By systemd's own measure, from 0 to 10, little is left to it."""
        words = ['security', '--offline=true', '--threshold=20']
        for unit in UNIT, OF_PAGES, OF_METRICS, *OF_NIGHTS:
            self.check(f'{unit.name} is safe', analyze(*words, unit)[0], 0)
        bare = self.folder / 'bare.service'
        bare.write_text('[Service]\nExecStart=/bin/true\n')
        self.check('a bare one', analyze(*words, bare)[0] != 0, True)

    def test_exit_statuses(self):
        """It is not started again where another start ends the same way."""
        self.check('never again', settings(UNIT)['RestartPreventExitStatus'], ['1 2'])
        self.check('a word that is wrong', run('serve', 'a', 'b')[0], 2)
        self.check('no room', run('serve', self.folder / 'a', '127.0.0.1:9')[0], 1)


class Machine:
    """What systemd does with the unit, below a folder: whose folder and user it has, which lines it
    runs, and in which order. Each word `sleep` of a line is written down, and does not wait."""

    def __init__(self, folder):
        self.state = folder / 'state' / 'dispatch-room'
        self.runtime = folder / 'run' / 'dispatch-room'
        self.address = f'127.0.0.1:{free_port()}'
        self.program = folder / 'dispatch_room'
        shutil.copy(PROGRAM, self.program)
        self.slept, self.process = folder / 'slept', None
        bin_of = folder / 'bin'
        bin_of.mkdir()
        (bin_of / 'sleep').write_text(f'#!/bin/sh\necho $1 >>{self.slept}\nexec /bin/sleep 0.02\n')
        for it in (folder, bin_of, bin_of / 'sleep', self.program):
            it.chmod(0o755)
        self.slept.touch(0o666)
        self.slept.chmod(0o666)
        self.path = f'{bin_of}:{os.environ["PATH"]}'

    def words(self, line):
        """A line of the unit as words, with what systemd puts in."""
        for name, value in [('%S', self.state.parent), ('/var/lib', self.state.parent),
                            ('%t', self.runtime.parent), (INSTALLED, self.program),
                            ('${ROOM_ADDRESS}', self.address), ('$$', '$')]:
            line = line.replace(name, str(value))
        return shlex.split(line)

    def started(self, line, **more):
        """A line as a process: as the unit's user, or as root where the line says so."""
        of_root = line.startswith('+')
        named = {'user': OWNER, 'group': OWNER} if os.geteuid() == 0 and not of_root else {}
        own = {'PATH': self.path, 'ROOM_ADDRESS': self.address} | more
        return subprocess.Popen(self.words(line.removeprefix('+')), env=own, cwd='/', umask=0o077,
                                stdin=subprocess.DEVNULL, stdout=subprocess.PIPE,
                                stderr=subprocess.PIPE, **named)

    def ended(self, line, **more):
        """The status of a line that ends."""
        with self.started(line, **more) as it:
            try:
                it.communicate(timeout=180)
            finally:
                it.kill()
            return it.returncode

    def has_room(self):
        return all(self.state.parent.joinpath(pathlib.Path(it).relative_to('/var/lib')).exists()
                   for it in settings(UNIT)['AssertPathExists'])

    def prepare(self):
        """The folders as systemd makes them: it gives all of one to the user where that folder is
        still another's, and else leaves what is in it as it is."""
        for folder in self.state, self.runtime:
            folder.mkdir(parents=True, exist_ok=True)
            folder.parent.chmod(0o755)
            if folder.stat().st_uid != OWNER:
                for it in [folder, *folder.iterdir()]:
                    os.chown(it, OWNER, OWNER)
        self.state.chmod(0o700)

    def start(self):
        """Starts the unit where it isn't; gives whether that has succeeded."""
        if self.process and self.process.poll() is None:
            return True
        if not self.has_room():
            return False
        self.prepare()
        unit = settings(UNIT)
        if any(self.ended(it) for it in unit['ExecStartPre']):
            return False
        self.process = self.started(*unit['ExecStart'])
        # As systemd does: or its end would not be seen by who asks whether it lives.
        threading.Thread(target=self.process.wait, daemon=True).start()
        has_succeeded = not self.ended(*unit['ExecStartPost'], MAINPID=str(self.process.pid))
        if not has_succeeded:
            self.end()
        return has_succeeded

    def end(self):
        """Ends the program, if it runs; gives its status."""
        if self.process is None:
            return None
        self.process.terminate()
        self.process.communicate(timeout=180)
        return self.process.returncode

    def stop(self):
        """What a stop of the unit leaves: nothing of its runtime."""
        self.end()
        shutil.rmtree(self.runtime, ignore_errors=True)


class UnitTestCase(TestCase):
    def setUp(self):
        super().setUp()
        self.machine = Machine(self.folder)
        self.addCleanup(self.machine.stop)
        self.room = self.machine.state / 'room.db'

    def asks(self, sent):
        """The answer to a message."""
        return ask(int(self.machine.address.rpartition(':')[2]), sent)[0]

    def calls(self):
        """The status of the answer to a call."""
        return self.asks(call(1))[0]

    def make(self):
        self.machine.state.mkdir(parents=True)
        return made(self.room)

    def tries(self):
        file = self.machine.runtime / 'tries'
        return file.stat().st_size if file.exists() else 0


def recipe():
    """The lines by which a room is made and started, without sudo."""
    section = OPERATING.read_text().partition('## A new room\n\n')[2]
    return re.findall('^    sudo (.*)$', section.partition('\n\n')[0], re.M)


class Orders(UnitTestCase):
    """What is typed to make a room and to start it."""

    def type(self, line):
        """One line of the recipe; gives whether it succeeded."""
        if line.startswith('systemctl'):
            return self.machine.start()
        line = line.replace('/var/lib', str(self.machine.state.parent))
        line = line.replace('plan.csv', str(PLAN)).replace('fleet.csv', str(FLEET))
        command, *words = shlex.split(line)
        if command == 'dispatch_room':
            return run(*words)[0] == 0
        return subprocess.run([command, *words], capture_output=True).returncode == 0

    def test_in_order(self):
        lines = recipe()
        self.check('lines', [it.split()[:2] for it in lines],
                   [['mkdir', '--parents'], ['dispatch_room', 'init'], ['dispatch_room', 'import'],
                    ['systemctl', 'enable']])
        self.check('each is done', [self.type(it) for it in lines], [True] * 4)
        self.check('it is served', self.calls(), 200)

    def test_in_any_order(self):
        """Each order, and then the lines that failed, from the first to the last; a fleet is
        imported while the room is not served."""
        orders = list(itertools.permutations(range(4)))
        if 'EVERY_PLACE' not in os.environ:
            orders = [(3, 2, 1, 0), (3, 0, 1, 2), (1, 0, 3, 2)]
        for order in orders:
            with self.subTest(order):
                self.play(order)

    def play(self, order):
        lines = recipe()
        done = {it: self.type(lines[it]) for it in order}
        for place, line in enumerate(lines):
            if not done[place]:
                if 'import' in line:
                    self.machine.stop()
                done[place] = self.type(line)
        self.assertEqual((done, self.type(lines[3]), self.calls()),
                         (dict.fromkeys(order, True), True, 200))
        _, answer = self.asks(message('deskone1', 'GET /vehicles'))
        self.assertEqual('"vehicle":"A1"' in answer, True)
        self.machine.stop()
        shutil.rmtree(self.machine.state)

    def test_before_the_room(self):
        """A start without a room makes nothing."""
        self.check('a start', self.machine.start(), False)
        self.check('no folder', self.machine.state.exists(), False)

    def test_of_root(self):
        """What root has put there since, as a copy, becomes the unit's own."""
        self.make()
        self.check('a start', self.machine.start(), True)
        self.machine.stop()
        copy = shutil.copy(self.room, self.folder / 'copy.db')
        self.room.unlink()
        shutil.copy(copy, self.room)
        self.room.with_name('secret').symlink_to(copy)
        self.check('a start over a copy', [self.machine.start(), self.calls()], [True, 200])
        self.check('whose it is', {it.lstat().st_uid for it in self.machine.state.iterdir()},
                   {OWNER})
        self.check('what a link names is left alone', copy.stat().st_uid, os.geteuid())


class Starts(UnitTestCase):
    """A start has succeeded where the room serves, and not else."""

    def test_no_room(self):
        """A file that is none: the program ends with a status after which no start follows."""
        self.machine.state.mkdir(parents=True)
        self.room.write_text('')
        self.check('a start', self.machine.start(), False)
        self.check('the status', self.machine.end(), 1)

    def test_port_in_use(self):
        """Where another program is at the port, even one that answers, it has not succeeded."""
        self.make()
        with another(self.machine.address):
            self.check('a start', self.machine.start(), False)
            self.check('the status', self.machine.end(), 4)
            self.check('it is one try', self.tries(), 1)
        self.check('and then', [self.machine.start(), self.calls()], [True, 200])
        self.check('the tries are forgotten', self.tries(), 0)

    def test_not_yet(self):
        """While the program opens its room, it waits; here another answers meanwhile."""
        with another(self.machine.address), subprocess.Popen(['/bin/sleep', '600']) as opens:
            self.machine.prepare()
            line = settings(UNIT)['ExecStartPost'][0]
            with self.machine.started('+' + line, MAINPID=str(opens.pid)) as waits:
                until = time.monotonic() + 180
                while len(self.machine.slept.read_text()) < 8 and time.monotonic() < until:
                    time.sleep(0.05)
                self.check('it waits', waits.poll(), None)
                opens.kill()
                opens.wait()
                self.check('it ends with the program', waits.wait(timeout=180), 1)

    def test_waits(self):
        """Each start that follows one that did not come to serve waits longer, up to ten
        seconds."""
        self.machine.prepare()
        wait = settings(UNIT)['ExecStartPre'][1]
        self.check('the lines', {self.machine.ended(wait) for _ in range(13)}, {0})
        self.check('seconds', self.machine.slept.read_text().split(),
                   '0 1 2 3 4 5 6 7 8 9 10 10 10'.split())
        self.check('as root can not', self.machine.runtime.stat().st_uid, OWNER)


class Page(http.server.BaseHTTPRequestHandler):
    """Answers as no room does."""

    def do_GET(self):
        with contextlib.suppress(OSError):
            self.send_error(404)

    def log_message(self, *_):
        """Says nothing."""


@contextlib.contextmanager
def another(address):
    """A server at an address that is no room."""
    host, _, port = address.rpartition(':')
    with http.server.ThreadingHTTPServer((host, int(port)), Page) as server:
        thread = threading.Thread(target=server.serve_forever)
        thread.start()
        try:
            yield
        finally:
            server.shutdown()
            thread.join()


class Health(UnitTestCase):
    """The health checks of the document."""

    def section(self):
        return OPERATING.read_text().partition('## Health checks\n')[2].partition('\n## ')[0]

    def test_curl(self):
        line = re.search('^    (curl .*)$', self.section(), re.M)[1]
        line = line.replace('127.0.0.1:8080', self.machine.address)
        check = lambda: subprocess.run(['sh', '-c', line], capture_output=True).returncode
        self.check('nobody', check(), 1)
        with another(self.machine.address):
            self.check('another', check(), 1)
        self.make()
        self.check('the room is started', self.machine.start(), True)
        # (one that is silent for five seconds, as on a busy machine, is asked again)
        until = time.monotonic() + 180
        while (status := check()) != 0 and time.monotonic() < until:
            time.sleep(0.1)
        self.check('the room', status, 0)

    def test_haproxy(self):
        lines = re.search(r'^    option httpchk\n(?:    .*\n)+', self.section(), re.M)[0]
        control = self.folder / 'haproxy.sock'
        config = self.folder / 'haproxy.cfg'
        config.write_text(
            f'global\n    stats socket {control}\ndefaults\n    mode http\n    timeout connect 5s\n'
            '    timeout client 5s\n    timeout server 5s\n    timeout check 5s\nbackend room\n'
            + lines.replace('127.0.0.1:8080', self.machine.address).replace('2s', '200ms'))
        self.make()
        process = self.enterContext(subprocess.Popen(
            ['haproxy', '-db', '-f', config], stdin=subprocess.DEVNULL, stdout=subprocess.DEVNULL,
            stderr=subprocess.DEVNULL))
        self.addCleanup(process.kill)
        self.check('nobody', self.comes(control, 'DOWN', 'L4CON'), True)
        self.check('the room is started', self.machine.start(), True)
        self.check('the room', self.comes(control, 'UP', 'L7OK'), True)
        self.machine.stop()
        with another(self.machine.address):
            self.check('another', self.comes(control, 'DOWN', 'L7STS'), True)

    def comes(self, control, *wanted):
        """Whether HAProxy comes to say of the room's server that it is as wanted."""
        until = time.monotonic() + 180
        while time.monotonic() < until:
            with contextlib.suppress(OSError), socket.socket(socket.AF_UNIX) as it:
                it.connect(str(control))
                it.sendall(b'show stat\n')
                page = it.makefile().read()
                row = re.search('^room,room,.*$', page, re.M)
                if row and set(wanted) <= set(row[0].split(',')):
                    return True
            time.sleep(0.1)
        return False
