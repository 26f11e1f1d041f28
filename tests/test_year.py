"""A year of nights of a served room, by a clock that the test sets: logrotate moves its list by the
package's own file, backup.py makes a copy, and each week renew.sh makes a new room; days have a few
messages. Meanwhile a crew's token is lost, a vehicle comes, disks are full, nights fail or are left
out, and the room's files are lost. Each copy is the room that is served, by the digest that Python
works out of its tables; each tenth is restored."""
# needs: python3 logrotate gcc libc6-dev
# builds: dispatch_room
import contextlib
import datetime
import json
import os
import pathlib
import re
import resource
import shutil
import signal
import subprocess
import sys

from played_days import DAYS, HOURS, MONDAY, Sender
from preloaded import clock_of, library
from room import FLEET, PLAN, PROGRAM, TOP, TestCase, ask, call, fleet_of, free_port, message, run
from services import Systemctl

sys.path.append(str(TOP / 'examples' / 'three'))
import digest  # noqa: E402

EXAMPLES = TOP / 'examples'
YEAR, TUESDAYS = 365, range(1, 365, 7)
KEPT = 14
LOST_TOKEN, FULL_AT_NIGHT, FULL_AT_RENEWAL, FULL_ROOM, NEW_VEHICLE = 31, 60, 71, 100, 120
LEFT_OUT = range(150, 165)  # so that two renewals lie between two nights
MOVED, LOST_ROOM, KILLED = 190, 220, 250
ZONE = re.search('"(GMT.*?)"', PLAN.read_text())[1]
# No signal ends the program where a file can't grow, as on a full disk.
COMMAND = f'#!/bin/sh\ntrap "" XFSZ\nexec {PROGRAM} "$@"\n'


def full():
    """No file gets more than 8 KiB, as on a disk that is full."""
    resource.setrlimit(resource.RLIMIT_FSIZE, (8 * 1024, resource.RLIM_INFINITY))


class Year(TestCase):
    def setUp(self):
        super().setUp()
        self.state, self.bin = self.folder / 'state', self.folder / 'bin'
        self.room, self.list = self.state / 'room.db', self.state / 'room.list'
        self.copies = self.state / 'copies'
        self.copies.mkdir(parents=True)
        self.systemctl = Systemctl(self.bin, self.start, self.stop)
        (self.bin / 'dispatch_room').write_text(COMMAND)
        (self.bin / 'dispatch_room').chmod(0o755)
        self.moment_file, self.day = self.folder / 'moment', 0
        self.port, self.process = free_port(), None
        self.addCleanup(self.stop)
        self.sender, self.tokens = Sender(7), {}
        self.renewals = self.all_renewals = 0  # since the last night, and in the year
        self.config = self.folder / 'logrotate.conf'
        self.config.write_text((EXAMPLES / 'backup' / 'logrotate.conf').read_text().replace(
            '/var/lib/dispatch-room', str(self.state)))
        self.at(0)

    # ---- the machine

    def at(self, hours):
        """Sets the clock to an hour of the day, or of the next."""
        moment = MONDAY + self.day * DAYS + int(hours * HOURS)
        part = self.moment_file.with_suffix('.part')
        part.write_text(f'{moment}\n')
        part.rename(self.moment_file)

    def environment(self):
        own = {'LD_PRELOAD': library(), 'PATH': f'{self.bin}:{os.environ["PATH"]}', 'TZ': ZONE,
               'DISPATCH_ROOM': self.bin / 'dispatch_room', 'FOLDER': self.state}
        return os.environ | {it: str(its) for it, its in (own | clock_of(self.moment_file)).items()}

    def does(self, *words, **named):
        """The status of a script, what it printed, and what it reported."""
        done = subprocess.run([*map(str, words)], env=self.environment(), capture_output=True,
                              stdin=subprocess.DEVNULL, text=True, timeout=180, **named)
        return done.returncode, done.stdout, done.stderr

    def start(self):
        """Serves the room, if it can be."""
        command = [self.bin / 'dispatch_room', 'serve', self.room, f'127.0.0.1:{self.port}',
                   '--journal', self.list, '--history', '--idle', '20000']
        self.process = subprocess.Popen(command, env=self.environment(), stdin=subprocess.DEVNULL,
                                        stdout=subprocess.PIPE, stderr=subprocess.DEVNULL)
        return self.process.stdout.readline() == b'serving\n'

    def stop(self):
        if self.process:
            self.process.terminate()
            self.process.communicate(timeout=180)
        return True

    def asks(self, count):
        """Sends a few messages of the day; gives their statuses."""
        sent = []
        for _ in range(count):
            token, line, body = self.sender.next()
            text = '' if body is None else json.dumps(body)
            sent.append(message(self.tokens.get(token, token), line, text))
        return [status for status, _ in ask(self.port, *sent)]

    def works(self, count):
        statuses = self.asks(count)
        self.assertEqual((len(statuses), {it for it in statuses if it >= 500}), (count, set()))

    # ---- what is done by night

    def rotate(self):
        """Moves the list away, and gives how many parts there are."""
        status, out, err = self.does('logrotate', '--force', '--state', self.folder / 'rotated',
                                     self.config)
        self.assertEqual((status, out, err), (0, '', ''))

    def night(self, **named):
        return self.does(EXAMPLES / 'backup' / 'backup.py', 'night', self.list, self.copies,
                         '--keep', KEPT, **named)

    def renew(self, **named):
        return self.does(EXAMPLES / 'weekly' / 'renew.sh', self.state, **named)

    def noted(self):
        """The copies by their names, with what is written down of each."""
        return {it.stem: json.loads(it.read_text()) for it in sorted(self.copies.glob('*.json'))}

    def in_copies(self):
        return sorted(it.name for it in self.copies.iterdir())

    def served(self):
        """The digest of the room as it is: nothing is asked meanwhile."""
        for end in '', '-wal':
            shutil.copy(f'{self.room}{end}', self.folder / f'seen.db{end}')
        return digest.of_file(self.folder / 'seen.db')

    def copied(self):
        """A night whose copy is the room."""
        status, out, err = self.night()
        self.assertEqual((status, err), (0, ''), f'night {self.day}')
        self.assertEqual([*self.noted().values()][-1]['digest'], self.served())
        return out

    def check_restored(self):
        """The newest copy is restored, and the one before it, if it is of the same room, with what
        was played to it since."""
        before, newest = [*self.noted()][-2:]
        file = self.folder / 'restored.db'
        of_before = [] if self.day - 1 in TUESDAYS else [(before, [newest])]
        for name, lists in [(newest, []), *of_before]:
            for end in '', '-wal':
                pathlib.Path(f'{file}{end}').unlink(missing_ok=True)
            self.assertEqual(run('restore', self.copies / f'{name}.db', file)[0], 0)
            for it in lists:
                with (self.copies / f'{it}.list').open('rb') as text:
                    done = subprocess.run([PROGRAM, 'replay', file, '--history'], stdin=text,
                                          capture_output=True, timeout=180)
                self.assertEqual(done.returncode, 0, done.stderr)
            self.check(f'night {self.day}: {name} is restored', digest.of_file(file), self.served())

    # ---- the year

    def test_year(self):
        self.begin()
        special = {LOST_TOKEN: self.lose_token, FULL_ROOM: self.fill_room,
                   NEW_VEHICLE: self.add_vehicle, MOVED: self.move_while_stopped,
                   LOST_ROOM: self.lose_room}
        for self.day in range(YEAR):
            self.at(0)
            self.rotate()
            self.at(2)
            self.works(3)
            self.at(3.5)
            self.by_night()
            self.at(4.5)
            if self.day in TUESDAYS:
                self.by_week()
            self.at(15)
            self.works(3)
            special.get(self.day, lambda: None)()
        self.check_end()

    def begin(self):
        run('init', self.room, PLAN)
        run('import', self.room, FLEET)
        done = self.does(EXAMPLES / 'backup' / 'backup.py', 'begin', self.room, self.list,
                         self.copies)
        self.assertEqual(done[0], 0, done[2])
        self.assertEqual(self.start(), True)
        self.works(3)

    def by_night(self):
        if self.day in LEFT_OUT:
            return
        if self.day == FULL_AT_NIGHT:
            self.fail_a_night('a full disk', preexec_fn=full)
        elif self.day == KILLED:
            self.kill_a_night()
        else:
            out = self.copied()
            self.assertEqual(out.count('renewed since'), self.renewals, f'night {self.day}')
            self.renewals = 0
            if self.day % 10 == 9:
                self.check_restored()

    def by_week(self):
        if self.day == FULL_AT_RENEWAL:
            before = self.served()
            self.check('a renewal on a full disk', self.renew(preexec_fn=full)[0] != 0, True)
            self.check('the room', self.served(), before)
            self.check('no new one', (self.state / 'next.db').exists(), False)
        else:
            before = self.served()
            status, out, err = self.renew()
            self.assertEqual((status, err), (0, ''), f'week of day {self.day}')
            if self.served() != before:  # as something stayed behind
                self.renewals, self.all_renewals = self.renewals + 1, self.all_renewals + 1
            self.assertRegex(out, r'\nthe room stood still for \d+ s; the old one is room\.')

    def fail_a_night(self, what, **named):
        before = self.noted(), self.in_copies()
        status, out, err = self.night(**named)
        self.check(what, (status, out, len(err.splitlines()),
                          err.startswith('no copy that can be trusted: ')), (1, '', 1, True))
        self.check(f'{what}: copies', (self.noted(), self.in_copies()), before)

    def kill_a_night(self):
        """A night that is killed while it works leaves what the next one removes."""
        before = self.noted()
        words = [EXAMPLES / 'backup' / 'backup.py', 'night', self.list, self.copies]
        process = subprocess.Popen(words, env=self.environment(), stdout=subprocess.DEVNULL)
        while not (self.copies / 'part.db').exists():
            self.assertEqual(process.poll(), None)
        process.send_signal(signal.SIGKILL)
        process.wait()
        self.check('killed: copies', self.noted(), before)
        (self.copies / '2027-01-01.000000.db').write_bytes(b'not finished')

    def change(self, *words):
        status, out, err = self.does(EXAMPLES / 'change.sh', *words)
        self.check(f'{words}', (status, err), (0, ''))
        with self.subTest('how long'):
            self.assertRegex(out, r'stood still for \d+ ms\n$')
        return out

    def lose_token(self):
        printed = self.change('terminals', '--new', 'crew:A1')
        self.tokens['crewofa1'] = printed.split()[0]
        asked = [ask(self.port, message(it, 'GET /order'))[0][0]
                 for it in ('crewofa1', self.tokens['crewofa1'])]
        self.check('the lost token, and the new one', asked, [403, 200])

    def add_vehicle(self):
        fleet = self.folder / 'next.csv'
        fleet.write_text(fleet_of('D1,1,1,TQ303804,crewofd1'))
        self.change('import', fleet)
        self.check('a vehicle', ask(self.port, message('crewofd1', 'GET /order'))[0][0], 200)

    def fill_room(self):
        """The disk of the room and its list is full: the room ends, for the one or for the other, and
        comes again once it has space."""
        size = self.list.stat().st_size
        resource.prlimit(self.process.pid, resource.RLIMIT_FSIZE, (size + 40, -1))
        with contextlib.suppress(OSError):
            self.check('no answer', ask(self.port, call(900_000)), [])
        self.process.communicate(timeout=180)
        self.check('it ends', self.process.returncode in (3, 6), True)
        self.check('it starts again', self.start(), True)
        self.works(2)

    def move_while_stopped(self):
        """A rotation while the room stands still, too."""
        self.stop()
        self.rotate()
        self.check('it starts', self.start(), True)

    def lose_room(self):
        """The room's disk is lost, but not its lists: one more night has all that was answered."""
        before = self.served()
        self.process.kill()
        self.process.communicate()
        for end in '', '-wal':
            pathlib.Path(f'{self.room}{end}').unlink()
        self.at(16)
        self.check('a night without a room', self.night()[0], 0)
        name = [*self.noted()][-1]
        self.check('restored', run('restore', self.copies / f'{name}.db', self.room)[0], 0)
        self.check('it is the room', digest.of_file(self.room), before)
        self.check('it starts', self.start(), True)
        self.check('the room', self.served(), before)

    def check_end(self):
        archives = sorted(it.name for it in self.state.glob('room.2*.db'))
        self.check('archives', len(archives), len(TUESDAYS) - 1)
        last = datetime.date(2026, 3, 23) + datetime.timedelta(days=TUESDAYS[-1])
        self.check('the last is of this week', archives[-1].split('.')[1], str(last))
        self.check('most weeks leave something behind', self.all_renewals > 40, True)
        self.check('copies', len(self.noted()), KEPT)
        left = {it.name for it in self.copies.iterdir()} - {
            f'{name}.{end}' for name in self.noted() for end in ('db', 'db-wal', 'list', 'json')}
        self.check('nothing else is left', left, set())
        parts = [it for it in self.state.iterdir() if re.search(r'\.list\.\d+(\.gz)?$', it.name)]
        self.check('most nights moved a list', len(parts) > YEAR * 0.8, True)
        self.check('stops', self.systemctl.asked.count('stop'), len(TUESDAYS) + 2)
