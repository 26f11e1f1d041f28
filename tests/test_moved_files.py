"""The files of a room that is served, moved, replaced or removed by others: that is reported once,
what is asked is answered as before, and both files can still be copied out of the program."""
# needs: python3 sqlite3
# builds: dispatch_room
import contextlib
import os
import pathlib
import shutil
import signal
import subprocess
import time

from room import PATIENT, PROGRAM, TestCase, ask, call, free_port, made, run, sql

CALLS = 'SELECT count(*) FROM calls'
REPORTED = 'was moved, replaced or removed'
LOOKS_AGAIN = 1.1  # seconds after which the room looks again where its files lie


def call_of(serial):
    """A call at a place of its own."""
    return call(serial, f'TQ3{serial % 100:02}8{serial // 100 % 100:02}')


class MovedFiles(TestCase):
    def setUp(self):
        super().setUp()
        self.place = self.folder / 'place'
        self.place.mkdir()
        self.room = made(self.place / 'room.db')
        self.log = self.room.with_name('room.db-wal')
        self.errors = self.folder / 'errors'

    @contextlib.contextmanager
    def served(self, room, *words):
        port = free_port()
        with self.errors.open('wb') as errors:
            process = subprocess.Popen(
                [PROGRAM, 'serve', room, f'127.0.0.1:{port}', *PATIENT, *words],
                stdin=subprocess.DEVNULL, stdout=subprocess.PIPE, stderr=errors)
        try:
            self.assertEqual(process.stdout.readline(), b'serving\n')
            yield port, process
        finally:
            process.kill()
            process.communicate()

    def reports(self):
        return self.errors.read_text().splitlines()

    def asks(self, what, port, serial):
        self.check(f'{what}: call {serial}', [it for it, _ in ask(port, call_of(serial))], [200])

    def copied_out(self, process):
        """Both files, copied out of the program while it is held."""
        copy = self.folder / 'copy.db'
        process.send_signal(signal.SIGSTOP)
        os.waitid(os.P_PID, process.pid, os.WSTOPPED)
        for it in pathlib.Path(f'/proc/{process.pid}/fd').iterdir():
            name = os.readlink(it).removesuffix(' (deleted)')
            if name.startswith(f'{self.place}/'):
                shutil.copy(it, f'{copy}-wal' if '-wal' in name else copy)
        process.send_signal(signal.SIGCONT)
        return copy

    def deeds(self):
        """What becomes of a file."""
        def replace(file):
            other = file.with_name('other')
            shutil.copy(file, other)
            other.replace(file)

        return {'moved': lambda it: it.rename(f'{it}.away'), 'removed': lambda it: it.unlink(),
                'replaced': replace}

    def test_files(self):
        for which in ('room', 'log'):
            for deed, do in self.deeds().items():
                shutil.rmtree(self.place)
                self.place.mkdir()
                made(self.room)
                what, file = f'the {which} is {deed}', {'room': self.room, 'log': self.log}[which]
                with self.served(self.room, '--explain') as (port, process):
                    self.asks(what, port, 1)
                    self.check(f'{what}: nothing is reported before', self.reports(), [])
                    do(file)
                    time.sleep(LOOKS_AGAIN)
                    self.asks(what, port, 2)
                    self.asks(what, port, 3)
                    self.check(f'{what}: it is reported once',
                               [(it.partition(' ')[0], REPORTED in it) for it in self.reports()],
                               [(str(file), True)])
                    copy = self.copied_out(process)
                    self.asks(what, port, 4)
                self.check(f'{what}: the copy is a room', run('check', copy)[0], 0)
                self.check(f'{what}: its calls', sql(copy, CALLS), '3\n')
                for it in (copy, copy.with_name('copy.db-wal')):
                    it.unlink(missing_ok=True)

    def test_put_back(self):
        """It is reported again where it is moved again. The look is behind an answer, so a second
        call is answered after it."""
        away = self.room.with_name('away')
        with self.served(self.room, '--explain') as (port, _):
            for nth in (1, 2):
                self.room.rename(away)
                time.sleep(LOOKS_AGAIN)
                for serial in (4 * nth - 3, 4 * nth - 2):
                    self.asks('away', port, serial)
                self.check(f'reported {nth}', len(self.reports()), nth)
                away.rename(self.room)
                time.sleep(LOOKS_AGAIN)
                for serial in (4 * nth - 1, 4 * nth):
                    self.asks('back', port, serial)
                self.check(f'no more than {nth}', len(self.reports()), nth)
        self.check('its calls', run('check', self.room)[0] or sql(self.room, CALLS), '8\n')

    def test_link(self):
        """The room is served at a link's name: the log lies beside the file that it leads to."""
        link = self.folder / 'link.db'
        link.symlink_to(self.room)
        with self.served(link, '--explain') as (port, _):
            self.asks('a link', port, 1)
            self.check('nothing is reported', self.reports(), [])
            self.log.rename(f'{self.log}.away')
            time.sleep(LOOKS_AGAIN)
            for serial in (2, 3):
                self.asks('its log is away', port, serial)
            self.check('reported', [it.partition(' ')[0] for it in self.reports()], [str(self.log)])

    def test_not_explained(self):
        with self.served(self.room) as (port, _):
            self.room.unlink()
            time.sleep(LOOKS_AGAIN)
            for serial in (1, 2):
                self.asks('removed', port, serial)
            self.check('nothing is reported', self.reports(), [])
