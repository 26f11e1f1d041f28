"""What a newcomer sees of `./dispatch_room`: how long proofs will take, a first look at the
answers, the proved program's answers, which alone come on standard output, and at once where
nothing has changed. An example of the kit stands for the dry run, above a library of one
function."""
# needs: python3
import os
import pathlib
import re
import shutil
import signal
import subprocess
import sys
import time
from unittest import mock

from command_modules import module_of
from room import DRY_RUN, PATIENCE, TOP, TestCase

sys.path.insert(0, str(TOP / 'tools'))
import forecast  # noqa: E402

GUIDE = subprocess.run(['rt', 'doc'], capture_output=True, text=True).stdout.strip()
EXAMPLE = pathlib.Path(GUIDE).parent / 'rattle' / 'examples' / 'start_io'
MAIN = 'dispatch_room_dry_run_main'
LIBRARY = '''\
#![tactic(auto)]

ghost use Rattle.std.specs.Prelude.{◌≡◌};

pub fn hour() -> u32
    ensures { result ≡ 3600 }
{
    3600
}
'''
# A process that plays what comes on standard input by a command, and then reads it again.
LOOKS = '''
import sys, time
import first_look
first_look.NEEDS, first_look.words_for = 0, lambda requests: [*sys.argv[2:], requests]
look = first_look.FirstLook()
end = time.monotonic() + float(sys.argv[1])
while not look.is_whole and time.monotonic() < end:
    time.sleep(0.01)
look.begin()
while look.turn.locked() and not look.is_shown and time.monotonic() < end:
    time.sleep(0.01)
look.give_back()
print('ready', flush=True)
sys.stdout.write(open(0).read())
'''


class Repository(TestCase):
    """A repository of three crates with this one's tools."""

    def setUp(self):
        super().setUp()
        self.top = pathlib.Path(self.folder) / 'repository'
        shutil.copytree(TOP / 'tools', self.top / 'tools')
        for name in ('dispatch_room', 'README.md', 'HANDLES'):
            shutil.copy(TOP / name, self.top)
        for name in (MAIN, 'dispatch_room'):
            shutil.copytree(EXAMPLE / 'src', self.top / 'crates' / name / 'src')
        (self.top / 'crates' / 'low' / 'src').mkdir(parents=True)
        (self.top / 'crates' / 'low' / 'src' / 'lib.rt').write_text(LIBRARY)
        (self.top / 'crates.txt').write_text(f'low:\n{MAIN}: low\ndispatch_room: low\n')

    def answers(self):
        """What `./dispatch_room` writes and says, and how it ends."""
        with open(EXAMPLE / 'stdin', 'rb') as requests:
            done = subprocess.run([self.top / 'dispatch_room'], stdin=requests, capture_output=True)
        return done.stdout, done.stderr.decode(), done.returncode

    def without(self, *commands):
        """A PATH on which these commands fail, which take longer to start than an answer may."""
        folder = self.top / 'failing'
        folder.mkdir()
        for it in commands:
            (folder / it).write_text('#!/bin/sh\necho "$0 was started" >&2\nexit 99\n')
            (folder / it).chmod(0o755)
        return f'{folder}:{os.environ["PATH"]}'

    def processes(self):
        """The processes that work in the repository."""
        found = set()
        for process in pathlib.Path('/proc').glob('[0-9]*'):
            try:
                if self.top in (process / 'cwd').readlink().parents:
                    found.add((process / 'comm').read_text().strip())
            except OSError:
                pass  # it has ended
        return found


class FirstAnswer(Repository):
    def test_from_nothing(self):
        wanted = (EXAMPLE / 'stdout').read_bytes()
        answers, said, status = self.answers()
        self.check('answers', (answers, status), (wanted, 0))
        self.assertRegex(said, r'\Abuild: 2 crates are to be proved, .* left on')
        for it in ('low, 1 of 2', f'{MAIN}, 2 of 2'):
            self.assertRegex(said, rf'(?m)^build: {it}, .* left$')
        if 'first look' in said:  # where it came before the proof
            self.assertIn('a first look, which nothing has proved', said)
            self.assertIn(wanted.decode(), said)
        with mock.patch.dict(os.environ, PATH=self.without('python3', 'rt')):
            self.check('nothing has changed', self.answers(), (wanted, '', 0))
        (self.top / 'crates' / 'low' / 'src' / 'lib.rt').touch()
        self.check('a file was touched', self.answers(), (wanted, '', 0))

    def test_interrupted(self):
        """No process is left, whatever ends it."""
        for number in (signal.SIGINT, signal.SIGTERM, signal.SIGKILL):
            with subprocess.Popen([self.top / 'dispatch_room'], stdin=subprocess.DEVNULL,
                                  stdout=subprocess.DEVNULL, stderr=subprocess.DEVNULL) as command:
                self.until('a proof', lambda: 'rattle' in self.processes())
                command.send_signal(number)
                self.check('how it ends', command.wait(PATIENCE), -number)
            self.until('all have ended', lambda: not self.processes())

    def until(self, what, holds):
        end = time.monotonic() + PATIENCE
        while not holds():
            self.assertLess(time.monotonic(), end, f'{what}: {self.processes()}')
            time.sleep(0.05)

    def test_built(self):
        """A program is built as long as no file or folder of a crate is newer, but what is made."""
        crates = self.top / 'crates'
        program = crates / MAIN / 'out' / MAIN
        is_built = lambda: subprocess.run([self.top / 'tools' / 'is_built', MAIN]).returncode == 0
        self.check('there is none', is_built(), False)
        program.parent.mkdir()
        program.write_text('#!/bin/sh\n')
        program.chmod(0o755)
        self.check('it is the newest', is_built(), True)
        (crates / 'low' / 'out').mkdir()
        (crates / 'low' / 'out' / 'made').touch()
        self.check('what is made is newer', is_built(), True)
        newer = time.time() + 10
        for path in (self.top / 'crates.txt', crates / 'low/src', crates / 'low/src/lib.rt'):
            was = path.stat().st_mtime
            os.utime(path, (newer, newer))
            self.check(f'{path.name} is newer', is_built(), False)
            os.utime(path, (was, was))
        self.check('nothing is newer', is_built(), True)


class Looks(TestCase):
    def look(self, pieces, patience, by=('tac',)):
        """What a process says and reads again of a standard input that comes in pieces."""
        pipe = subprocess.PIPE
        with subprocess.Popen([sys.executable, '-c', LOOKS, str(patience), *by], text=True,
                              stdin=pipe, stdout=pipe, stderr=pipe,
                              env=os.environ | {'PYTHONPATH': str(TOP / 'tools')}) as process:
            process.stdin.write(pieces[0])
            process.stdin.flush()
            ready = process.stdout.readline() if pieces[1:] else ''
            answers, said = process.communicate(''.join(pieces[1:]))
        return (ready + answers).removeprefix('ready\n'), said

    def test_whole(self):
        """What was asked is played once it has come, and read whole by what is proved."""
        answers, said = self.look(['one\ntwo\n'], PATIENCE)
        self.check('read again', answers, 'one\ntwo\n')
        self.assertRegex(said, r'a first look, which nothing has proved[^\n]*\n\ntwo\none\n\n\Z')

    def test_empty(self):
        """Where nothing is asked there is nothing to look at."""
        self.check('read, and said', self.look([''], PATIENCE), ('', ''))

    def test_late(self):
        """A look that takes longer than the proof is not shown, and leaves nothing."""
        before = set(DRY_RUN.parent.glob('first_look.*'))
        said = self.look(['one\n'], 0.5, by=('tail', '--follow'))
        self.check('read, and said', said, ('one\n', ''))
        self.check('folders', set(DRY_RUN.parent.glob('first_look.*')) - before, set())

    def test_open(self):
        """What goes on to come is not played, and read by what is proved as it comes."""
        self.check('read, and said', self.look(['one\n', 'two\n'], 0.5), ('one\ntwo\n', ''))


class Words(TestCase):
    def test_words(self):
        """What stands behind --run is the program's; only the dry run without words has a look."""
        for words, runs, looks in [
                (['dispatch_room'], None, False),
                (['dispatch_room', '--run', 'serve', '--', '-h', '--run'],
                 ('dispatch_room', ['serve', '--', '-h', '--run']), False),
                (['dispatch_room', '--run', '--help'], ('dispatch_room', ['--help']), False),
                ([MAIN, '--run'], (MAIN, []), True),
                ([MAIN], None, False)]:
            tool, made = module_of('tools', 'build'), mock.DEFAULT
            with mock.patch.multiple(tool, build=made, run=made, FirstLook=made,
                                     is_fed=lambda: True) as called, (
                    mock.patch.object(sys, 'argv', ['build', *words])):
                self.check(f'{words}: status', tool.main(), 0)
            ran = called['run'].call_args
            self.check(f'{words}: what runs', ran and ran.args, runs)
            self.check(f'{words}: a look', called['FirstLook'].called, looks)


class Forecasts(TestCase):
    # Two that wait for a first, and one that waits for both.
    WAITS = {'a': set(), 'b': {'a'}, 'c': {'a'}, 'd': {'b', 'c'}}
    SECONDS = {'a': 60.0, 'b': 120.0, 'c': 180.0, 'd': 60.0}

    def test_ends(self):
        self.check('one processor', forecast.ends(self.WAITS, self.SECONDS, 1),
                   {'a': 60, 'b': 180, 'c': 360, 'd': 420})
        self.check('two', forecast.ends(self.WAITS, self.SECONDS, 2),
                   {'a': 60, 'b': 180, 'c': 240, 'd': 300})

    def test_left(self):
        """What the first took says how long the others will take: by the clock or by the
        processor, which is more."""
        clock, used = mock.Mock(return_value=1000.0), mock.Mock(return_value=50.0)
        with mock.patch.multiple(forecast, table=lambda: self.SECONDS, processor_seconds=used), (
                mock.patch.object(forecast.time, 'monotonic', clock)):
            it = forecast.Forecast(self.WAITS, 2)
            self.check('at first, by the table', it.said(), 'some 5 min left')
            it.end('a')
            for took, of_processor, minutes in [(60, 60, 4), (120, 60, 8), (30, 60, 4),
                                                (60, 180, 12)]:
                clock.return_value, used.return_value = 1000.0 + took, 50.0 + of_processor
                self.check(f'{took} s, {of_processor} of a processor', it.said(),
                           f'some {minutes} min left')
            for name in 'bcd':
                it.end(name)
            self.check('at the end', it.left(), 0)

    def test_table(self):
        every = re.findall(r'^(\w+):', (TOP / 'crates.txt').read_text(), re.M)
        self.check('crates', sorted(forecast.table()), sorted(every))
