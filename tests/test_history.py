"""The paths of history, `GET /incidents/N`, `GET /vehicles/C/reports`, `GET /job` and `GET /last`,
in a room that is served with --history: scripts of rows/history are played to a room of the
example's plan and fleet, and its answers are compared. These questions change nothing. By default
the paths are none, and all else is answered with the same bytes."""
# needs: python3 gcc libc6-dev sqlite3
# builds: dispatch_room
import re
import shutil
import subprocess

from played_scripts import ScriptTestCase
from preloaded import PreloadedTestCase
from room import PATIENT, PLAN, PROGRAM, message, run, serving, talk
from scripts import ROWS, messages

SCRIPTS = sorted((ROWS / 'history').glob('*.rows'))
PATH = re.compile('/job|/last|/incidents/([1-9][0-9]*)|/vehicles/[A-Z0-9]{1,8}/reports')


def is_of_history(it):
    """Whether a message names a path of history."""
    named = PATH.fullmatch(it.path)
    return named is not None and int(named[1] or 1) <= 2147483647


class History(ScriptTestCase):
    def test_scripts(self):
        self.check_scripts(SCRIPTS, '--history')

    def test_nothing_changes(self):
        """The room is the same without the questions."""
        for path in SCRIPTS:
            asked = messages(path)
            rest = [it for it in asked if not is_of_history(it)]
            self.check(f'{path.name}: questions', len(rest) < len(asked), True)
            self.check(path.name, self.play(asked, '--history')[1],
                       self.play(rest, '--history')[1])

    def test_by_default(self):
        """Without the word a path of history is answered as any that is none, byte for byte, and
        all else is answered as with it."""
        for path in SCRIPTS:
            asked, elsewhere = messages(path), messages(path)
            for it in elsewhere:
                it.path = '/nowhere' if is_of_history(it) else it.path
            plain, rows = self.play(asked)
            answered, rows_after = self.play(asked, '--history')
            self.check(f'{path.name}: as nowhere', plain, self.play(elsewhere)[0])
            rest = [at for at, it in enumerate(asked) if not is_of_history(it)]
            self.check(f'{path.name}: all else', [plain[at] for at in rest],
                       [answered[at] for at in rest])
            self.check(f'{path.name}: the rows', rows, rows_after)
            none = {answer.content for it, answer in zip(asked, plain)
                    if is_of_history(it) and it.method != 'HEAD'}
            self.check(f'{path.name}: no path', none, {'{"error":"NoPath","number":36}'})


class Replayed(PreloadedTestCase):
    def test_replay(self):
        """A list that was kept with history is replayed with it, and without it the first question
        is reported, whose answer has another status."""
        room, journal = self.folder / 'room.db', self.folder / 'room.list'
        run('init', room, PLAN)
        first = shutil.copy(room, self.folder / 'first.db')
        words = *PATIENT, '--journal', str(journal), '--history'
        with serving(room, 1, *words) as (port, process):
            talk(port, message('takerone', 'GET /last'), message('deskone1', 'GET /queue'))
            process.wait(timeout=180)
        for history, wanted in [([], (1, 'differs: record 1\n')), (['--history'], (0, ''))]:
            done = subprocess.run([PROGRAM, 'replay', shutil.copy(first, self.folder / 'copy.db'),
                                   *history], input=journal.read_bytes(), capture_output=True,
                                  timeout=180)
            self.check(' '.join(history) or 'by default',
                       (done.returncode, done.stderr.decode()), wanted)
