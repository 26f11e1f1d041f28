"""`POST /moves`, by which a desk sends vehicles and stands them down in one step, in a room that is
served with --history: scripts of rows/moves are played to a room of the example's plan and fleet,
and its answers are compared. What is done leaves the rows that the same asks leave one by one at
that moment, and what is refused leaves the rows as they were. By default the path is none."""
# needs: python3 gcc libc6-dev sqlite3
# builds: dispatch_room
import json
import subprocess

from played_scripts import ScriptTestCase
from room import PROGRAM, dump
from scripts import ROWS, Message, messages

SCRIPTS = sorted((ROWS / 'moves').glob('*.rows'))
NO_PATH = '{"error":"NoPath","number":36}'


def is_moves(it):
    return it.method == 'POST' and it.path == '/moves'


def one(it, move):
    """The message that asks for one of the moves of a message, at the same moment."""
    vehicle, incident = move['vehicle'], move['incident']
    if incident is None:
        asked, wanted = f'/vehicles/{vehicle}/standdown', '= 200 {"done":true}'
    else:
        asked = f'/incidents/{incident}/mobilise {{"vehicle":"{vehicle}"}}'
        wanted = f'~ 200 "vehicle":"{vehicle}"'
    return Message(f'{it.moment} {it.token} POST {asked}', wanted)


def one_by_one(it):
    """The messages in place of a message: of moves that are made what each asks, of moves that are
    refused none, and else itself."""
    if not is_moves(it):
        return [it]
    return [one(it, move) for move in json.loads(it.body)['moves']] if it.status == '200' else []


class Moves(ScriptTestCase):
    def test_scripts(self):
        self.check_scripts(SCRIPTS, '--history')

    def test_one_by_one(self):
        for path in SCRIPTS:
            asked = messages(path)
            apart = [step for it in asked for step in one_by_one(it)]
            got, rows = self.play(apart, '--history')
            self.check(path.name, self.play(asked, '--history')[1], rows)
            for it, answer, before in zip(apart, got, [None, *got]):
                self.check(f'{path.name}: {it.line}', it.fits(answer, before), True)

    def test_by_default(self):
        for path in SCRIPTS:
            asked = messages(path)
            rest = [it for it in asked if not is_moves(it)]
            got, rows = self.play(asked)
            self.check(f'{path.name}: the rows', rows, self.play(rest)[1])
            answered = {answer.content for it, answer in zip(asked, got) if is_moves(it)}
            self.check(f'{path.name}: no path', answered, {NO_PATH})

    def test_replay(self):
        """A list with moves leads to the same rows again."""
        journal, asked = self.folder / 'room.list', messages(ROWS / 'moves' / 'divert.rows')
        rows = self.play(asked, '--history', '--journal', str(journal))[1]
        room = self.fresh(self.room)
        done = subprocess.run([PROGRAM, 'replay', room, '--history'], input=journal.read_bytes(),
                              capture_output=True, timeout=180)
        self.check('replayed', (done.returncode, done.stderr.decode()), (0, ''))
        self.check('the rows', dump(room), rows)
