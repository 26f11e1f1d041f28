"""Files that another program has changed: each agreement of the rows broken once, values that no
row has, tables and indexes missing or too many. The room is opened only where all agrees, and a
refusal changes nothing."""
# needs: python3 sqlite3
# builds: dispatch_room
import pathlib
import shutil
import tempfile

from broken_rooms import BROKEN, WORK, WRONG
from room import FLEET, TestCase, drop_indexes, dump, index_names, made, run, sql

def opened(room):
    """What comes of opening the room: its status, and what it says of a failure."""
    status, _, printed = run('times', room, 1, '2026-03-29')
    return status, printed


class Hostile(TestCase):
    @classmethod
    def setUpClass(cls):
        folder = cls.enterClassContext(tempfile.TemporaryDirectory())
        cls.room = made(pathlib.Path(folder) / 'room.db')
        run('import', cls.room, FLEET)
        cls.printed = sql(cls.room, WORK)

    def copy(self):
        return pathlib.Path(shutil.copy(self.room, self.folder / 'changed.db'))

    def check_each(self, changes, wanted):
        for what, change in changes.items():
            changed = self.copy()
            self.check(f'{what}: the change is made', sql(changed, change), '')
            before = dump(changed)
            self.check(what, opened(changed), wanted)
            self.check(f'{what}: nothing is changed', dump(changed), before)

    def test_room_is_sound(self):
        self.check('the rows are there', self.printed, '')
        self.check('the room is sound', opened(self.copy()), (0, ''))

    def test_broken_agreements(self):
        self.check_each(BROKEN, (1, 'refused: file\n'))

    def test_values_of_no_row(self):
        self.check_each(WRONG, (3, 'storage\n'))

    def test_indexes(self):
        """A file without indexes is a room: they are made anew, and no row changes."""
        changed = self.copy()
        indexes = drop_indexes(changed)
        self.check('five indexes', len(indexes), 5)
        self.check('they are dropped', index_names(changed), [])
        self.check('the room is opened', opened(changed), (0, ''))
        self.check('the indexes are there again', index_names(changed), indexes)
        self.check('the rows are the same',
                   sorted(dump(changed).splitlines()), sorted(dump(self.room).splitlines()))
