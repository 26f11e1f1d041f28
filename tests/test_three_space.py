"""Three machines whose folders for copies are full: what they are asked is answered meanwhile, and
once there is space they have copies again."""
# needs: etcd-server sqlite3 mount
# builds: dispatch_room
import contextlib
import shutil
import unittest.mock

from disturbed import small
from listed import ThreeTestCase, call
from room import PROGRAM, TestCase, dump

import copies
import playing

SIZE = 4 << 20  # bytes of a small file system


class Work(TestCase):
    def test_where(self):
        """A room is played in the folder for that where it fits, and else beside the copies."""
        copy = copies.Copy(self.folder / 'copy.db', 0, '', '', '')
        copy.file.write_bytes(bytes(1000))
        how = playing.Playing('', self.folder / 'room', self.folder, 1, 0)
        for free, wanted in (3000, how.work), (2999, how.folder):
            with unittest.mock.patch.object(shutil, 'disk_usage') as usage:
                usage.return_value.free = free
                self.check(f'{free} bytes', how.where(copy), wanted)


class Space(ThreeTestCase):
    def setUp(self):
        super().setUp()
        self.machines.copy_every, self.serial = 10, 0
        for number, machine in self.machines.machines.items():
            self.addCleanup(*small(machine.folder / 'room', SIZE))
            self.machines.words[number] = ['--work', self.folder / f'work{number}']

    def calls(self, count):
        """Makes calls by one machine after another; gives the answers' statuses."""
        found = []
        for self.serial in range(self.serial + 1, self.serial + 1 + count):
            found.append(self.answered(1 + self.serial % 3, call(self.serial))[1])
        return found

    def state(self, number, name):
        return self.machines.state(number)[name]

    def folder_of(self, number):
        return self.machines.machines[number].folder / 'room'

    def is_copying(self, number):
        return any(self.folder_of(number).glob('part.*'))

    def fill(self, number):
        """Leaves no byte free in a machine's folder for copies."""
        with ((self.folder_of(number) / 'filler').open('ab', 0) as filler,
              contextlib.suppress(OSError)):
            while True:
                filler.write(bytes(1 << 16))

    def until_uncopied(self, number):
        """Waits for a copy that fails, in a folder that is filled again, as one that was being made
        may have given something back."""
        def is_uncopied():
            self.fill(number)
            self.calls(1)
            return 'No space left' in self.state(number, 'uncopied')
        self.machines.until(is_uncopied, 'it is reported')

    def check_full(self, numbers):
        self.machines.start_all()
        self.check('calls', self.calls(12), [200] * 12)
        for it in numbers:
            self.fill(it)
        self.check('calls while it is full', self.calls(24), [200] * 24)
        for it in numbers:
            self.until_uncopied(it)
            self.machines.until(lambda: self.state(it, 'free')['copies'] < SIZE // 8, 'no space')
        self.check('calls behind a copy that failed', self.calls(24), [200] * 24)
        for it in numbers:
            self.machines.until(lambda: not self.is_copying(it), 'what it left is deleted')
        self.check('on standard error', 'no copy of record' in self.machines.said(), True)
        for it in numbers:
            (self.folder_of(it) / 'filler').unlink()
        last = self.level()
        for it in numbers:
            self.machines.until(lambda: self.state(it, 'uncopied') == '', 'there is a copy again')
            self.check('of the records since', self.state(it, 'copy') > 12, True)
        self.check('all end well', self.machines.stop_companions(), [0, 0, 0])
        newest = [self.newest(it) for it in self.machines.machines]
        self.check('with all records', [it.number for it in newest], [last] * 3)
        self.check('and are one room', len({dump(it.file) for it in newest}), 1)

    def test_change(self):
        """A change that one machine has no space for is given up at once, and made later."""
        self.machines.start_all()
        self.check('calls', self.calls(12), [200] * 12)
        words = ['terminals', '--new', 'crew:V6', '--program', PROGRAM, '--folder',
                 self.folder_of(1)]
        self.level()
        self.machines.until(lambda: not self.is_copying(2), 'no copy is being made')
        self.fill(2)
        self.check('it is not made', self.machines.companion_does(1, *words),
                   (1, 'companion: refused: not every machine could make it\n'))
        self.check('calls behind it', self.calls(12), [200] * 12)
        (self.folder_of(2) / 'filler').unlink()
        self.check('it is made', self.machines.companion_does(1, *words)[0], 0)
        self.check('all end well', self.machines.stop_companions(), [0, 0, 0])

    def test_one(self):
        self.check_full([2])

    def test_all(self):
        self.check_full([1, 2, 3])
