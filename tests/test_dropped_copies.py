"""What a start takes for its list is what the disk has, and not what the system still shows: the
list is synced, the system's copies of it are dropped, and only then it is read. The disk of these
tests has less than the system shows, as where an earlier sync had failed: the list loses its end as
its copies are dropped."""
# needs: python3 gcc libc6-dev
# builds: dispatch_room
import pathlib
import subprocess
import tempfile

from journals import CUT, QUEUE, ends
from preloaded import IN_MEMORY, Preloaded, dropped
from room import PROGRAM, TestCase, call, made


class DroppedCopies(TestCase):
    @classmethod
    def setUpClass(cls):
        super().setUpClass()
        folder = cls.enterClassContext(tempfile.TemporaryDirectory(dir=IN_MEMORY))
        cls.program = Preloaded(pathlib.Path(folder))

    def setUp(self):
        super().setUp()
        self.room = made(self.folder / 'room.db')
        self.list = self.folder.resolve() / 'room.list'

    def served(self, left, *sent):
        """Serves the room to one connection, with so many bytes left of the list, or with its
        copies not dropped; the answers' statuses, the status, and what was reported."""
        words = self.room, b''.join(sent), '--journal', self.list
        answers, *end = self.program.serve(dropped(self.list, left), *words)
        return [it[0] for it in answers], *end

    def kept(self):
        """A list of some records."""
        self.check('it is served', self.served(0, call(1), QUEUE), ([200, 200], 0, b''))
        return self.list.read_bytes()

    def test_end_is_gone(self):
        text = self.kept()
        places = ends(text)
        self.check('its records', len(places), 7)
        for whole, end in zip([0, *places], [*places, len(text)]):
            for left in {whole, (whole + end) // 2}:
                self.list.write_bytes(text)
                *done, report = self.served(left, QUEUE)
                self.check(f'{left} bytes', done, [[200], 0])
                self.assertRegex(report, CUT if whole < left else rb'\A\Z')
                now = self.list.read_bytes()
                self.check(f'{left} bytes: what stands', now[:whole], text[:whole])
                more = [it for it in ends(now) if whole < it]
                self.check(f'{left} bytes: what follows', len(more), 4 if whole else 5)
                done = subprocess.run([PROGRAM, 'verify', self.list], capture_output=True)
                self.check(f'{left} bytes: it is a list', done.returncode, 0)

    def test_copies_stay(self):
        """Where they can't be dropped, nothing is served, and the list is as it was."""
        text = self.kept()
        self.check('the end', self.served(None, QUEUE), ([], 6, b'journal\n'))
        self.check('the list', self.list.read_bytes(), text)
