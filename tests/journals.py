"""What tests share of journals: the list of a served room taken apart and put together, the program
that looks through it and replays it, and a room that is served with one."""
import hashlib
import io
import shutil
import subprocess
import sys

from room import PATIENT, PROGRAM, TOP, TestCase, made, message, read_dated, serving, talk

sys.path.append(str(TOP / 'examples' / 'three'))
import digest  # noqa: E402

CREW = 'A1,1,1,TQ303804,crewofa1'
QUEUE = message('deskone1', 'GET /queue')
OPENING = b'list 2\n'
HEAD = 71  # bytes of the line before a record: its size, and its check
CUT = rb'\Ajournal: a record that was cut off is set aside as \S+\.cut\.\d+\n\Z'


def ends(text):
    """Where the first line of a list of version 2 ends, and each of its records."""
    found = [len(OPENING)]
    while found[-1] < len(text):
        found.append(found[-1] + HEAD + int(text[found[-1]:found[-1] + 5]))
    return found


def pieces(text):
    """The records of a list of version 2 with their lines, as they stand in its text."""
    places = ends(text)
    return [text[at:end] for at, end in zip(places, places[1:])]


def bodies(text):
    """The records of a list, without their lines."""
    return [it[HEAD:] for it in pieces(text)]


def records(text):
    """The same but for its end, as a list of version 1 has them."""
    return [it for it in bodies(text) if it != b'end\n']


def plain(text):
    """The entries of a list of version 2, as a list of version 1 has them."""
    check, found = b'0' * 64, []
    for piece in pieces(text):
        body = piece[HEAD:]
        check = hashlib.sha256(check + body).hexdigest().encode()
        assert piece[:HEAD] == b'%05d %s\n' % (len(body), check), piece
        found.append(body)
    return b''.join(it for it in found if it != b'end\n' and not it.startswith(b'row '))


def entries(text):
    """The entries of a journal: the words of each line, and with a message its bytes."""
    if text.startswith(OPENING):
        text = plain(text)
    found, at = [], 0
    while at < len(text):
        end = text.index(b'\n', at)
        words, at = text[at:end].decode().split(' '), end + 1
        if words[0] == 'message':
            size = int(words[2])
            words[2:], at = [text[at:at + size]], at + size + 1
        found.append(tuple(words))
    return found


def chain(bodies, opening=OPENING):
    """A list of version 2 of these records: each has its size, and the SHA-256 of the check before
    it and of its bytes."""
    text, check = opening, b'0' * 64
    for body in bodies:
        check = hashlib.sha256(check + body).hexdigest().encode()
        text += b'%05d %s\n' % (len(body), check) + body
    return text


def head_of(room):
    """The record that says which room a list is at."""
    return digest.head_of(room).encode()


def verify(path):
    """Looks through a list; the status, what was printed, and what was reported."""
    done = subprocess.run([PROGRAM, 'verify', path], capture_output=True, timeout=180)
    return done.returncode, done.stdout.decode(), done.stderr.decode()


def replay(room, text, *words):
    """Replays a list over a room; the status, what was printed, and what was reported."""
    done = subprocess.run([PROGRAM, 'replay', room, *words], input=text, capture_output=True,
                          timeout=300)
    return done.returncode, done.stdout, done.stderr.decode()


class JournalTestCase(TestCase):
    def setUp(self):
        super().setUp()
        self.room = made(self.folder / 'room.db', CREW)
        self.list = self.folder / 'room.list'

    def copy(self):
        """A copy of the room as it is, under another name each time."""
        self.copies = getattr(self, 'copies', 0) + 1
        return shutil.copy(self.room, self.folder / f'copy{self.copies}.db')

    def serve(self, *connections, words=()):
        """Serves the room with a journal to connections, each of some messages; gives the dated
        answers, and what it said on standard error."""
        found = []
        words = *PATIENT, '--journal', self.list, *words
        with serving(self.room, len(connections), *map(str, words)) as (port, process):
            for sent in connections:
                stream = io.BytesIO(talk(port, *sent))
                found += iter(lambda: read_dated(stream), None)
            process.wait(timeout=180)
            return found, process.stderr.read().decode()

    def entries(self):
        return entries(self.list.read_bytes())


class NoList:
    """Where no list can be kept, a change is refused as a test case with a list has it."""

    def test_no_list(self):
        self.refused('a folder', self.folder)
        self.refused('in no folder', self.folder / 'none' / 'list')
        self.refused('a full disk', '/dev/full')
        self.list.write_text('deskone1 POST /call\n')
        self.refused('another text', self.list)
        self.check('which stays', self.list.read_text(), 'deskone1 POST /call\n')
