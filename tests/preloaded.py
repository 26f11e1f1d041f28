"""The program under the library of preload/, which is loaded before the C library's own, and the
switches of it that preload/preload.h names."""
import atexit
import contextlib
import errno
import functools
import os
import pathlib
import shutil
import subprocess
import tempfile

from room import PATIENT, PROGRAM, TOP, TestCase, ask, free_port

# Files in memory, where the system has a folder of such, for each deed is done again and again.
IN_MEMORY = '/dev/shm' if os.path.isdir('/dev/shm') else None
EVERY = 'EVERY_PLACE' in os.environ  # tests/run --all
MANY = 40  # so many calls of a deed are met in turn, or half as many more; with --all each of them
LAST = 10 ** 9  # no program makes so many calls
SOURCES = sorted((TOP / 'tests' / 'preload').glob('*.c'))

# ---- the switches: each gives variables of the environment, and those of two can stand together

BEFORE, HALFWAY, MACHINE, TORN = range(4)  # how a program is stopped at a call
FIRST, ANY = 10, 100  # with so many sectors of each block, or any of them by a number, written


def clock(moments):
    """The clock of the day is at these moments, one after another."""
    return {'MOMENTS': ' '.join(moments)}


def clock_of(file):
    """The clock of the day is at the moment that stands in a file."""
    return {'MOMENT': file}


def refusals(first, last):
    """The allocations from the first to the last are refused."""
    return {'REFUSALS': f'{first} {last}'}


def faults(first, last, error=errno.EIO):
    """The calls that read or change a file fail from the first to the last."""
    return {'FAULTS': f'{first} {last} {error}'}


def sync_fault(at, path):
    """The sync of a file or folder fails that has this number."""
    return faults(at, at) | {'SYNCED': path}


def stop(at, how=BEFORE):
    """The program is stopped at the call that changes a file and has this number."""
    return {'STOPS': f'{at} {how}'}


SERVING = {'SERVING': 1}  # what fails is counted once the room is served
WRITES = {'WRITES': 1}  # a fault or a stop may be at what is written to a journal, too
NAMES = {'NAMES': 1}  # and where a file is made, moved or removed
NEVER_STOPPED = stop(0)


def dropped(path, left=None):
    """Where the system's copies of a synced file are dropped it has so many bytes; or they stay,
    and that is an error."""
    return {'DROPPED': path} | ({} if left is None else {'LEFT': left})


def sampled(total):
    """The numbers to try of so many calls, the last one too."""
    return sorted({*range(1, total + 1, 1 if EVERY else 1 + total // MANY), total})


# ---- the program


@functools.cache
def library():
    """The library of preload/, which is compiled once, and kept until the tests end."""
    folder = tempfile.TemporaryDirectory()
    atexit.register(folder.cleanup)
    file = pathlib.Path(folder.name) / 'preload.so'
    words = ['gcc', '-std=c11', '-Wall', '-Wextra', '-Werror', '-O2', '-shared', '-fPIC']
    done = subprocess.run([*words, '-o', file, *SOURCES, '-ldl'], capture_output=True)
    assert (done.returncode, done.stderr) == (0, b''), f'gcc: {done.stderr.decode()}'
    return file


class Preloaded:
    """The program with the library of preload/."""

    def __init__(self, folder):
        self.counted = folder / 'counted'

    def start(self, switches, *words, stdin=subprocess.DEVNULL):
        """Starts the program, with the library's switches set."""
        own = {'LD_PRELOAD': library(), 'COUNTED': self.counted}
        given = {name: str(value) for name, value in (own | switches).items()}
        return subprocess.Popen([PROGRAM, *map(str, words)], stdin=stdin, stdout=subprocess.PIPE,
                                stderr=subprocess.PIPE, env=os.environ | given)

    def run(self, switches, *words, given=b''):
        """Runs the program over what it is given; its status, what it printed, and what it said on
        standard error."""
        process = self.start(switches, *words, stdin=subprocess.PIPE)
        out, err = process.communicate(given, timeout=180)
        return process.returncode, out, err

    def serve(self, switches, room, sent, *words, ask=ask):
        """Serves a room to one connection that asks what is sent; the answers, the status, and
        what was reported."""
        port, answers = free_port(), []
        address = f'127.0.0.1:{port}'
        words = *PATIENT, *words
        process = self.start(switches, 'serve', room, address, '--connections', 1, *words)
        with process:
            if process.stdout.readline() == b'serving\n':
                with contextlib.suppress(OSError):
                    answers = ask(port, sent)
            _, err = process.communicate(timeout=180)
        return answers, process.returncode, err

    def total(self):
        """How many calls the last program counted that came to its end."""
        return int(self.counted.read_text())


class PreloadedTestCase(TestCase):
    """A test case over the program with the library, and files in memory."""

    @classmethod
    def setUpClass(cls):
        folder = cls.enterClassContext(tempfile.TemporaryDirectory(dir=IN_MEMORY))
        cls.program = Preloaded(pathlib.Path(folder))

    def setUp(self):
        folder = self.enterContext(tempfile.TemporaryDirectory(dir=IN_MEMORY))
        self.folder = pathlib.Path(folder)

    def fresh(self, of=None):
        """A file's name in a folder of its own; it is a copy of a room, or not there."""
        case = self.folder / 'case'
        shutil.rmtree(case, ignore_errors=True)
        case.mkdir()
        file = case / 'room.db'
        if of:
            shutil.copy(of, file)
        return file
