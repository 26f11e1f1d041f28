"""The copies of a machine's room: files that are named by the record up to which they have played,
and by the digests of the entry that it ends, of the answers that were given, and of the room."""
import contextlib
import fcntl
import itertools
import os
import pathlib
import shutil
import typing
from collections.abc import Iterator

from entries import Place

KEPT = 6  # copies, for where the list goes back, and one that all machines have made among them
LEAST_LOG = 32 + 24 + 512  # bytes of SQLite's log with one page of the smallest size
NO_ANSWERS = '0' * 64


class Copy(typing.NamedTuple):
    """A file that holds the room after the entry of this place; and the digests of all answers
    until then, and of the room."""
    file: pathlib.Path
    number: int
    digest: str
    answers: str
    room: str


def copy_at(folder: pathlib.Path, place: Place, answers: str, room: str) -> Copy:
    name = f'copy.{place.number:012}.{place.digest}.{answers}.{room}.db'
    return Copy(folder / name, place.number, place.digest, answers, room)


def copies_in(folder: pathlib.Path) -> list[Copy]:
    """The newest first."""
    found = []
    for file in sorted(folder.glob('copy.*.*.*.*.db'), reverse=True):
        _, number, *digests, _ = file.name.split('.')
        found.append(Copy(file, int(number), *digests))
    return found


def make_folder(folder: pathlib.Path) -> None:
    folder.mkdir(mode=0o700, parents=True, exist_ok=True)


@contextlib.contextmanager
def alone(folder: pathlib.Path) -> Iterator[None]:
    """Has a folder for one companion only, without what programs that were killed have left."""
    make_folder(folder)
    with (folder / 'lock').open('w') as lock:
        try:
            fcntl.flock(lock, fcntl.LOCK_EX | fcntl.LOCK_NB)
        except BlockingIOError:
            raise OSError(f'another companion has {folder}') from None
        for left in [*folder.glob('run.*'), *folder.glob('part.*')]:
            shutil.rmtree(left, ignore_errors=True)
        yield


def sync(path: pathlib.Path) -> None:
    opened = os.open(path, os.O_RDONLY)
    try:
        os.fsync(opened)
    finally:
        os.close(opened)


def log_of(file: pathlib.Path) -> pathlib.Path:
    return file.with_name(f'{file.name}-wal')


def is_alone(file: pathlib.Path) -> bool:
    """Whether a file without its log is the room, as it is where that has no page."""
    log = log_of(file)
    return not log.exists() or log.stat().st_size < LEAST_LOG


def take(file: pathlib.Path, into: pathlib.Path) -> None:
    """Copies a room's file with its log, of a program that writes nothing meanwhile."""
    make_folder(into)
    shutil.copyfile(file, into / 'room.db')
    if not is_alone(file):
        shutil.copyfile(log_of(file), log_of(into / 'room.db'))


def keep(file: pathlib.Path, copy: Copy) -> None:
    """Gives a file the name of a copy, once it is on the disk whole, and drops the oldest."""
    if not is_alone(file):
        raise OSError(f'{file} is not closed: it has a log')
    sync(file)
    file.rename(copy.file)
    sync(copy.file.parent)
    for older in copies_in(copy.file.parent)[KEPT:]:
        older.file.unlink()


def set_aside(copy: Copy) -> pathlib.Path:
    """Keeps a copy that is not in the list any more out of the way. A link takes no name that a
    file has: the first that is free, of lost.NAME, lost.NAME.1 and so on."""
    name = f'lost{copy.file.name.removeprefix("copy")}'
    for number in itertools.count():
        aside = copy.file.with_name(f'{name}.{number}' if number else name)
        with contextlib.suppress(FileExistsError):
            os.link(copy.file, aside)
            copy.file.unlink()
            return aside


def agreed(folder: pathlib.Path) -> pathlib.Path:
    """The file that has, for the next start, up to which record a copy is good, where the others
    agree on something else since."""
    return folder / 'agreed'


def last_agreed(folder: pathlib.Path) -> float:
    return float(agreed(folder).read_text() if agreed(folder).exists() else 'inf')
