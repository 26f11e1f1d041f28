"""The lists of a room that keeps a journal (docs/FILES.md), as they lie in its folder: `room.list`;
what a rotation moved away, `room.list.1`, `room.list.2.gz` and so on; and, as `weekly/renew.sh`
names them, `room.DAY.TIME.list` with its own parts, the lists of the room that was renewed then.

Each is a chain, in which a record has the SHA-256 of the check before it and of itself. It begins
with a head, `room 2 DIGEST`, which says which room it goes on from: so lists are a chain, too."""
import collections.abc
import dataclasses
import datetime
import gzip
import hashlib
import os
import pathlib
import re
import time
import typing
import zlib

OPENING = b'list 2\n'
HEADER = 71  # bytes of the line before a record
LONGEST = HEADER + 99_999  # bytes of a record with its line
HEAD = re.compile(rb'room 2 ([0-9a-f]{64})\n')
BEGUN = len(OPENING) + HEADER + 72  # bytes of a list that has its first head
# Behind a list's name: what a rotation puts there; within it: when its room was renewed.
PART = re.compile(r'(?:\.(\d+))?(\.gz)?')
RENEWED = r'\.(\d{4}-\d\d-\d\d)(?:\.\d{6})?'
# How long before its making a renewed room has all rows, as `renew.sh` makes it.
WEEK = datetime.timedelta(days=7)


class Untrusted(Exception):
    """Why there is no copy that can be trusted, in one line."""


@dataclasses.dataclass(frozen=True)
class Place:
    """How far a list has come: its bytes, and the check of the last record."""
    bytes: int = len(OPENING)
    check: str = '0' * 64

    def behind(self, body: bytes) -> 'Place':
        """The place behind the next record."""
        check = hashlib.sha256(self.check.encode() + body).hexdigest()
        return Place(self.bytes + HEADER + len(body), check)


@dataclasses.dataclass(frozen=True)
class Rest:
    """What the lists of a room have behind a copy, and the place behind that. Where a newer room
    has lists, too: which rooms these begin with, and the day since which it has all rows."""
    entries: list[bytes]
    place: Place
    heads: set[str]
    day: str | None


# ---- where they lie


def parts_of(file: pathlib.Path) -> list[pathlib.Path]:
    """The parts of a list that have as many bytes as their first head, the oldest first. One that
    is being compressed is there twice, and whole without the ending."""
    found: dict[int, pathlib.Path] = {}
    for it in sorted(file.parent.iterdir(), reverse=True):
        is_part = it.name.startswith(file.name) and PART.fullmatch(it.name[len(file.name):])
        if is_part:
            found[int(is_part[1] or 0)] = it
    return [found[it] for it in sorted(found, reverse=True)
            if len(read(found[it], 0, BEGUN)) == BEGUN]


def renewed(file: pathlib.Path) -> dict[pathlib.Path, str]:
    """The lists of the rooms from which this one was renewed, the oldest first, each with the day
    since which the next room has all rows."""
    form = re.compile(f'({re.escape(file.stem)}{RENEWED}{re.escape(file.suffix)})' + PART.pattern)
    found = {it[1]: it[2] for it in map(form.fullmatch, names(file)) if it}
    return {file.with_name(name): str(datetime.date.fromisoformat(day) - WEEK)
            for name, day in sorted(found.items())}


def names(file: pathlib.Path) -> list[str]:
    return [it.name for it in file.parent.iterdir()]


def steady(file: pathlib.Path, read: collections.abc.Callable[[], Rest]) -> Rest:
    """What is read while no rotation moves a list."""
    while True:
        before = inodes(file)
        try:
            found = read()
        except (OSError, Untrusted):
            if inodes(file) == before:
                raise
        else:
            if inodes(file) == before:
                return found


def await_new(file: pathlib.Path) -> None:
    """A rotation leaves no list until the room begins one, within a second."""
    for _ in range(30):
        if file.exists():
            return
        time.sleep(0.1)


def inodes(file: pathlib.Path) -> dict[str, int]:
    with os.scandir(file.parent) as found:
        return {it.name: it.inode() for it in found if it.name.startswith(file.stem)}


# ---- what stands in them


def read(file: pathlib.Path, at: int, size: int = -1) -> bytes:
    """So many bytes of a list from a place on, or all."""
    opened = typing.cast(typing.BinaryIO,
                         gzip.open(file) if file.suffix == '.gz' else file.open('rb'))
    try:
        with opened as it:
            it.seek(at)
            return it.read(size)
    except (EOFError, zlib.error) as error:
        raise Untrusted(f'{file} is not as it was compressed: {error}') from None


def head(file: pathlib.Path) -> str | None:
    """The digest of the room with which a list begins."""
    text = read(file, 0, BEGUN)
    found = HEAD.fullmatch(text, len(OPENING) + HEADER)
    return found[1].decode() if text.startswith(OPENING) and found else None


def has(file: pathlib.Path, place: Place) -> bool:
    """Whether a record of a list ends at a place, with its check."""
    first = max(place.bytes - LONGEST, 0)
    text = read(file, first, place.bytes - first)
    at = text.rfind(b' %b\n' % place.check.encode())
    size = b'%05d' % (len(text) - at - HEADER + 5)
    return first + len(text) == place.bytes and at >= 5 and text[at - 5:at] == size


def records(file: pathlib.Path, place: Place) -> collections.abc.Iterator[tuple[bytes, Place]]:
    """The records that a list has behind a place, each with the place behind it. A last one that is
    not whole is still being written."""
    text, first = read(file, place.bytes), place.bytes
    while (at := place.bytes - first) + HEADER <= len(text):
        size = int(text[at:at + 5]) if text[at:at + 5].isdigit() else 0
        body = text[at + HEADER:at + HEADER + size]
        then = place.behind(body)
        is_whole = len(body) == size and text[at:at + HEADER] == header(size, then)
        if size == 0 or not (is_whole or is_cut(body, size)):
            raise Untrusted(f'{file}: at byte {place.bytes} stands no record that comes next')
        if len(body) < size:
            return
        yield body, then
        place = then


def is_cut(body: bytes, size: int) -> bool:
    """Whether this is the beginning of a record of that size: a part of a line, or a message's line
    with a part of its bytes."""
    line, feed, _ = body.partition(b'\n')
    kind, _, more = line.partition(b' ')
    length = more.rpartition(b' ')[2]
    is_message = kind == b'message' and length.isdigit()
    return len(body) < size and (not feed or is_message and size == len(line) + int(length) + 2)


def header(size: int, place: Place) -> bytes:
    return b'%05d %s\n' % (size, place.check.encode())


def chain(bodies: list[bytes]) -> bytes:
    """The list of these records. A list of version 1 has no rows."""
    text, place = [OPENING], Place()
    for body in bodies:
        place = place.behind(body)
        text += [header(len(body), place), body]
    return b''.join(text)


# ---- what they have behind a copy


def since(parts: list[pathlib.Path], place: Place) -> tuple[list[bytes], Place]:
    """The entries and rows of lists, of the first from a place on, and the place behind them. A
    last message without a status is left to the next night, and so are last rows without a head."""
    entries: list[bytes] = []
    settled = 0, place
    for part in parts:
        for body, then in records(part, place):
            if body != b'end\n':
                entries.append(body)
            if not body.startswith((b'message ', b'row ')):
                settled = len(entries), then
        place = Place()
    return entries[:settled[0]], settled[1]


def going_on(rooms: list[list[pathlib.Path]], digest: str,
             place: Place) -> tuple[int, int, Place] | None:
    """Where a copy goes on among the lists of rooms: at the head of the newest that begins with its
    room, or else behind the last record that it has."""
    parts = [(room, nth) for room, found in enumerate(rooms) for nth in range(len(found))]
    for room, nth in reversed(parts):
        if head(rooms[room][nth]) == digest:
            return room, nth, Place()
    for room, nth in reversed(parts):
        if has(rooms[room][nth], place):
            return room, nth, place
    return None


def rest(file: pathlib.Path, digest: str, place: Place) -> Rest:
    """What comes behind a copy. In a list that is empty still, nothing does."""
    days = renewed(file)
    rooms = [parts_of(it) for it in [*days, file]]
    if not file.exists():
        raise Untrusted(f'{file} is not there')
    found = going_on(rooms, digest, place)
    if found is None and place == Place() and file.stat().st_size < BEGUN:
        return Rest([], place, set(), None)
    if found is None:
        raise Untrusted(f'no list beside {file} goes on from the last copy')
    room, nth, place = found
    entries, place = since(rooms[room][nth:], place)
    heads = {str(head(it)) for newer in rooms[room + 1:] for it in newer}
    return Rest(entries, place, heads, [*days.values(), None][room])
