#!/usr/bin/env python3
"""Copies of a room that is served, without a stop: last night's copy, and what the journal has kept
since.

  backup.py begin ROOM LIST FOLDER             the first copy, of a room that is not served
  backup.py night LIST FOLDER [--keep NIGHTS]  tonight's: the room is served on

A night reads the records that the list has behind the last copy, recomputes their checks, and plays
them to a copy of the last copy. A restore of the result is tried on a third file. Only then does it
stand in the folder: NAME.db, a room in one file; NAME.list, what was played to the copy before it;
and NAME.json, its digest and its place in the list. What a rotation moved away since is read first;
and where the room was renewed, so is the copy, which has to become the room of the next list.

A list has rows, too, where a change was kept in it by `--journal`: records `row LINE`, one for each
line of a fleet, of a plan or of a list of terminals, and behind the last of them a head, `room 2
DIGEST`. The head says how far the change is made, so a night takes rows only with the head behind
them.

A line a copy says what was done, with status 0; or one line why there is no copy that can be
trusted, with status 1."""
import argparse
import dataclasses
import datetime
import json
import os
import pathlib
import re
import subprocess
import sys

import lists
from lists import Place, Untrusted

PROGRAM = os.environ.get('DISPATCH_ROOM', 'dispatch_room')
# The nights whose copies are kept, unless other is asked for.
KEPT = 14
# What the names of a room's files end with: itself, what a database has beside it, and what
# `restore` makes first.
ENDS = ('', '-wal', '-shm', '.new')
# How copies are named: by the moment at which they were made.
NAME = '%Y-%m-%d.%H%M%S'
NAMED = re.compile(r'(\d{4}-\d\d-\d\d\.\d{6})\..*')


@dataclasses.dataclass(frozen=True)
class Copy:
    """A copy that is trusted: its file without an ending, its digest, and its place in the list."""
    path: pathlib.Path
    digest: str
    place: Place

    def of(self, ending: str) -> pathlib.Path:
        return self.path.with_name(self.path.name + ending)

    def note(self) -> None:
        """Writes down the digest and the place, once the copy itself stands."""
        text = json.dumps({'digest': self.digest} | dataclasses.asdict(self.place))
        part = self.of('.json.part')
        with part.open('w') as file:
            file.write(text + '\n')
            file.flush()
            os.fsync(file.fileno())
        part.rename(self.of('.json'))


def noted(file: pathlib.Path) -> Copy:
    """The copy of which this was written down."""
    found = json.loads(file.read_text())
    return Copy(file.with_suffix(''), found['digest'], Place(found['bytes'], found['check']))


def said(*words: str | pathlib.Path, text: bytes = b'') -> list[str]:
    """The lines that a command of the program prints."""
    done = subprocess.run([PROGRAM, *map(str, words)], input=text, capture_output=True)
    if done.returncode != 0:
        reported = done.stderr.decode().strip() or f'status {done.returncode}'
        raise Untrusted(f'{words[0]} {words[1]}: {reported.splitlines()[-1]}')
    return done.stdout.decode().splitlines()


def digest_in(lines: list[str]) -> str:
    return lines[-1].removeprefix('digest ')


def restored(copy: pathlib.Path, file: pathlib.Path) -> str:
    """Restores a copy to a file that the folder has for a while; the digest of its room."""
    clear(file)
    said('restore', copy, file)
    return digest_in(said('digest', file))


def clear(file: pathlib.Path) -> None:
    """Removes a room's file, and what may lie beside it."""
    for end in ENDS:
        file.with_name(file.name + end).unlink(missing_ok=True)


# ---- what is done


def begin(room: pathlib.Path, file: pathlib.Path, folder: pathlib.Path) -> str:
    """The first copy."""
    place = lists.since([file], Place())[1] if file.exists() else Place()
    copy = Copy(unused(folder), '', place)
    digest = restored(room, copy.of('.db'))
    dataclasses.replace(copy, digest=digest).note()
    return f'{copy.path.name}: the first copy, digest {digest}'


def night(file: pathlib.Path, folder: pathlib.Path, kept: int) -> str:
    """Tonight's copy; and one of each room that was renewed since the last."""
    copy, done = noted(newest(folder)[0]), []
    lists.await_new(file)
    try:
        while True:
            rest = lists.steady(file, lambda: lists.rest(file, copy.digest, copy.place))
            copy, what = filed(copy, rest, folder)
            done.append(f'{copy.path.name}: {what}, digest {copy.digest}')
            if not rest.heads:
                return '\n'.join(done)
    finally:
        tidy(folder, kept)


def filed(last: Copy, rest: lists.Rest, folder: pathlib.Path) -> tuple[Copy, str]:
    """The copy that comes of the last one, once it stands in the folder, and what was done."""
    text = lists.chain([f'room 2 {last.digest}\n'.encode(), *rest.entries])
    part, third = folder / 'part.db', folder / 'third.db'
    restored(last.of('.db'), part)
    what, line = said('replay', part, '--digest', '--history', text=text)
    digest, place = digest_in([line]), rest.place
    if rest.heads and digest not in rest.heads:
        digest, place = renewed(part, third, rest), Place()
        what = f'{what}, renewed since {rest.day}'
    if restored(part, third) != digest:
        raise Untrusted(f'{third} was restored, and is another room than its copy')
    copy = Copy(unused(folder), digest, place)
    copy.of('.list').write_bytes(text)
    part.rename(copy.of('.db'))
    copy.note()
    return copy, what


def renewed(part: pathlib.Path, third: pathlib.Path, rest: lists.Rest) -> str:
    """Renews a room as it was renewed that is served; the digest of the new one."""
    clear(third)
    said('renew', part, third, '--since', str(rest.day))
    digest = restored(third, part)
    if digest not in rest.heads:
        raise Untrusted(f'renewed since {rest.day} it is another room than that of the next list')
    return digest


def unused(folder: pathlib.Path) -> pathlib.Path:
    """A copy's file without an ending, of a name that no copy has; a copy has its second's."""
    moment = datetime.datetime.now()
    while (folder / f'{moment.strftime(NAME)}.db').exists():
        moment += datetime.timedelta(seconds=1)
    return folder / moment.strftime(NAME)


def newest(folder: pathlib.Path) -> list[pathlib.Path]:
    """What was written down of copies, the newest first."""
    found = sorted(folder.glob('*.json'), reverse=True)
    if not found:
        raise Untrusted(f'{folder} has no first copy')
    return found


def tidy(folder: pathlib.Path, kept: int) -> None:
    """Removes what a night needed meanwhile, what it did not finish, and the copies of nights that
    are long ago."""
    clear(folder / 'part.db')
    clear(folder / 'third.db')
    names = {it.stem for it in newest(folder)[:kept]}
    for file in folder.iterdir():
        named = NAMED.fullmatch(file.name)
        if named and named[1] not in names:
            file.unlink()


def main() -> int:
    parser = argparse.ArgumentParser(description=__doc__,
                                     formatter_class=argparse.RawDescriptionHelpFormatter)
    commands = parser.add_subparsers(dest='command', required=True)
    first = commands.add_parser('begin')
    first.add_argument('room', type=pathlib.Path)
    tonight = commands.add_parser('night')
    for command in first, tonight:
        command.add_argument('list', type=pathlib.Path)
        command.add_argument('folder', type=pathlib.Path)
    tonight.add_argument('--keep', type=int, default=KEPT)
    words = parser.parse_args()
    os.umask(0o077)
    try:
        if words.command == 'begin':
            print(begin(words.room, words.list, words.folder))
        else:
            print(night(words.list, words.folder, words.keep))
    except (Untrusted, OSError) as error:
        print(f'no copy that can be trusted: {error}', file=sys.stderr)
        return 1
    return 0


if __name__ == '__main__':
    sys.exit(main())
