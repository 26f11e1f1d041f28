"""A change of the room that is no message: vehicles that are enrolled, another plan, other
terminals, or a room without what is long over. The program makes it in a copy, by its own command;
the copy plays on beside the room, and takes its place at one record of the list."""
import asyncio
import contextlib
import dataclasses
import pathlib
import re
import shutil
import subprocess
import tempfile

import copies
from clocks import passed
from entries import Entry, Place, Record
from played_room import digest_of, terminals_of
from said import say

NEAR = 50  # records by which a copy may be behind the room whose place it takes
TOKEN = re.compile(rb'X-Terminal: ([A-Za-z0-9]+)')
OTHERWISE = b'refused: somebody was answered otherwise meanwhile\n'


def make(program: str, file: pathlib.Path, text: bytes) -> tuple[str, bytes]:
    """Makes a change in a file that no program has open; gives the file's digest, or none where it
    was refused and the file is as before, and what the program said."""
    before, (line, _, rows) = digest_of(program, file), text.partition(b'\n')
    name, *words = line.decode().split(' ')
    given, new = file.with_name('rows.csv'), file.with_name('new.db')
    given.write_bytes(rows)
    more = [given] if rows else []
    into = [new] if name == 'renew' else []
    done = subprocess.run([program, name, file, *into, *words, *more], capture_output=True)
    said = done.stdout + done.stderr
    if done.returncode not in (0, 1, 2):  # else it is the machine's fault
        raise OSError(f'{file}: {said.decode(errors="replace").strip()}')
    if into and not done.returncode:
        after = digest_of(program, new)
        copies.log_of(file).unlink(missing_ok=True)
        new.replace(file)
    else:
        after = digest_of(program, file)
    if after != before:
        return after, said
    return '', said if said.startswith(b'refused') else b'refused: nothing is changed\n' + said


def renamed(before: dict, after: dict) -> dict[bytes, bytes]:
    """The tokens of terminals that have another one afterwards, and that."""
    of = {who: token for token, who in after.items()}
    return {token.encode(): of[who].encode() for token, who in before.items()
            if after.get(token) != who and who in of}


class Change:
    """A change of a room (what its player plays) that was begun at a record, and the copy in which
    it is made."""

    def __init__(self, room, entry: Entry):
        self.room, self.entry, self.number, self.began = room, entry, entry.number, passed()
        self.file: pathlib.Path | None = None
        self.since: list[Entry] = []  # all that follow it
        self.names: dict[bytes, bytes] = {}
        self.outcome = b''
        self.player = None  # of the copy, once the change is made
        self.taking = asyncio.create_task(asyncio.to_thread(self.take))
        self.task = asyncio.create_task(self.play())

    def take(self) -> None:
        """Takes the files of the room, which has nothing to do meanwhile."""
        self.file = pathlib.Path(tempfile.mkdtemp('', 'part.', self.room.how.folder), 'room.db')
        copies.take(self.room.room.file, self.file.parent)

    def made(self) -> str:
        program = self.room.how.program
        digest_of(program, self.file)  # which puts its log into it
        before = terminals_of(self.file)
        digest, outcome = make(program, self.file, self.entry.records[0].content)
        after = terminals_of(self.file)
        self.names = renamed(before, after)
        self.room.held = {it for it in before if it not in after and it.encode() not in self.names}
        self.outcome = outcome  # only where all of it succeeded
        return digest

    async def play(self) -> None:
        """Makes the change, and plays what came since, until the copy takes the room's place."""
        try:
            await self.taking
            answers = self.room.answers[self.number].hex()
            digest = await asyncio.to_thread(self.made)
        except OSError as error:
            say(f'change {self.number} is not made: {error}', 'change')
            return
        if digest:
            copy = copies.Copy(self.file, self.number, '', answers, digest)
            self.player = self.room.beside(copy, Place(self.number, '', self.entry.moment))
            for it in self.since:
                self.add(it)
            await self.player.play()

    def follow(self, entry: Entry) -> None:
        """Plays an entry of the room's too."""
        self.since.append(entry)
        if self.player:
            self.add(entry)

    def add(self, entry: Entry) -> None:
        """A terminal that has another token is known by that in the copy."""
        def named(record: Record) -> Record:
            token = self.names.get(TOKEN.search(record.content)[1])
            return record._replace(content=TOKEN.sub(b'X-Terminal: ' + token, record.content, 1)
                                   ) if token else record
        if self.names:
            entry = dataclasses.replace(entry, records=tuple(map(named, entry.records)))
        self.player.tail.add(entry)
        self.player.changed.set()

    def is_ready(self, near: int = NEAR) -> bool:
        """Whether the copy has played nearly all that the room has, or the change is refused."""
        if self.player:
            return self.player.is_open and self.player.played >= self.room.played - near
        return bool(self.outcome) and self.task.done()

    def ready(self) -> int:
        """Its number where it is, below 0 where this machine can't make it, and else 0."""
        is_failed = self.task.done() and not (self.outcome or self.task.cancelled())
        return -self.number if is_failed else self.number * self.is_ready()

    async def reach(self) -> None:
        """Waits until the copy has played all that the room has."""
        while not self.is_ready(0):
            if self.task.done():
                self.task.result()
                raise OSError(f'change {self.number} is not made')
            await asyncio.sleep(0.001)

    async def drop(self) -> None:
        self.task.cancel()
        with contextlib.suppress(Exception, asyncio.CancelledError):
            await self.task
        if self.file:
            shutil.rmtree(self.file.parent, ignore_errors=True)
