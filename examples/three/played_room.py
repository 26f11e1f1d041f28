"""The room of one machine: the program over a copy of its file, which is handed messages by a pipe,
and gives their answers in the same order."""
import asyncio
import collections
import contextlib
import os
import pathlib
import shutil
import sqlite3
import subprocess
import sys
import tempfile
import time
from collections.abc import Callable, Sequence

from answers import LATER, SOON, Answers
from copies import Copy

DIGEST = pathlib.Path(__file__).resolve().parent / 'digest.py'
OPENS_WITHIN = 120.0  # seconds in which a program that opens the file has to do something
ANSWERS_WITHIN = 10.0  # seconds until any other is
ENDS_WITHIN = 30.0  # seconds that the program may take to put its log into its file
DROPS_WITHIN = 0.5  # seconds that one of no more use may take to end by itself


class Ended(Exception):
    """The program gave no answer. What it was handed was played or not: the file is of no more
    use."""


class Changed(Exception):
    """A copy's file has changed since it was made."""


def digest_of(program: str, file: pathlib.Path) -> str:
    """Has the program open a file, test all of it, and put its log into it; gives its digest."""
    done = subprocess.run([program, 'digest', file], capture_output=True, text=True)
    if done.returncode:
        raise OSError(f'{file}: {done.stderr.strip()[-200:]}')
    return done.stdout.split()[1]


def is_whole(copy: Copy) -> bool:
    """Whether a copy's file is what it was, looked at beside the program, which did not open it."""
    done = subprocess.run([sys.executable, DIGEST, copy.file], capture_output=True, text=True)
    return done.stdout.strip() == copy.room


def terminals_of(file: pathlib.Path) -> dict[str, tuple[int, int, str]]:
    """Whose each token is, by role, number and callsign, of a file that no program has open."""
    try:
        with contextlib.closing(sqlite3.connect(file)) as room:
            rows = room.execute('SELECT token, role, number, callsign FROM terminals').fetchall()
    except sqlite3.Error as error:
        raise OSError(f'{file}: {error}') from None
    return {token: tuple(who) for token, *who in rows}


def worked(process: int) -> int:
    """Ticks of the processor that a process has had."""
    try:
        rest = pathlib.Path(f'/proc/{process}/stat').read_text().rpartition(')')[2].split()
    except OSError:
        return 0
    return int(rest[11]) + int(rest[12])


class PlayedRoom:
    """A run of the program, in a folder of its own: one that was killed may not have ended yet, and
    must not meet the files of the next. What it leaves is only used after it has ended well, or
    while it has nothing to do, so its folder may be in memory."""

    def __init__(self, program: str, copy: Copy, work: pathlib.Path, take_all: Callable):
        self.program, self.copy, self.take_all = program, copy, take_all
        self.folder = pathlib.Path(tempfile.mkdtemp(prefix='run.', dir=work))
        self.file = self.folder / 'room.db'
        self.process: asyncio.subprocess.Process | None = None
        self.answers: Answers | None = None
        self.waiting: collections.deque = collections.deque()  # what is not answered yet
        self.awaited = 0  # of these the last that somebody waits for, counted from 1
        self.heard, self.within, self.worked = 0.0, OPENS_WITHIN, 0

    async def start(self) -> None:
        """Starts the program over the copy."""
        await asyncio.to_thread(shutil.copyfile, self.copy.file, self.file)
        source, sink = os.pipe()
        try:
            _, self.answers = await asyncio.get_running_loop().connect_read_pipe(
                lambda: Answers(self.take), os.fdopen(source, 'rb'))
            self.process = await asyncio.create_subprocess_exec(
                self.program, 'replay', self.file, '--answers', '--history',
                stdin=asyncio.subprocess.PIPE, stdout=sink, start_new_session=True)
        finally:
            os.close(sink)
        self.process.stdin.write(f'room 2 {self.copy.room}\n'.encode())

    def send(self, moment: int, asked: Sequence, is_awaited: bool) -> None:
        """Hands the room what has a message, and whether somebody waits for the answers. They are
        taken in turn, or never where the room ends before."""
        if not self.waiting:
            self.heard = time.monotonic()
        self.waiting.extend(asked)
        if is_awaited:
            self.awaited = len(self.waiting)
        self.process.stdin.write(b''.join(
            b'message %d %d\n%b\n' % (moment, len(it.content), it.content) for it in asked))
        if is_awaited:
            self.answers.read_at_once()
        elif not self.awaited:
            self.answers.read_in(LATER)

    def take(self, answers: list[bytes]) -> None:
        """Takes the next answers."""
        if len(answers) > len(self.waiting):
            raise ValueError
        self.heard, self.within = time.monotonic(), ANSWERS_WITHIN
        self.awaited = max(self.awaited - len(answers), 0)
        self.take_all([(self.waiting.popleft(), it) for it in answers])
        if answers and self.waiting:
            self.answers.read_in(SOON if self.awaited else LATER)

    def look(self) -> None:
        """Says whether the program is there. (What it is given by a clock that stands still while
        the machine sleeps, as it does itself.)"""
        if self.answers.ended.is_set():
            raise Ended('the room ended')
        if self.within == OPENS_WITHIN and (has_worked := worked(self.process.pid)) > self.worked:
            self.worked, self.heard = has_worked, time.monotonic()
        if self.waiting and time.monotonic() - self.heard > self.within:
            raise Ended('the room is silent')

    async def ended(self, within: float) -> int | None:
        """The status of the program once it has no more to do, or nothing where it doesn't end."""
        self.process.stdin.close()
        with contextlib.suppress(TimeoutError):
            async with asyncio.timeout(within):
                return await self.process.wait()
        return None

    async def end(self) -> None:
        """Ends the program, which then has all that it was handed in its file only."""
        status = await self.ended(ENDS_WITHIN)
        if status is None:
            raise Ended('the room does not end')
        await self.answers.ended.wait()
        if status or self.waiting:
            raise Ended(f'the room ended with status {status}')

    async def drop(self) -> None:
        """Ends the program if it runs, however it is, and drops its files."""
        if self.process and await self.ended(DROPS_WITHIN) is None:
            self.process.kill()
            await self.process.wait()
        if self.answers:
            self.answers.transport.close()
        shutil.rmtree(self.folder, ignore_errors=True)
