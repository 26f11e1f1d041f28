"""Plays the list on one machine's room, and asks it the questions of terminals where they belong;
makes a copy of it at each of so many records, not at the same ones on every machine."""
import asyncio
import collections
import hashlib
import pathlib
import shutil
import typing
from collections.abc import Callable

import copies
from changing import OTHERWISE, Change
from clocks import LAST_MOMENT, moment
from entries import Entry, Place, Record
from members import NUMBERS
from played_room import Changed, Ended, PlayedRoom, digest_of, is_whole
from said import say

MOST_HANDED = 300  # messages that the room may have and not have answered
MOST_KNOWN = 20_000  # records of which the digest of all answers is known
TRY_EVERY = 0.2  # seconds until what failed is tried again
COPIES_AGAIN = 10.0  # seconds until a copy that failed is tried again
NEVER = 1 << 62  # records until a copy
FITS = 3  # times a copy's size that is to be free where it is played: it grows, and has a log
COMMON = 3  # every so many copies, there is one behind the same record on all machines
NOBODYS = Record('', b'GET /queue HTTP/1.1\r\nHost: room\r\nX-Terminal: 00000000\r\n'
                 b'Content-Length: 0\r\n\r\n', 'question')


class Playing(typing.NamedTuple):
    """How the room is played."""
    program: str
    folder: pathlib.Path
    work: pathlib.Path
    copy_every: int
    machine: int  # its number, or 0 for what is played beside

    def is_time_to_copy(self, entry: Entry) -> bool:
        """Machines make copies behind different entries, so that not all are busy with it, or have
        no space for it, at once; and some behind the same, by which their rooms are compared."""
        def passes(every: int, shift: int) -> bool:
            return (entry.number + shift) // every > (entry.first - 1 + shift) // every
        shift = self.copy_every * self.machine // len(NUMBERS)
        return passes(self.copy_every, shift) or passes(COMMON * self.copy_every, 0)

    def where(self, copy: copies.Copy) -> pathlib.Path:
        """The folder in which a copy is played: that of copies where the other is too small, as a
        folder in memory may be."""
        if shutil.disk_usage(self.work).free >= FITS * copy.file.stat().st_size:
            return self.work
        say(f'{self.work} is too small: the room is played in {self.folder}', 'work')
        return self.folder


class Tail:
    """The list from the newest copy on, as far as this machine knows it."""

    def __init__(self, copy: copies.Copy, place: Place):
        self.copy, self.place = copy, place
        self.entries: dict[int, Entry] = {}  # by the numbers of their first records

    def add(self, entry: Entry) -> None:
        self.entries[entry.first] = entry
        self.place = entry.place

    def begin_at(self, copy: copies.Copy, sent: int) -> None:
        """Drops the entries that a new copy holds, and the room has been handed: it may have ended
        since, and have begun again from an older copy."""
        self.copy, held = copy, min(copy.number, sent)
        self.entries = {first: it for first, it in self.entries.items() if it.number > held}


class Player:
    """The room of this machine as it is played, from the newest copy on whenever it has ended."""

    def __init__(self, how: Playing, tail: Tail):
        self.how, self.tail = how, tail
        self.played = self.sent = tail.copy.number  # answered, and handed to the room
        self.answers: dict[int, bytes] = {}  # the digests of all until a record, of the last ones
        self.questions: collections.deque = collections.deque()
        self.changed = asyncio.Event()
        self.is_stopping = self.wants_copy = self.is_open = self.is_odd = False
        self.copying: list[asyncio.Task] = []  # the last one
        self.uncopied = ''  # why the last copy failed
        self.room: PlayedRoom | None = None
        self.change: Change | None = None  # that was begun, and is not made yet
        self.held: set[str] = set()  # tokens that a change takes away: what they ask is not kept
        # What the time is; and what the machine takes: the answer of a record or a question, that
        # the room ended with all questions that it had, what became of a change, and a file that no
        # program has open.
        self.clock: Callable[[], int] = moment
        self.give: Callable[[str, int, bytes], None] = lambda *_: None
        self.lose: Callable[[], None] = lambda: None
        self.note: Callable[[int, bytes], None] = lambda *_: None
        self.look_at: Callable[[pathlib.Path], None] = lambda _: None

    def ask(self, after: int, questions: list[Record]) -> None:
        """Asks the room once it has played so many records. The answers have the number of the
        last one; there is none where the room ends before."""
        if questions:
            self.questions.append((after, questions))
            self.changed.set()

    async def play(self) -> None:
        while not self.is_stopping:
            try:
                await self.play_from_copy()
            except (Ended, OSError) as error:
                say(error)
                await asyncio.sleep(TRY_EVERY)

    def beside(self, copy: copies.Copy, place: Place) -> 'Player':
        """Who plays a copy that is to take the place of this room."""
        return Player(self.how._replace(copy_every=NEVER, machine=0), Tail(copy, place))

    async def play_from_copy(self) -> None:
        copy = self.tail.copy
        self.played = self.sent = copy.number
        self.answers = {copy.number: bytes.fromhex(copy.answers)}
        self.room = PlayedRoom(self.how.program, copy, self.how.where(copy), self.take_all)
        try:
            await asyncio.to_thread(self.look_at, copy.file)
            await self.room.start()
            self.room.send(self.moment(), [NOBODYS], True)  # is answered once the room is open
            while not self.is_stopping:
                await self.feed()
            await self.end()
        except Ended:
            if not self.is_open and not await asyncio.to_thread(is_whole, copy):
                raise Changed(f'not the room of the list any more: {copies.set_aside(copy)}'
                              ) from None
            raise
        finally:
            self.is_open = False
            self.questions.clear()
            self.lose()
            await self.drop_change()
            await self.room.drop()

    async def feed(self) -> None:
        """Hands the room what is next, or waits for it."""
        room = self.room
        room.look()
        entry = self.tail.entries.get(self.sent + 1)
        if self.questions and self.questions[0][0] <= self.sent:
            room.send(self.moment(), self.questions.popleft()[1], True)
        elif self.wants_copy and self.may_copy():
            await self.copy()
        elif entry and len(room.waiting) < MOST_HANDED:
            await self.hand(entry)
            if self.how.is_time_to_copy(entry):
                await self.quiet()
                self.wants_copy = True  # now, or once no change is being made
        else:
            self.changed.clear()
            await self.changed.wait()

    def moment(self) -> int:
        """That of a question: it is not before any record's."""
        return min(max(self.tail.place.moment, self.clock()), LAST_MOMENT)

    async def hand(self, entry: Entry) -> None:
        """Hands the room an entry's records."""
        self.sent = entry.number
        if entry.has_messages:
            self.room.send(entry.moment, entry.records, entry.machine == self.how.machine)
            if self.change:
                self.change.follow(entry)
            return
        await self.quiet()
        [record] = entry.records
        if record.kind == 'change':
            await self.drop_change(b'refused: another change came\n')
            self.change = Change(self, entry)
            self.take_all([(record, b'begun')])
            await asyncio.wait([self.change.taking])
        else:
            self.take_all([(record, await self.take_over(int(record.content)))])

    # ---- changes

    async def take_over(self, number: int) -> bytes:
        """Has the copy in which a change was made take the place of the room, where both have
        answered alike since; gives what became of the change."""
        change = self.change
        if not change or number not in (0, change.number):
            return b'refused: no such change was begun'
        outcome = b'refused: not every machine could make it\n'
        if number:
            await change.reach()
            outcome = change.outcome
            if change.player and change.player.answers[self.played] != self.answers[self.played]:
                outcome = OTHERWISE
            elif change.player:
                await asyncio.to_thread(self.look_at, change.file)
                self.room, change.player.room = change.player.room, self.room
                self.room.take_all = self.take_all
                self.wants_copy = True
        if outcome != OTHERWISE:  # else it comes again
            self.held = set()
        await self.drop_change(outcome)
        return outcome

    async def drop_change(self, outcome: bytes = b'') -> None:
        """Ends what makes a change, and reports what became of it, where that is known."""
        change, self.change = self.change, None
        if change:
            await change.drop()
            if outcome:
                await asyncio.to_thread(self.note, change.number, outcome)

    def take_all(self, answered: list[tuple[Record, bytes]]) -> None:
        """Takes answers of the room, in its order."""
        for asked, answer in answered:
            if asked.kind == 'question':
                self.is_open = True
            else:
                before = self.answers[self.played]
                self.answers[self.played + 1] = hashlib.sha256(before + answer).digest()
                self.answers.pop(self.played - MOST_KNOWN, None)
                self.played += 1
            self.give(asked.name, self.played, answer)
        if self.played == self.sent:
            self.changed.set()

    async def quiet(self) -> None:
        """Waits until the room has answered all that it was handed."""
        while self.room.waiting:
            self.room.look()
            await asyncio.sleep(0.001)

    # ---- copies

    def may_copy(self) -> bool:
        """Whether a copy may be made now. While a change is being made none is, as a start behind
        its record could not make it; and of a room that is the odd one none: it would take the
        place of one that is right."""
        return self.played > self.tail.copy.number and not (self.change or self.is_odd)

    async def copy(self) -> None:
        """Copies the files of the room while it has nothing to do. What is made of them, with a
        test of every row, takes its time beside the room."""
        self.wants_copy = False
        await asyncio.gather(*self.copying)
        await self.quiet()
        if not self.may_copy():  # the last one has all
            return
        place = next(it.place for it in self.tail.entries.values() if it.number == self.played)
        part = self.how.folder / f'part.{place.number}'
        taking = asyncio.create_task(asyncio.to_thread(copies.take, self.room.file, part))
        self.copying = [asyncio.create_task(self.keep_copy(taking, part, place))]
        await asyncio.wait([taking])

    async def keep_copy(self, taking: asyncio.Task, part: pathlib.Path, place: Place) -> None:
        """Makes a copy of what is taken. One that fails stops nothing: what it has left is deleted,
        and another one made later."""
        answers = self.answers[place.number].hex()
        try:
            await taking
            room = await asyncio.to_thread(digest_of, self.how.program, part / 'room.db')
            copy = copies.copy_at(self.how.folder, place, answers, room)
            await asyncio.to_thread(copies.keep, part / 'room.db', copy)
            self.uncopied = ''
            self.tail.begin_at(copy, self.sent)
        except OSError as error:
            self.uncopied = f'no copy of record {place.number}: {error}'
            say(self.uncopied, 'copy')
            asyncio.get_running_loop().call_later(COPIES_AGAIN, setattr, self, 'wants_copy', True)
        finally:
            shutil.rmtree(part, ignore_errors=True)

    async def end(self) -> None:
        """Ends the program well, and keeps a copy of what it leaves."""
        await self.quiet()
        await self.room.end()
        await self.copy()
        await asyncio.gather(*self.copying)
