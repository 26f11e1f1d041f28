"""One of the machines that are one room: what terminals ask of it, the list as far as it knows it,
and the room that plays it."""
import argparse
import asyncio
import dataclasses
import secrets
from collections.abc import Awaitable, Callable

from clocks import OtherClocks, passed
from copies import Copy
from entries import Entry, Place
from kept_list import Found, Lost
from members import NUMBERS
from messages import Request, no_answer, numbered
from playing import Player, Playing, Tail
from said import say
from terminals import Connections, Reply
from turns import Turns

AGREES_WITHIN = 5.0  # seconds without a put of this machine, of which there is one each second
GONE_AFTER = 1.5  # seconds of silence of the member or the room, until none is asked to wait
MOST_BEHIND = 2000  # records that the room may be behind by while more are kept
MOST_WAITING = 1000  # requests
MOST_FOREIGN = 50  # foreign values that are named
BEATS_EVERY = 0.1  # seconds between two looks at the clock
HELD = 1.0  # seconds: a look that comes so late shows that this process was held


@dataclasses.dataclass(eq=False, slots=True)
class Ask:
    """A terminal's request that waits for its answer."""
    name: str
    request: Request
    began: float
    until: float  # its deadline, by a clock that goes on while the machine sleeps
    reply: Reply
    is_sent: bool = False  # it was on its way to the list once, so it may be kept
    is_flying: bool = False  # it is on its way now


class Machine:
    """One machine, by the words of its command line: its asks, the list as far as it is known, and
    the room that plays it."""

    def __init__(self, settings: argparse.Namespace, how: Playing, copy: Copy, place: Place,
                 connections: Connections):
        self.settings, self.connections = settings, connections
        self.tail = Tail(copy, place)
        self.player = Player(how, self.tail)
        self.player.give, self.player.lose = self.give, self.lose_questions
        self.clocks = OtherClocks(settings.trust_clock)
        self.player.clock = self.clocks.middle
        self.turns = Turns(settings.machine, len(NUMBERS))
        self.run, self.asked = f'{settings.machine}-{secrets.token_hex(8)}', 0
        self.unkept: dict[str, Ask] = {}
        self.unanswered: dict[str, Ask] = {}
        self.questions: list[Ask] = []
        self.to_keep, self.to_ask, self.learned = (asyncio.Event() for _ in range(3))
        self.stopping = asyncio.Event()
        self.reached = self.agreed = self.moved = self.beaten = passed()
        self.held = float('-inf')
        self.revision = self.seen = 0  # of etcd: the last one, and by which all entries are known
        self.stopped = self.full = self.fault = ''
        self.lost: Lost | None = None
        self.foreign: set[str] = set()
        self.is_serving = False
        self.own: Callable[[str], bytes] = lambda _: b''
        self.note: Callable[[Ask, bytes], None] = lambda *_: None

    def stop(self) -> None:
        self.stopping.set()
        self.player.is_stopping = True
        self.player.changed.set()

    def lose(self, why: Lost) -> None:
        """Stops where the list went back. The room leaves a copy with all that was answered."""
        self.lost = why
        self.stop()

    # ---- what terminals ask

    def why_not(self) -> str:
        """Why this machine had better not be asked, or nothing: its member of etcd is silent, its
        room far behind or silent, or it was held a moment ago, so that what comes may be given up
        by now."""
        now = passed()
        if now - self.beaten > HELD:
            self.held = now  # before the next beat, as what came meanwhile is read first
        if self.stopping.is_set() or not self.is_serving:
            return self.fault or 'it is not serving'
        if now - self.reached > GONE_AFTER:
            return 'etcd is silent'
        if not self.player.is_open:
            return 'the room is opening'
        if self.behind() and now - self.moved > GONE_AFTER or not self.is_near():
            return 'the room is behind'
        if now - self.held < HELD:
            return 'it was held'
        if len(self.unanswered) >= MOST_WAITING:
            return 'too many wait'
        return (self.fault or self.stopped or self.full or self.clocks.fault()
                or ('most members of etcd are silent' if now - self.agreed > AGREES_WITHIN else ''))

    def behind(self) -> int:
        return self.tail.place.number - self.player.played

    def is_near(self) -> bool:
        """Whether the room has played nearly all that is known."""
        return self.behind() < MOST_BEHIND

    def take(self, request: Request, reply: Reply) -> None:
        """Takes a terminal's request, which is answered once the room has, or within the deadline
        that there is no answer."""
        if not request.message:
            reply(self.own(request.path))
            return
        now = passed()
        self.asked += 1
        ask = Ask(f'{self.run}-{self.asked}', request, now, now + self.settings.deadline, reply)
        if self.why_not() or request.token in self.player.held:
            self.answer(ask, no_answer('no'))
            return
        self.unanswered[ask.name] = ask
        if request.is_question:
            self.questions.append(ask)
            self.to_ask.set()
        else:
            self.unkept[ask.name] = ask
            self.to_keep.set()

    def answer(self, ask: Ask, answer: bytes) -> None:
        """Answers a request, once."""
        self.unanswered.pop(ask.name, None)
        self.unkept.pop(ask.name, None)
        self.note(ask, answer)
        ask.reply(answer)

    def give_up(self, ask: Ask) -> None:
        """Tells a terminal that there is no answer yet."""
        is_open = self.lost or ask.name in self.unkept
        self.answer(ask, no_answer('no' if not ask.is_sent else 'perhaps' if is_open else 'yes'))

    def give(self, name: str, number: int, answer: bytes) -> None:
        """Gives the room's answer to the terminal that waits for it, by the name of its request."""
        self.moved = passed()
        ask = self.unanswered.get(name)
        if ask:
            self.answer(ask, numbered(answer, number))

    def lose_questions(self) -> None:
        """Gives up the questions of a room that ended. Its changes are answered once they are
        played again."""
        for ask in [it for it in self.unanswered.values() if it.request.is_question]:
            self.give_up(ask)

    async def beat(self) -> None:
        """Looks at the clock, to know that this machine was held, and who waits for too long; and
        has what waits looked at again."""
        while True:
            await asyncio.sleep(BEATS_EVERY)
            now = passed()
            if now - self.beaten > BEATS_EVERY + HELD:
                self.held = now
                say('held for a while')
            self.beaten = now
            for ask in [it for it in self.unanswered.values() if now > it.until]:
                self.give_up(ask)
            self.player.changed.set()
            self.to_keep.set()

    # ---- the list

    def learn(self, found: Found) -> None:
        self.reached = passed()
        if not self.behind():
            self.moved = self.reached
        self.revision = max(self.revision, found.revision)
        if found.is_all:
            self.seen = max(self.seen, found.revision)
        if found.is_all or found.entries or found.fault:
            self.fault = found.fault
        if found.fault:
            say(found.fault)
        for key in list(set(found.foreign) - self.foreign)[:MOST_FOREIGN - len(self.foreign)]:
            say(f'{key!r} is no record, and is left out')
            self.foreign.add(key)
        self.add(found.entries)

    def add(self, entries: list[Entry]) -> None:
        """Adds entries that stand behind what is known, as far as they do."""
        for entry in entries:
            if entry.follows(self.tail.place):
                self.tail.add(entry)
                self.turns.note(entry.machine)
                for record in entry.records if self.unkept else ():
                    self.unkept.pop(record.name, None)
                self.learned.set()
                self.player.changed.set()

    # ---- serving

    async def serve(self, *doings: Callable[[], Awaitable]) -> None:
        """Answers who asks how it is, and terminals once it serves, until it is stopped."""
        self.connections.answering = self.take
        async with asyncio.TaskGroup() as group:
            group.create_task(self.player.play())
            tasks = [group.create_task(it()) for it in (self.beat, *doings)]
            await self.stopping.wait()
            for it in tasks:
                it.cancel()
            for ask in list(self.unanswered.values()):
                self.give_up(ask)
            await self.connections.end()
        if self.lost:
            raise self.lost
