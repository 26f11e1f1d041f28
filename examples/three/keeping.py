"""What a machine asks of the list: it has requests kept, all that wait by one put, learns what
other machines had kept, and orders questions by what the list has."""
import asyncio
import contextlib
import json
import time
from collections.abc import Awaitable

import kept_list
from channel import Channel
from clocks import passed
from entries import MOST_RECORDS, Entry, Record, entry_behind
from etcd import Member, Reach, Unreached
from machine import BEATS_EVERY, Ask, Machine
from said import say

ETCD_WITHIN = 1.0  # seconds that the member may be silent for, after which it is asked again
PUT_WITHIN = 0.3  # the same of a put, which goes astray where the leader has just ended
SLOW = 4  # times as long as a put takes, where etcd is busy
TRY_EVERY = 0.1  # seconds until a list that does not grow is read again, or what failed is tried
MOST_ALONG = 0.03  # seconds that a question waits for a put to take it along


async def pause(until: asyncio.Event, seconds: float) -> None:
    """Waits for an event, or for so long."""
    with contextlib.suppress(TimeoutError):
        async with asyncio.timeout(seconds):
            await until.wait()


async def tried(asking: Awaitable) -> kept_list.Found | bool | None:
    """What etcd is asked for, or nothing where it is not reached."""
    try:
        return await asking
    except Unreached as error:
        say(error)
        return None


class Keeping:
    """What one machine asks of the list, by a connection for each of what it does."""

    def __init__(self, machine: Machine, reach: Reach):
        self.machine = machine
        self.reading, self.questioning = (Channel(reach, ETCD_WITHIN) for _ in range(2))
        self.writing = [Channel(reach, PUT_WITHIN) for _ in range(2)]
        self.hearing = Channel(reach, float('inf'))
        self.flying: list[Entry] = []  # the entries that are on their way
        self.put = float('-inf')  # when the last one was put
        self.is_sound = True  # no entry was refused that others on their way are to stand behind
        # Where it has to be looked at closely, by one connection.
        self.kept, self.looking = kept_list.KeptList(Member(reach, ETCD_WITHIN)), asyncio.Lock()
        self.to_follow = asyncio.Event()

    # ---- writing

    def may_put(self) -> bool:
        """Whether an entry may be put: one at a time, but where no other machine puts, one behind
        another that is on its way, as that is likely to be kept."""
        return not self.flying or (self.is_sound and len(self.flying) < len(self.writing)
                                   and not self.machine.turns.others())

    def until_put(self) -> float:
        """Seconds until it is time to put: in this machine's turn, and not close behind another
        entry that is on its way, since more have come by then."""
        turns = self.machine.turns
        apart = turns.takes / len(self.writing) if self.flying else 0
        return max(turns.wait(), self.put + apart - time.monotonic())

    async def keep_asks(self, by: Channel) -> None:
        """Has asks kept, all that wait by one put. Those that were on their way without an answer
        go to the same place again until it is known what stands there, so none is kept twice."""
        machine = self.machine
        while True:
            machine.to_keep.clear()
            machine.learned.clear()
            now = passed()
            asks = [it for it in machine.unkept.values()
                    if now < it.until and not it.is_flying][:MOST_RECORDS]
            if not asks or not machine.is_near() or not self.may_put():
                await machine.to_keep.wait()
            elif machine.why_not():
                await asyncio.sleep(BEATS_EVERY)  # those that are past their deadline go
            elif (wait := self.until_put()) > 0:
                await pause(machine.learned, wait)
            else:
                await self.try_to_keep(by, asks)

    async def try_to_keep(self, by: Channel, asks: list[Ask]) -> None:
        """Tries to have asks kept, at the end of the list as it is known; and answers the questions
        that came before, by what stands there then."""
        machine = self.machine
        questions, machine.questions = machine.questions, []
        is_all = await tried(self.keep(by, asks))
        if is_all:
            self.ask_room(questions)
        elif questions:
            machine.questions = questions + machine.questions
            machine.to_ask.set()
        if is_all is None:
            await asyncio.sleep(TRY_EVERY)
        machine.to_keep.set()

    async def keep(self, by: Channel, asks: list[Ask]) -> bool:
        """Puts asks behind the last entry that is known or on its way; whether all that stands
        there now is known."""
        machine = self.machine
        if machine.clocks.fault():
            return False  # it was set since it was looked at
        place = self.flying[-1].place if self.flying else machine.tail.place
        entry = entry_behind(place, machine.clocks.middle(),
                             [Record(it.name, it.request.message) for it in asks])
        for it in asks:
            it.is_sent = it.is_flying = True
        self.flying.append(entry)
        began, found = time.monotonic(), None
        self.put = began
        by.within = min(max(PUT_WITHIN, SLOW * machine.turns.takes), ETCD_WITHIN)
        try:
            found = kept_list.kept(entry, await by.ask(kept_list.TXN, kept_list.keeping(
                place, entry, machine.seen)))
        finally:
            self.land(entry, asks, found is not None)
            machine.turns.note_time(time.monotonic() - began)
        if not found:
            return (await self.read(by, True)).is_all
        machine.learn(found)
        return machine.tail.place.number >= entry.number

    def land(self, entry: Entry, asks: list[Ask], is_kept: bool) -> None:
        """Notes what became of an entry that was on its way. Where one was not kept, or it is not
        known, those behind it are not either, and none is put behind them."""
        before = self.flying[:self.flying.index(entry)]
        self.flying.remove(entry)
        self.is_sound = not self.flying or self.is_sound and is_kept
        for it in asks:
            it.is_flying = False
        if is_kept:
            self.machine.add(before)  # it stands behind them

    # ---- reading

    async def read(self, by: Channel, is_latest: bool) -> kept_list.Found:
        """Learns what the list has, by the member's word or by that of most members. What is in
        doubt is looked into beside."""
        known = self.machine.tail.place
        answer = await by.ask(kept_list.TXN, kept_list.reading(known, is_latest))
        found = kept_list.seen(known, answer, is_latest)
        if found.doubt:
            async with self.looking:
                try:
                    found = await asyncio.to_thread(self.kept.settled, found)
                except kept_list.Lost as error:
                    self.machine.lose(error)
                    raise Unreached(str(error)) from None
        self.machine.learn(found)
        return found

    async def read_all(self) -> None:
        """Learns all that the list has, by the word of most members."""
        while True:
            found = await tried(self.read(self.questioning, True))
            if found and found.is_all:
                return
            if not (found and found.entries):
                await asyncio.sleep(TRY_EVERY)

    async def catch_up(self) -> None:
        """Has terminals served once what the list has now is played."""
        await self.read_all()
        machine, last = self.machine, self.machine.tail.place.number
        while not (machine.player.is_open and machine.player.played >= last):
            await asyncio.sleep(BEATS_EVERY / 2)
        machine.is_serving = True
        print('serving', flush=True)

    async def follow(self) -> None:
        """Learns of what other machines have had kept, by asking, since a member that reports by
        itself, and hangs, looks like a list that does not grow."""
        while True:
            self.to_follow.clear()
            found = await tried(self.read(self.reading, False))
            if found and not (found.is_all or found.entries):
                await tried(self.read(self.reading, True))  # it is behind, or the list went back
            if not found or found.is_all or not found.entries:
                await pause(self.to_follow, TRY_EVERY)

    async def hear(self) -> None:
        """Hears of entries as the member has them, which is sooner. What is not heard is found by
        asking."""
        asked = {'create_request': kept_list.span(kept_list.LIST, kept_list.AFTER_LIST)}
        while True:
            with contextlib.suppress(Unreached):  # who asks finds out why, and says it
                await self.hearing.hear('/v3/watch', asked, self.take_line)
            await asyncio.sleep(TRY_EVERY)

    def take_line(self, line: bytes) -> None:
        """Takes what the member reports of the list's keys."""
        result = json.loads(line).get('result', {})
        if result.get('canceled'):
            raise ValueError('it reports no more')
        known = self.machine.tail.place
        rows = kept_list.pairs({'kvs': [it['kv'] for it in result.get('events', ())]})
        entries, foreign = kept_list.linked(known, [
            it for it in rows if it[0] > kept_list.key_of(known.number) and it[1]])
        self.machine.add(entries)
        if foreign:
            self.to_follow.set()

    # ---- questions

    async def answer_questions(self) -> None:
        """Has questions answered, which change nothing and take no place in the list: they are
        asked of the room once it has played what the list had after they came, by the word of most
        members. A put says that too, so where one waits it takes them along."""
        machine, turns = self.machine, self.machine.turns
        while True:
            await machine.to_ask.wait()
            machine.to_ask.clear()
            if machine.unkept:  # in a turn of each
                await asyncio.sleep(min(turns.takes * (1 + turns.others()), MOST_ALONG))
            questions, machine.questions = machine.questions, []
            if questions:
                await self.read_all()
                self.ask_room(questions)

    def ask_room(self, asks: list[Ask]) -> None:
        """Asks the room once it has played all that is known."""
        self.machine.player.ask(self.machine.tail.place.number, [
            Record(it.name, it.request.message, 'question') for it in asks])
