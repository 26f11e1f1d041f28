"""Three machines of examples/three in one process and in time that is made: their companions are
the real ones, but for etcd, rooms and threads, in whose place stand small ones here. So an hour
passes within minutes, and the same seed gives much the same run."""
import asyncio
import base64
import contextlib
import contextvars
import hashlib
import json
import re
import selectors
import time
import types
import unittest.mock

import machines  # noqa: F401 (which makes the companion's modules known)

import changing
import clocks
import comparison
import companion
import copies
import etcd
import health
import keeping
import kept_list
import members
import played_room
import playing
import said
import turns
import upkeep
from entries import first_entry
from machine import Machine
from messages import Request

NUMBERS = 1, 2, 3
BEGAN = 1_790_000_000  # seconds: the moment at which all clocks begin
OPENS, ANSWERS, ASKS = (0.05, 3.0), (0.0002, 0.004), (0.001, 0.02)  # seconds that it takes
ON = contextvars.ContextVar('the number of the machine that runs', default=0)


class Selector(selectors.SelectSelector):
    """Where nothing is to be done at once, the time of what is next has come."""

    now = 1000.0

    def select(self, timeout=None):
        assert timeout is not None, 'all wait for ever'
        Selector.now += max(timeout, 0)
        return []


class Loop(asyncio.SelectorEventLoop):
    def __init__(self):
        super().__init__(Selector())

    def time(self):
        return Selector.now


# ---- etcd


def decoded(text):
    return base64.b64decode(text).decode('latin-1')


def coded(text):
    return base64.b64encode(text.encode('latin-1')).decode()


def is_local(asked):
    """Whether a member answers it by what it has itself."""
    return all(it.get('request_range', {}).get('serializable') for it in asked['success'])


def writes(asked):
    return any('request_range' not in it for it in asked['success'])


class Etcd:
    """What most members have, and what each has: one that is cut off stays behind."""

    def __init__(self, chance):
        self.chance, self.revision, self.rows = chance, 1, {}
        self.seen = {it: (1, {}) for it in NUMBERS}
        self.away = set()  # members that reach no other one
        self.led = 0.0  # from when on there is a leader
        self.watching = {it: [] for it in NUMBERS}
        self.entries = []  # all that was put in the list, in its order

    def has_majority(self, number):
        return number not in self.away and len(self.away) < 2

    def lose_leader(self, number):
        """Ends the member that leads: the first of the others that has not heard it for a while, by
        a time that each draws, is the next."""
        self.away.add(number)
        least = members.ELECTION / 1000
        self.led = Selector.now + min(self.chance.uniform(least, 2 * least) for _ in range(2))

    def catch_up(self):
        for it in NUMBERS:
            if self.has_majority(it):
                self.seen[it] = self.revision, dict(self.rows)

    def under(self, rows, keys):
        first, behind = decoded(keys['key']), decoded(keys.get('range_end', ''))
        return sorted(it for it in rows if (first <= it < behind if behind else it == first))

    def holds(self, compared):
        found = [self.rows[it] for it in self.under(self.rows, compared)]
        if compared['target'] == 'VALUE':
            return bool(found) and all(it[0] == decoded(compared['value']) for it in found)
        at, name = (1, 'create_revision') if compared['target'] == 'CREATE' else (2, 'mod_revision')
        wanted, given = int(compared[name]), [it[at] for it in found] or [0]
        return all(it < wanted if compared['result'] == 'LESS' else it == wanted for it in given)

    def range(self, rows, asked):
        keys = self.under(rows, asked)
        most = int(asked.get('limit', 0)) or len(keys)
        found = {'kvs': [{'key': coded(it), 'value': coded(rows[it][0]),
                          'mod_revision': str(rows[it][2])} for it in keys[:most]]}
        return found | ({'more': True} if len(keys) > most else {})

    def do(self, operation):
        """One operation of a transaction that writes, at the next revision."""
        (name, asked), = operation.items()
        if name == 'request_range':
            return {'response_range': self.range(self.rows, asked)}
        if name == 'request_put':
            key, value = decoded(asked['key']), decoded(asked['value'])
            created = self.rows[key][1] if key in self.rows else self.revision
            self.rows[key] = value, created, self.revision
            if key.startswith(kept_list.LIST):
                self.entries.append((key, value.encode('latin-1')))
                for number in filter(self.has_majority, NUMBERS):
                    for it in self.watching[number]:
                        it(json.dumps({'result': {'events': [{'kv': asked}]}}).encode())
        else:
            for it in self.under(self.rows, asked):
                del self.rows[it]
        return {}

    def answer(self, number, path, asked):
        """What a member answers at once."""
        if path == '/v3/kv/range':
            asked = {'success': [{'request_range': asked}]}
        elif path != '/v3/kv/txn':
            return {}
        then = asked['success']
        if is_local(asked):
            revision, rows = self.seen[number]
            done = [{'response_range': self.range(rows, it['request_range'])} for it in then]
            return {'header': {'revision': str(revision)}, 'succeeded': True, 'responses': done}
        if not self.has_majority(number):
            raise etcd.Unreached('etcd: timed out')
        holds = all(map(self.holds, asked.get('compare', ())))
        then = then if holds else []
        self.revision += writes({'success': then})
        done = [self.do(it) for it in then]
        self.catch_up()
        answer = {'header': {'revision': str(self.revision)}, 'responses': done}
        if path == '/v3/kv/range':
            return done[0]['response_range']
        return answer | ({'succeeded': True} if holds else {})


class Wire:
    """In the place of channel.Channel and etcd.Member."""

    etcd = None

    def __init__(self, reach, within):
        self.reach, self.within = reach, within

    def sizes(self):
        return etcd.Sizes()

    def alarms(self):
        return []


class Member(Wire):
    def ask(self, path, asked):
        if self.etcd.chance.random() < 0.01:
            raise etcd.Unreached('etcd: it closed the connection')
        return self.etcd.answer(ON.get(), path, asked)


class Channel(Wire):
    async def ask(self, path, asked):
        chance = self.etcd.chance
        await asyncio.sleep(chance.uniform(*ASKS))
        until_led = self.etcd.led - Selector.now
        if until_led > 0 and not is_local(asked):
            # A put that is handed to a leader that ended is lost; a question fails as there is
            # another one.
            await asyncio.sleep(self.within if writes(asked) else min(self.within, until_led))
            raise etcd.Unreached('etcd: leader changed')
        if not self.etcd.has_majority(ON.get()):
            await asyncio.sleep(self.within)
        answer = self.etcd.answer(ON.get(), path, asked)
        await asyncio.sleep(chance.uniform(*ASKS))
        if chance.random() < 0.01:  # it is done, and not reported
            raise etcd.Unreached('etcd: it closed the connection')
        return answer

    async def hear(self, path, asked, take_line):
        lines = self.etcd.watching[ON.get()]
        context = contextvars.copy_context()

        def take(line):
            delay = self.etcd.chance.uniform(*ASKS)
            asyncio.get_running_loop().call_later(delay, take_line, line, context=context)
        lines.append(take)
        try:
            await asyncio.sleep(self.etcd.chance.uniform(1, 20))
        finally:
            lines.remove(take)
        raise etcd.Unreached('etcd: it closed the connection')


# ---- rooms


def answer_of(state, moment, content):
    """What a room answers, and what it is then: each answer shows all that was changed before."""
    token = re.search(rb'X-Terminal: (\w+)', content)[1].decode()
    who, body = state['terminals'].get(token), content.partition(b'\r\n\r\n')[2]
    if not who:
        return b'HTTP/1.1 403 X\r\n\r\nno terminal'
    if content.startswith(b'POST '):
        text = f'{state["rows"]} {moment} {who} {body.decode()}'
        state['rows'] = hashlib.sha256(text.encode()).hexdigest()
    return f'HTTP/1.1 200 X\r\n\r\n{state["rows"]}'.encode()


def changed(state, text):
    """A change: each token that it names is of a terminal, or of none; or a day."""
    words = text.decode().split()
    gone = words[2] if words[1] == '--revoke' else ''
    state['terminals'] = {it: of for it, of in state['terminals'].items() if of != gone}
    for who, token in zip(words[2::2], words[3::2]):
        state['terminals'] = {it: of for it, of in state['terminals'].items() if of != who}
        state['terminals'][token] = who
    if words[0] == 'renew':
        state['renewed'] = words[-1]
    return state


def digest_of(_, file):
    return hashlib.sha256(file.read_bytes()).hexdigest()


def make(_, file, text):
    before = digest_of(_, file)
    file.write_text(json.dumps(changed(json.loads(file.read_text()), text)))
    after = digest_of(_, file)
    return ('', b'refused') if after == before else (after, b'changed')


class Room:
    """In the place of played_room.PlayedRoom."""

    chance, opened = None, {}  # by their files

    def __init__(self, _, copy, work, take_all):
        self.copy, self.take_all, self.waiting, self.is_over = copy, take_all, [], False
        self.file = work / f'{id(self)}.db'
        self.state = None

    async def start(self):
        self.state = json.loads(self.copy.file.read_text())
        self.opened[self.file] = self
        self.at = Selector.now + self.chance.uniform(*OPENS)

    def send(self, moment, asked, is_awaited):
        self.waiting += asked
        self.at = max(self.at, Selector.now) + self.chance.uniform(*ANSWERS)
        asyncio.get_running_loop().call_at(self.at, self.answer, moment, list(asked))

    def answer(self, moment, asked):
        if self.is_over:
            return
        found = [(it, answer_of(self.state, moment, it.content)) for it in asked]
        del self.waiting[:len(asked)]
        self.take_all(found)

    def fail(self):
        """The program ends."""
        self.is_over = True
        self.take_all([])

    def look(self):
        if self.is_over:
            raise played_room.Ended('the room ended')

    async def end(self):
        self.is_over = True

    async def drop(self):
        self.is_over = True
        self.opened.pop(self.file, None)


# ---- machines


class Connections:
    answering = None

    def __init__(self):
        self.asked = []  # what will have the answers

    def close(self):
        for it in self.asked:
            if not it.done():
                it.set_result(b'')

    async def end(self):
        self.answering = None


class Companions:
    """Three companions, which are ended and started as processes are."""

    def __init__(self, folder, chance, copy_every):
        self.folder, self.chance, self.copy_every = folder, chance, copy_every
        self.etcd = Wire.etcd = Etcd(chance)
        Room.chance = chance
        self.running, self.connections = {}, {}
        self.machines, self.ended = {}, []
        self.shift, self.full = dict.fromkeys(NUMBERS, 0), set()

    def patched(self):
        """All that is of the system, replaced."""
        patch, stack = unittest.mock.patch.object, contextlib.ExitStack()
        fake = types.SimpleNamespace(
            monotonic=lambda: Selector.now, time=self.time, clock_gettime=lambda _: Selector.now,
            CLOCK_BOOTTIME=time.CLOCK_BOOTTIME, sleep=time.sleep)
        for it in clocks, comparison, said, turns, keeping, upkeep:
            stack.enter_context(patch(it, 'time', fake))
        for it, name, value in (
                (keeping, 'Channel', Channel), (keeping, 'Member', Member),
                (upkeep, 'Member', Member), (playing, 'PlayedRoom', Room),
                (playing, 'digest_of', digest_of), (changing, 'digest_of', digest_of),
                (changing, 'make', make), (changing, 'terminals_of', lambda file: json.loads(
                    file.read_text())['terminals']), (playing, 'is_whole', lambda _: True),
                (copies, 'take', self.take), (asyncio, 'to_thread', self.to_thread),
                (upkeep.Upkeep, 'measure', lambda _: None)):
            stack.enter_context(patch(it, name, value))
        return stack

    def time(self):
        return BEGAN + Selector.now + self.shift.get(ON.get(), 0)

    async def to_thread(self, does, *words, **named):
        await asyncio.sleep(self.chance.uniform(*ANSWERS))
        return does(*words, **named)

    def take(self, file, into):
        if ON.get() in self.full:
            raise OSError('No space left on device')
        copies.make_folder(into)
        (into / 'room.db').write_text(json.dumps(Room.opened[file].state))

    def begin(self, state):
        """Begins the list, and each machine's copies, with a room."""
        first = first_entry('0' * 64)
        with self.patched():
            kept_list.KeptList(Member(None, 1)).begin(first)
        for it in NUMBERS:
            (self.folder / f'work{it}').mkdir()
            (self.folder / str(it)).mkdir()
            file = self.folder / str(it) / 'part'
            file.write_text(json.dumps(state))
            copies.keep(file, copies.copy_at(self.folder / str(it), first.place, copies.NO_ANSWERS,
                                             digest_of(None, file)))

    def start(self, number):
        context = contextvars.copy_context()
        context.run(ON.set, number)
        self.running[number] = asyncio.get_running_loop().create_task(
            self.run(number), context=context)

    async def run(self, number):
        """As companion.run, and again where it ends."""
        given = types.SimpleNamespace(folder=self.folder / str(number), machine=number,
                                      deadline=3.0, trust_clock=False, log=False,
                                      revisions=10_000, away_after=1e9)
        while True:
            try:
                kept = kept_list.KeptList(Member(None, 1))
                copy, place = companion.copy_in_list(kept, given)
                connections = self.connections[number] = Connections()
                how = playing.Playing('', given.folder, self.folder / f'work{number}',
                                      self.copy_every, number)
                machine = self.machines[number] = Machine(given, how, copy, place, connections)
                tending, asked = upkeep.Upkeep(machine, None), keeping.Keeping(machine, None)
                health.Health(machine, tending)
                await machine.serve(
                    asked.catch_up, asked.hear, asked.follow, asked.answer_questions, tending.run,
                    *(lambda it=it: asked.keep_asks(it) for it in asked.writing))
                return
            except* (etcd.Unreached, companion.NoCopy):
                pass
            except* kept_list.Lost as error:
                self.ended.append((number, str(error.exceptions[0])))
            await asyncio.sleep(1)

    async def kill(self, number):
        task = self.running.pop(number)
        task.cancel()
        if number in self.connections:
            self.connections.pop(number).close()
        self.machines.pop(number, None)
        with contextlib.suppress(asyncio.CancelledError):
            await task

    async def stop(self, number):
        """Ends a machine well."""
        self.machines[number].stop()
        await self.running.pop(number)
        self.connections.pop(number)
        return self.machines.pop(number)

    def is_serving(self, number):
        machine = self.machines.get(number)
        return bool(machine) and machine.why_not() == ''

    async def ask(self, number, sent, patience):
        """What a machine answers within some seconds: a record's number, the status and the body;
        or nothing."""
        connections, found = self.connections.get(number), asyncio.Future()
        if not connections or not connections.answering:
            return None
        line = sent.partition(b'\r\n')[0].decode().split(' ')
        token = re.search(rb'X-Terminal: (\w+)', sent)[1].decode()
        context = contextvars.copy_context()
        context.run(ON.set, number)
        connections.asked.append(found)
        context.run(connections.answering, Request(sent, token, line[0], line[1], False),
                    lambda answer: found.done() or found.set_result(answer))
        with contextlib.suppress(TimeoutError):
            async with asyncio.timeout(patience):
                head, _, body = (await found).partition(b'\r\n\r\n')
                record = re.search(rb'X-Record: (\d+)', head)
                return head and (record and int(record[1]), int(head[9:12]), body.decode())
        return None
