"""Three companions under random faults in time that is made: machines that are killed, cut off,
whose disks are full and clocks are wrong, while terminals ask and the room is changed. And the
judge of what they answered, tried on histories that no list has."""
# needs: python3
import asyncio
import collections
import contextlib
import copy
import dataclasses
import io
import json
import os
import random
import types

import histories
import simulated
from many_terminals import Answered
from preloaded import EVERY
from room import TestCase, message
from simulated import NUMBERS, Selector, answer_of, changed

import companion
import copies
import kept_list
import upkeep
from entries import Record, entry_behind, first_entry

SEEDS = range(200) if EVERY else range(12)
LASTS = float(os.environ.get('LASTS', 30))  # seconds of a run, of a time that is made
TERMINALS = 12
MESSAGE = message('takerat01', 'POST /call')
PATIENCE = 60.0  # seconds of that time


class Judge(TestCase):
    """Histories of one change each second, and questions between."""

    def setUp(self):
        super().setUp()
        self.sent = [b'POST /%d' % it for it in range(1, 7)]
        self.answered = [Answered(sent, at, 200, '', 0, at, at + 0.5, 0.5)
                         for at, sent in enumerate(self.sent, 1)]
        self.answered += [Answered(b'GET /', at, 200, '', 0, at + 0.6, at + 0.7, 0.1)
                          for at in range(1, 7)]

    def found(self, kept=None, answered=None, unanswered=()):
        found = histories.faults(kept or self.sent, answered or self.answered, unanswered)
        return sorted({it.partition(':')[0] for it in found})

    def changed(self, at, **named):
        answered = list(self.answered)
        answered[at] = dataclasses.replace(answered[at], **named)
        return answered

    def test_good(self):
        self.check('one list', self.found(), [])
        self.check('at once', self.found(answered=self.changed(3, asked=1.0)), [])
        self.check('a question that is answered late',
                   self.found(answered=self.changed(8, ended=9.0)), [])
        for kept, word in (self.sent, 'no'), (self.sent, 'perhaps'), (
                [*self.sent, b'POST /7'], 'perhaps'), ([*self.sent, b'POST /7'], 'yes'):
            self.check(f'{word}', self.found(kept, None, [(b'POST /7', word)]), [])

    def test_lost(self):
        self.check('the last', self.found(self.sent[:-1]), ['lost'])
        self.check('one of the middle', self.found([*self.sent[:2], *self.sent[3:]]), ['lost'])
        self.check('said to be kept', self.found(unanswered=[(b'POST /7', 'yes')]), ['lost'])

    def test_doubled(self):
        self.check('in the list', self.found([*self.sent, self.sent[2]]), ['doubled'])
        self.check('by two answers', 'doubled' in self.found(
            answered=[*self.answered, self.answered[2]]), True)
        self.check('said not to be kept', self.found(
            [*self.sent, b'POST /7'], None, [(b'POST /7', 'no')]), ['doubled'])
        self.check('of nobody', self.found([*self.sent, b'POST /8']), ['doubled'])

    def test_stale(self):
        self.check('by an older room', self.found(answered=self.changed(10, number=3)), ['stale'])

    def test_reordered(self):
        sent = [self.sent[1], self.sent[0], *self.sent[2:]]
        answered = self.changed(0, number=2)
        answered[1] = dataclasses.replace(answered[1], number=1)
        self.check('two changes', 'reordered' in self.found(sent, answered), True)
        early = self.changed(4, asked=7.0, ended=8.0)
        self.check('before what was answered', self.found(answered=early), ['reordered'])


class Puts(TestCase):
    def test_over(self):
        """Nothing is put over, or beside, what was put since the list was looked at, though its
        head was not moved."""
        simulated.Wire.etcd = simulated.Etcd(types.SimpleNamespace(random=lambda: 1.0))
        kept = kept_list.KeptList(simulated.Member(None, 1))
        first = first_entry('0' * 64).place
        kept.begin(first_entry('0' * 64))
        revision = kept.read(first).revision
        b, c = (entry_behind(first, 9, [Record(f'{it}-1', MESSAGE)] * it) for it in (1, 2))
        kept.change([], [kept_list.put(kept_list.key_of(b.number), b.text)])
        asked = kept_list.keeping(first, c, revision)
        self.check('none beside it', kept.member.ask(kept_list.TXN, asked).get('succeeded'), None)
        self.check('it is taken', [kept.read(first).entries for _ in range(2)], [[], [b]])


class Terminal:
    """A terminal that changes something, and asks, and asks the next machine where it gets no
    answer."""

    def __init__(self, who, run):
        self.who, self.run = who, run
        self.answered, self.given_up = [], []

    async def work(self):
        count = 0
        while not self.run.is_over:
            await asyncio.sleep(self.run.chance.uniform(0, 0.3))
            count += 1
            line = b'GET /x' if count % 3 == 0 else b'POST /x'
            body = b'%d' % count if count % 3 else b''
            await self.ask(line, body)

    async def ask(self, line, body, patience=2.0):
        at = self.run.chance.choice(NUMBERS)
        while True:
            token = self.run.tokens[self.who].encode()
            sent = (b'%b HTTP/1.1\r\nHost: room\r\nX-Terminal: %b\r\nContent-Length: %d\r\n\r\n%b'
                    % (line, token, len(body), body))
            asked = Selector.now
            found = await self.run.three.ask(at, sent, patience)
            if found and found[1] != 503:
                number, status, text = found
                self.answered.append(Answered(sent, number, status, text, 0, asked, Selector.now,
                                              0))
                return
            self.given_up.append((sent, json.loads(found[2])['kept'] if found else 'perhaps'))
            at = at % len(NUMBERS) + 1
            await asyncio.sleep(0.05)


class Run:
    """One run: faults that come one or two at once, and changes of the room."""

    def __init__(self, folder, seed, who='terminal'):
        self.chance, self.is_over = random.Random(seed), False
        self.three = simulated.Companions(folder, self.chance, 300)
        self.tokens = {f'{who}{it}': f'tokenof{it:02}' for it in range(1, TERMINALS + 1)}
        self.state = {'rows': '', 'terminals': {it: who for who, it in self.tokens.items()}}
        self.begun = copy.deepcopy(self.state)
        self.terminals = [Terminal(it, self) for it in self.tokens]
        self.strays, self.count = [], 0
        self.outcomes, self.faults = collections.Counter(), collections.Counter()

    async def until(self, holds, what):
        until = Selector.now + PATIENCE
        while not holds():
            assert Selector.now < until, what
            await asyncio.sleep(0.1)

    async def all_serve(self):
        await self.until(lambda: all(map(self.three.is_serving, NUMBERS)), 'all serve')

    async def disturb(self):
        number = self.chance.choice(NUMBERS)
        kind = self.chance.choice(['kill', 'stop', 'cut', 'clock', 'full', 'stray', 'room'])
        if kind in ('kill', 'stop') and number not in self.three.running:
            return
        self.faults[kind] += 1
        lasts = self.chance.uniform(0.2, 15)
        if kind == 'kill':
            await self.three.kill(number)
            await asyncio.sleep(lasts)
            self.three.start(number)
        elif kind == 'stop':
            self.three.machines.get(number) and await self.three.stop(number)
            if number not in self.three.running:
                await asyncio.sleep(lasts)
                self.three.start(number)
        elif kind == 'cut':
            self.three.etcd.away.add(number)
            await asyncio.sleep(lasts)
            self.three.etcd.away.discard(number)
            self.three.etcd.catch_up()
        elif kind == 'clock' and not any(self.three.shift.values()):
            self.three.shift[number] = self.chance.choice([-3600, -65, 65, 86_400, 10**9])
            await asyncio.sleep(lasts)
            self.three.shift[number] = 0
        elif kind == 'stray':
            with contextlib.suppress(simulated.etcd.Unreached):
                self.put_stray()
        elif kind == 'room' and number in self.three.machines:
            self.three.machines[number].player.room.fail()
        elif kind == 'full':
            self.three.full.add(number)
            await asyncio.sleep(lasts)
            self.three.full.discard(number)

    def put_stray(self):
        """Puts an entry behind the last one, and does not move the head."""
        kept = kept_list.KeptList(simulated.Member(None, 1))
        [place] = [kept_list.head_of(value) for _, value, _ in kept.values(kept_list.HEAD)]
        self.count += 1
        body = b'stray%d' % self.count
        sent = (b'POST /x HTTP/1.1\r\nHost: room\r\nX-Terminal: nobodyhas\r\n'
                b'Content-Length: %d\r\n\r\n%b' % (len(body), body))
        last = kept.entry(place.number).place
        entry = entry_behind(last, 0, [Record(f'stray-{self.count}', sent)])
        key = kept_list.key_of(entry.number)
        if kept.change([kept_list.is_value(kept_list.HEAD, place.text()),
                        kept_list.is_none(kept_list.span(key))],
                       [kept_list.put(key, entry.text)]).get('succeeded'):
            self.strays.append((sent, 'perhaps'))

    async def disturb_on(self):
        while not self.is_over:
            await asyncio.sleep(self.chance.uniform(0, 5))
            await asyncio.gather(*(self.disturb() for _ in range(self.chance.randint(1, 2))))
            if self.chance.random() < 0.3:
                await self.all_serve()

    async def change_on(self):
        """Gives terminals other tokens, or renews the room, as the companion's commands do."""
        count = 0
        while not self.is_over:
            await asyncio.sleep(self.chance.uniform(0, 10))
            count += 1
            who, token = self.chance.choice(sorted(self.tokens)), f'changed{count:03}'
            text = (f'terminals --from\n{who} {token}\n' if count % 3 else
                    f'renew --since 2026-{count % 12 + 1:02}-01\n').encode()
            outcome = await self.change(text)
            self.outcomes[outcome] += 1
            if outcome == 'changed' and text.startswith(b'terminals'):
                self.tokens[who] = token

    async def change(self, text):
        kept = kept_list.KeptList(simulated.Member(None, 1))
        record = Record(f'{self.chance.random()}'.replace('.', '-'), text, 'change')
        number = None
        while number is None:
            with contextlib.suppress(simulated.etcd.Unreached):
                number = kept.append(record)
            await asyncio.sleep(0.2)
        while True:
            await asyncio.sleep(0.5)
            with contextlib.suppress(simulated.etcd.Unreached):
                for _, outcome, _ in kept.values(f'{upkeep.OUTCOMES}{number:012}'):
                    return outcome.decode().strip()

    async def start(self):
        self.three.begin(self.state)
        for it in NUMBERS:
            self.three.start(it)
        await self.all_serve()

    async def play(self):
        await self.start()
        working = [asyncio.create_task(it.work()) for it in self.terminals]
        disturbing = [asyncio.create_task(it()) for it in (self.disturb_on, self.change_on)]
        await asyncio.sleep(LASTS)
        self.is_over = True
        await asyncio.gather(*disturbing)
        await asyncio.gather(*working)
        await self.all_serve()
        for it in self.terminals[:3]:
            await it.ask(b'POST /x', b'at the end')
        await self.until(lambda: len({it.player.played for it in self.three.machines.values()})
                         == 1, 'all are level')
        ended = [await self.three.stop(it) for it in NUMBERS]
        self.odd = [it.stopped for it in ended if it.stopped]


def played(run, what):
    """What comes of a run, in time that is made."""
    loop, said = simulated.Loop(), io.StringIO()
    with run.three.patched(), contextlib.redirect_stderr(said), contextlib.redirect_stdout(said):
        try:
            return loop.run_until_complete(what)
        except AssertionError as error:
            error.add_note(said.getvalue()[-5000:])
            raise
        finally:
            loop.close()


class Silence(TestCase):
    async def ask_on(self, run):
        """A terminal that changes something and asks in turn; gives the longest that it waited."""
        one, waited = run.terminals[0], 0
        while not run.is_over:
            began = Selector.now
            await one.ask(*((b'POST /x', b'x') if len(one.answered) % 2 else (b'GET /x', b'')))
            waited = max(waited, Selector.now - began)
            await asyncio.sleep(0.02)
        return waited

    async def waited(self, run, meanwhile):
        """For how long a terminal waited at most, while something is done."""
        await run.start()
        asking = asyncio.create_task(self.ask_on(run))
        await meanwhile(run)
        run.is_over = True
        waited = await asking
        for it in list(run.three.running):
            await run.three.stop(it)
        return waited

    async def kill(self, run):
        """Kills all of machine 1, whose member leads."""
        await asyncio.sleep(3)
        run.three.etcd.lose_leader(1)
        await run.three.kill(1)
        await asyncio.sleep(5)

    async def change(self, run):
        """Has the room changed, whose copies take up to three seconds to open."""
        for text in b'terminals --from\nterminal2 changed002\n', b'renew --since 2026-01-01\n':
            self.check('it is made', await run.change(text), 'changed')

    def all_waited(self, meanwhile):
        waited = []
        for seed in range(20):
            folder = self.folder / str(seed)
            folder.mkdir()
            run = Run(folder, seed)
            waited.append(played(run, self.waited(run, meanwhile)))
        return waited

    def test_leader_killed(self):
        """Where the machine is killed whose member leads, terminals wait for a second at most."""
        waited = self.all_waited(self.kill)
        self.check('a second at most', [it for it in waited if it > 1], [])
        self.check('and some time', min(waited) > 0.2, True)

    def test_changed(self):
        """Nor does a terminal wait while a change is made, or takes the room's place."""
        self.check('a second at most', [it for it in self.all_waited(self.change) if it > 1], [])


class Revoked(TestCase):
    async def revoked(self, run):
        """The token of a terminal that goes on asking is taken away; gives what became of each
        try."""
        await run.start()
        asking = asyncio.create_task(Silence.ask_on(self, run))
        outcomes = []
        while len(outcomes) < companion.TRIES and outcomes[-1:] != ['changed']:
            outcomes.append(await run.change(b'terminals --revoke desk:1\n'))
        run.is_over = True
        await asking
        for it in NUMBERS:
            await run.three.stop(it)
        return outcomes, run.terminals[0].answered[-1].status

    def test_in_use(self):
        for seed in range(5):
            folder = self.folder / str(seed)
            folder.mkdir()
            run = Run(folder, seed, 'desk:')
            outcomes, status = played(run, self.revoked(run))
            self.check(f'{seed}: it is taken away', (outcomes[-1], status), ('changed', 403))


class WentBack(TestCase):
    async def went_back(self, run):
        """etcd has again what it had before some changes, until each machine has ended; gives the
        last answer."""
        await run.start()
        one, before = run.terminals[0], dict(run.three.etcd.rows)
        for it in range(7):
            await one.ask(b'POST /x', b'%d' % it)
        await run.until(lambda: {it.player.played for it in run.three.machines.values()} == {7},
                        'all are level')
        run.three.etcd.rows = before
        run.three.etcd.catch_up()
        await run.until(lambda: len(run.three.ended) == 3, 'all end')
        await run.all_serve()
        for it in NUMBERS:
            await run.three.stop(it)
        return one.answered[-1].body

    def test_copy(self):
        """A machine that ends as the list went back leaves a copy of all that was answered."""
        for seed in range(5):
            folder = self.folder / str(seed)
            folder.mkdir()
            run = Run(folder, seed)
            last = played(run, self.went_back(run))
            left = [max((folder / str(it)).glob('lost.*')) for it in NUMBERS]
            self.check(f'{seed}: of the last record', [it.name.split('.')[1] for it in left],
                       [f'{7:012}'] * 3)
            self.check(f'{seed}: with all', [json.loads(it.read_text())['rows'] for it in left],
                       [last] * 3)


class Simulated(TestCase):
    def played(self, seed):
        folder = self.folder / str(seed)
        folder.mkdir()
        run = Run(folder, seed)
        played(run, run.play())
        return run

    def check_run(self, seed, run):
        first = first_entry('0' * 64)
        rows = [it for it in run.three.etcd.entries if it[0] != kept_list.key_of(0)]
        entries, foreign = kept_list.linked(first.place, rows)
        self.check(f'{seed}: each place was written once', (foreign, len(rows)), ([], len(entries)))
        records = [(it.moment, record) for it in entries for record in it.records]
        kept = [it.content if it.kind == 'message' else None for _, it in records]
        answered = [it for terminal in run.terminals for it in terminal.answered]
        given_up = run.strays + [it for terminal in run.terminals for it in terminal.given_up]
        self.check(f'{seed}: one list', histories.faults(kept, answered, given_up)[:3], [])
        moments = [moment for moment, _ in records]
        self.check(f'{seed}: of moments that are right',
                   (moments == sorted(moments), moments[-1] - simulated.BEGAN < Selector.now + 5),
                   (True, True))
        state, differing, taken = self.replayed(run.begun, records, answered)
        self.check(f'{seed}: each answer', differing[:3], [])
        newest = [copies.copies_in(run.three.folder / str(it))[0] for it in NUMBERS]
        self.check(f'{seed}: the rooms', [json.loads(it.file.read_text()) for it in newest],
                   [state] * 3)
        self.check(f'{seed}: none is odd', (run.odd, run.three.ended), ([], []))
        self.check(f'{seed}: changes', taken >= run.outcomes['changed'], True)
        return len(records), run

    def replayed(self, state, records, answered):
        """The room behind a list, what was answered otherwise, and how many changes were made."""
        by_number, differing, taken = collections.defaultdict(list), [], 0
        for it in answered:
            by_number[it.number].append(it)
        change, is_alike, number_of = None, False, 0
        for number, (moment, record) in enumerate([(0, None), *records]):
            answer = None
            if record and record.kind == 'message':
                if change:
                    token = record.content.split(b'X-Terminal: ')[1].split(b'\r\n')[0]
                    who = state['terminals'].get(token.decode())
                    now = {of: it for it, of in change['terminals'].items()}.get(who)
                    named = record.content.replace(token, now.encode()) if now else record.content
                    other = answer_of(change, moment, named)
                answer = answer_of(state, moment, record.content)
                is_alike = is_alike and (not change or other == answer)
            elif record and record.kind == 'change':
                change = changed(copy.deepcopy(state), record.content)
                is_alike, number_of = change != state, number
            elif record:
                if change and is_alike and int(record.content) == number_of:
                    state, taken = change, taken + 1
                change = None
            for it in by_number[number]:
                got = answer if not it.is_question else answer_of(
                    copy.deepcopy(state), 0, it.sent)
                if got is None or got.partition(b'\r\n\r\n')[2].decode() != it.body:
                    differing.append(it)
        return state, differing, taken

    def test_random(self):
        total, outcomes, faults = 0, collections.Counter(), collections.Counter()
        seeds = [int(os.environ['SEED'])] if 'SEED' in os.environ else SEEDS
        for seed in seeds:
            count, run = self.check_run(seed, self.played(seed))
            total += count
            outcomes += run.outcomes
            faults += run.faults
        self.check('changes were made', outcomes['changed'] > 0, True)
        print(f'{total} records, {dict(faults)}, {dict(outcomes)}')
