"""What stands in the list of three machines beside what terminals were answered: each answer once
and in its place, and three rooms that are that of a replay of the list."""
import collections
import io
import json
import random
import re
import shutil
import subprocess
import threading
import time

from machines import PATIENCE, Machines, Witness
from many_terminals import FLEET, PLAN, Terminal, exchange
from room import PROGRAM, TestCase, dump, message, read_answer, run, sql

import copies
import digest
import histories
import kept_list
from entries import Record

LATE = 20  # seconds by which a busy machine is late: past a deadline, or as it hears of clocks
AT_END = message('deskof01', 'POST /vehicles/V1/off')


def call(serial, token='takerat01', **others):
    """A position's call, at one place where no other is given."""
    form = {'class': 2, 'needs': [1, 0, 0], 'note': '', 'place': 'TQ300800', 'serial': serial}
    return message(token, 'POST /call', json.dumps(form | others))


def replayed(room, messages):
    """The answers of a replay of messages, each with its moment, on a room's file."""
    sent = digest.head_of(room).encode()
    sent += b''.join(b'message %d %d\n%s\n' % (moment, len(it), it) for moment, it in messages)
    done = subprocess.run([PROGRAM, 'replay', room, '--answers', '--history'], input=sent,
                          capture_output=True, timeout=600)
    assert done.returncode == 0, done.stderr
    left, answers = memoryview(done.stdout), []
    while left:
        end = bytes(left[:64]).index(b'\n')
        length = int(bytes(left[:end]).split(b' ')[2])
        answers.append(bytes(left[end + 1:end + 1 + length]))
        left = left[end + length + 2:]
    return answers


class Replay:
    """A replay of a list on a room's file, with the changes that were begun and taken over in it:
    each is made in a copy, which plays on, and takes the room's place where both answer alike."""

    def __init__(self, room):
        self.room, self.copy, self.taken = room, room.with_name('replayed.db'), 0
        self.waiting, self.number, self.tokens = [], 0, {}

    def of_terminals(self, file):
        rows = sql(file, 'SELECT token, role, number, callsign FROM terminals').split()
        return dict(it.split('|', 1) for it in rows)

    def flush(self):
        """Plays what waits; whether the copy answers it alike."""
        answers = replayed(self.room, self.waiting)
        if not self.number:
            self.waiting = []
            return answers, False
        changes = [(it, answer) for it, answer in zip(self.waiting, answers)
                   if not it[1].startswith(b'GET ')]
        named = [(moment, re.sub(rb'(?<=X-Terminal: )\w+', lambda it: self.tokens.get(
            it[0], it[0]), content, count=1)) for (moment, content), _ in changes]
        is_alike = replayed(self.copy, named) == [it for _, it in changes]
        self.waiting = []
        return answers, is_alike

    def bring(self, source, target):
        """Copies a room's file, with what stands in its log."""
        run('digest', source)
        target.with_name(f'{target.name}-wal').unlink(missing_ok=True)
        shutil.copy(source, target)

    def begin(self, number, text):
        line, _, rows = text.decode().partition('\n')
        name, *words = line.split(' ')
        given, new = self.room.with_name('rows.csv'), self.room.with_name('renewed.db')
        given.write_text(rows)
        new.unlink(missing_ok=True)
        self.bring(self.room, self.copy)
        before = self.of_terminals(self.copy)
        into, more = [new] if name == 'renew' else [], [given] if rows else []
        run(name, self.copy, *into, *words, *more)
        if new.exists():
            self.bring(new, self.copy)
        of = {who: token for token, who in self.of_terminals(self.copy).items()}
        self.tokens = {token.encode(): of[who].encode() for token, who in before.items()
                       if who in of}
        self.number = number

    def play(self, records):
        """The answers to records, each with its moment and its number: of those that are
        messages."""
        answers = []
        for moment, number, record in records:
            if record.kind == 'message':
                self.waiting.append((moment, record.content))
                continue
            more, is_alike = self.flush()
            answers += more
            if record.kind == 'change':
                self.begin(number, record.content)
            else:
                if is_alike and int(record.content) == self.number:
                    self.bring(self.copy, self.room)
                    self.taken += 1
                self.number = 0
        return answers + self.flush()[0]


class ThreeTestCase(TestCase):
    def setUp(self):
        super().setUp()
        self.first = self.folder / 'first.db'
        (self.folder / 'plan.csv').write_text(PLAN)
        (self.folder / 'fleet.csv').write_text(FLEET)
        self.check('init', run('init', self.first, self.folder / 'plan.csv')[0], 0)
        self.check('import', run('import', self.first, self.folder / 'fleet.csv')[0], 0)
        self.machines = Machines(self.folder, self.first)
        self.addCleanup(self.machines.close)
        self.chance = random.Random(1992)

    def addresses(self):
        return [self.machines.address(it) for it in self.machines.machines]

    def witness(self):
        """Sees all that is put from now on."""
        witness = Witness(self.machines)
        self.addCleanup(setattr, witness, 'is_over', True)
        witness.start()
        return witness

    def newest(self, number):
        return copies.copies_in(self.machines.machines[number].folder / 'room')[0]

    def answered(self, number, sent):
        """What a machine answers, asked again where it gives no answer, as a busy one may."""
        until = time.monotonic() + PATIENCE
        while True:
            found = exchange(self.machines.address(number), sent, PATIENCE)
            if found and found[1] != 503:
                return found
            assert time.monotonic() < until, f'no answer\n{self.machines.said()[-6000:]}'
            time.sleep(0.2)

    def level(self):
        """Waits until the three are level; gives the number of the last record."""
        last = set()

        def are_level():
            healths = [self.machines.health(it) for it in self.machines.machines]
            last.clear()
            last.update(it.get('record') for it in healths)
            return len(last) == 1 and all(it.get('waiting') == it.get('behind') == 0
                                          for it in healths)
        self.machines.until(are_level, 'the machines are level')
        return last.pop()

    def copied(self, record):
        """Waits until each machine has a copy of a record, or of a later one."""
        for it in self.machines.machines:
            self.machines.until(lambda: self.machines.health(it).get('copy', 0) >= record,
                                f'{it} has a copy of {record}')

    def last_asked(self):
        """A change by each machine at the end. Behind it nothing comes that was on its way."""
        asking = [Terminal([it], self.chance, threading.Event(), 0) for it in self.addresses()]
        for it in asking:
            it.ask(AT_END)
        self.check('each answers at the end', [len(it.answered) for it in asking], [1, 1, 1])
        return asking

    def end(self, asking, witness):
        """Ends the companions once they are level, and looks at what they leave; gives how many
        changes were taken over."""
        asking = asking + self.last_asked()
        last = self.level()
        self.check('the companions end well', self.machines.stop_companions(), [0, 0, 0])
        copied = [self.newest(it) for it in self.machines.machines]
        self.check('each machine has the whole list', [it.number for it in copied], [last] * 3)
        put = witness.until(kept_list.key_of(last))
        rows = [(key, value) for key, _, value in put]
        entries, foreign = kept_list.linked(kept_list.entry_of(rows[0][1]).place, rows[1:])
        self.check('each place was written once', {it[1] for it in put}, {'1'})
        self.check('and is of a companion', sorted(foreign), sorted(self.foreign()))
        records = [(it.moment, record) for it in entries for record in it.records]
        self.check('each record has its number', len(records), last)
        answered = [it for terminal in asking for it in terminal.answered]
        self.check_history(records, asking)
        return self.check_rooms(records, answered, [dump(it.file) for it in copied])

    def foreign(self):
        """What was put by others than companions."""
        return []

    def check_history(self, records, asking):
        """The records of the list, beside what terminals sent and were answered."""
        kept = [it.content if it.kind == 'message' else None for _, it in records]
        answered = [it for terminal in asking for it in terminal.answered]
        given_up = [it for terminal in asking for it in terminal.given_up]
        self.check('there is one list that fits real time',
                   histories.faults(kept, answered, given_up)[:3], [])
        changes = sum(not it.is_question for it in answered)
        self.check('there are changes and questions', 0 < changes < len(answered), True)
        moments = [moment for moment, _ in records]
        self.check('no moment falls', moments, sorted(moments))
        sent = collections.defaultdict(list)
        for terminal in asking:
            for message_sent, at in terminal.sent.items():
                sent[message_sent] += at
        latest = self.machines.deadline + LATE
        late = [it for moment, it in records if it.kind == 'message'
                and not any(-LATE <= moment - began <= latest for began in sent[it.content])]
        self.check('all was kept at about the time when it was sent', late[:3], [])

    def check_rooms(self, records, answered, dumps):
        """The rooms beside a replay of the list, with each question where its answer says."""
        self.check('the three rooms are equal', [it == dumps[0] for it in dumps], [True] * 3)
        by_number = collections.defaultdict(list)
        for it in answered:
            by_number[it.number].append(it)
        played, wanted = [], []
        for number, (moment, record) in enumerate([(0, None), *records]):
            if record:
                played.append((moment, number, record))
            if record and record.kind == 'message':
                wanted.append([it for it in by_number[number] if not it.is_question])
            for it in by_number[number]:
                if it.is_question:
                    played.append((it.moment, number, Record('asked', it.sent)))
                    wanted.append([it])
        replay = Replay(self.first)
        answers = replay.play(played)
        self.check('and equal to a replay', dump(self.first) == dumps[0], True)
        self.check('each was answered', len(answers), len(wanted))
        differing = [it for answer, asked in zip(answers, wanted) for it in asked
                     if read_answer(io.BytesIO(answer)) != (it.status, it.body)]
        self.check('which gives the same answers', differing[:3], [])
        return replay.taken
