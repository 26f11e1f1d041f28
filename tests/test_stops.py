"""Stops from outside: the program ends at each call in turn that changes a file, before it, in the
middle of what it writes, or with the machine, which loses what was not synced, or some sectors of
it where the disk was writing blocks of several: every other one, all behind the first few of each
block of 4 KiB, or any. The next program finds the room from before or the room from after what was
stopped, and the one from after where it had answered; and what was stopped then ends well. What a
room is renewed from stays as it was, to the byte."""
# needs: python3 gcc libc6-dev sqlite3
# builds: dispatch_room
import time

from first_version import DAY, old_room
from preloaded import (ANY, BEFORE, EVERY, FIRST, HALFWAY, MACHINE, NEVER_STOPPED, TORN,
                       PreloadedTestCase, sampled, stop)
from room import (PLAN, ask, call, drop_indexes, fleet_of, made, message, rows_of, run, serving,
                  sql)

STOPPED = 9
HOW = {'stopped at': BEFORE, 'stopped in the middle of': HALFWAY,
       'stopped with the machine at': MACHINE, 'stopped with blocks torn at': TORN}
SECTORS = 8  # of a block


def ways(at):
    """The ways to stop at a call of this number, by their names: blocks are torn behind each number
    of sectors, and by eight choices of them, or where calls are sampled by one of all these."""
    firsts = range(1, SECTORS) if EVERY else [at // 2 % (SECTORS - 1) + 1][at % 2:]
    choices = range(8 * at, 8 * at + 8) if EVERY else [at][:at % 2]
    torn = {f'stopped with blocks torn behind {it} sectors at': FIRST + it for it in firsts}
    return HOW | torn | {f'stopped with sectors torn by {it} at': ANY + it for it in choices}


# ---- deeds: each takes the program, the library's switches and a file, and gives the answer, or
# None where there was none


def command(*words):
    def deed(program, switches, file):
        status, out, err = program.run(switches, words[0], file, *words[1:])
        return (out, err) if status != STOPPED else None

    return deed


def request(sent):
    """A message to a room that is served."""

    def deed(program, switches, file):
        answers, *_ = program.serve(switches, file, sent)
        return answers[0] if answers else None

    return deed


# ---- rooms

UNTIL = int(time.time()) + 8 * 3600
A1 = 'A1,1,1,TQ303804,crewofa1'
B1 = 'B1,2,2,TQ600800,crewofb1'
DUTY = message('deskone1', 'POST /vehicles/A1/duty', f'{{"place":"TQ303804","until":{UNTIL}}}')
MOBILISE = message('deskone1', 'POST /incidents/1/mobilise', '{"vehicle":"A1"}')
REPORT = message('crewofa1', 'POST /report',
                 '{"button":"mobile","number":1,"order":1,"place":"TQ302802"}')
LEND = message('deskone1', 'POST /vehicles/A1/lend', f'{{"to":2,"until":{UNTIL - 600}}}')
ACCEPT = message('desktwo2', 'POST /vehicles/A1/accept')
RECALL = message('deskone1', 'POST /vehicles/A1/recall')
CLOSE = message('deskone1', 'POST /incidents/1/close')
MERGE = message('deskone1', 'POST /incidents/2/merge', '{"into":1}')


class Stops(PreloadedTestCase):
    def each(self):
        """The stops to try, the last one too, once a run without one has shown how many calls there
        are. Beside each its name, and how it is."""
        total = self.program.total()
        self.check('files are changed', total > 0, True)
        for at in sampled(total):
            for words, how in ways(at).items():
                yield stop(at, how), f'{words} {at}', how

    def room(self, *messages):
        """A room with a vehicle that took messages, one after another."""
        room = made(self.folder / 'taken.db', A1)
        if messages:
            with serving(room, 1) as (port, process):
                answers = ask(port, *messages)
                self.check('what goes before', [it for it, _ in answers], [200] * len(messages))
                process.wait(timeout=180)
        return room

    def found(self, file):
        """What the next program finds: all rows of either version, but for the moments of today;
        none where it finds no room."""
        status, _, printed = run('times', file, 1, '2026-03-29')
        if (status, printed) == (1, 'refused: file\n'):
            return None
        with self.subTest('a room is found'):
            self.assertIn((status, printed), [(0, ''), (1, 'refused: version\n')])
        return rows_of(file)

    def stop_everywhere(self, what, room, deed, between=()):
        """Stops a deed at each call, and looks at what is found; rooms between that before and
        that after may be, too."""
        file = self.fresh(room)
        before = self.found(file) if room else None
        answer = deed(self.program, NEVER_STOPPED, file)
        after = self.found(file)
        self.check(f'{what} changes the room', before != after, True)
        met = []
        deed(self.program, NEVER_STOPPED, self.fresh(room))
        for switches, name, how in self.each():
            file = self.fresh(room)
            answered = deed(self.program, switches, file)
            now = self.found(file)
            with self.subTest(f'{what}, {name}'):
                self.assertIn(now, [before, *between, after])
            with self.subTest(f'{what}, {name}: its answer'):
                self.assertIn((answered, now), [(answer, after), (None, now)])
            if how in (BEFORE, HALFWAY):
                met.append(now)
            if now != after or room:
                deed(self.program, NEVER_STOPPED, file)
            self.check(f'{what}, {name} and done again', self.found(file), after)
        self.check(f'{what} was stopped before anything was kept, and after all was',
                   (met[0], met[-1]), (before, after))

    def test_creation(self):
        self.stop_everywhere('a creation', None, command('init', PLAN))

    def test_import(self):
        fleet = self.folder / 'two.fleet'
        fleet.write_text(fleet_of(A1, B1))
        between = [self.found(made(self.folder / 'one.db', A1))]
        empty = made(self.folder / 'empty.db')
        self.stop_everywhere('an import', empty, command('import', fleet), between)

    def test_terminal(self):
        deed = command('terminals', '--revoke', 'position:1')
        self.stop_everywhere('a terminal that is taken away', self.room(), deed)

    def test_migration(self):
        for journal in ['delete', 'wal']:
            for indexed in [True, False]:
                old = old_room(self.folder / f'{journal}{indexed}.db', DAY, indexed, journal)
                self.stop_everywhere(f'a migration, {old.stem}', old, command('migrate'))

    def test_call(self):
        self.stop_everywhere('a call', self.room(), request(call(1)))

    def test_report(self):
        self.stop_everywhere('a report', self.room(DUTY, call(1), MOBILISE), request(REPORT))

    def test_accept(self):
        self.stop_everywhere('an accept', self.room(DUTY, LEND), request(ACCEPT))

    def test_mobilisation(self):
        self.stop_everywhere('a mobilisation', self.room(DUTY, call(1)), request(MOBILISE))

    def test_merge(self):
        room = self.room(call(1), call(2, 'TQ400900'))
        self.stop_everywhere('a merge', room, request(MERGE))

    def test_recall(self):
        self.stop_everywhere('a recall', self.room(DUTY, LEND, ACCEPT), request(RECALL))

    def test_renewal(self):
        """Stops a renewal: the old room stays, and beside it is none, or the whole new one."""
        room = self.room(call(1), CLOSE, call(2, 'TQ400900'))
        sql(room, 'UPDATE calls SET moment = 1700000000 WHERE serial = 1;'
                  'UPDATE incidents SET opened = 1700000000 WHERE number = 1')
        before = room.read_bytes()

        def renew(switches, old):
            status, out, err = self.program.run(switches, 'renew', old, old.with_name('new.db'),
                                                '--since', '2024-01-01')
            return (out, err) if status != STOPPED else None

        old = self.fresh(room)
        answer = renew(NEVER_STOPPED, old)
        self.check('a renewal', answer,
                   (b'renewed: incidents 1, calls 1, turns 0, reports 0\n', b''))
        wanted, met = self.found(old.with_name('new.db')), set()
        for switches, name, _ in self.each():
            old = self.fresh(room)
            new = old.with_name('new.db')
            answered = renew(switches, old)
            self.check(f'a renewal, {name}: the old file', old.read_bytes(), before)
            self.check(f'a renewal, {name}: the old room', run('check', old)[0], 0)
            now = self.found(new)
            met.add(now)
            with self.subTest(f'a renewal, {name}: the new room'):
                self.assertIn((answered, now), [(answer, wanted), (None, wanted), (None, None)])
            if now is None:
                self.check(f'a renewal, {name} and done again', renew(NEVER_STOPPED, old), answer)
                self.check(f'a renewal, {name}: the new room then', self.found(new), wanted)
        self.check('none, and a whole one', met, {None, wanted})

    def test_opening(self):
        """Stops the opening of a room without indexes: all rows are found, and the indexes made
        anew."""
        room, deed = self.room(), command('times', 1, '2026-03-29')
        drop_indexes(room)
        wanted = self.found(self.fresh(room))
        answer = deed(self.program, NEVER_STOPPED, self.fresh(room))
        self.check('it is opened', answer, (b'incident,opened,activation\n', b''))
        for switches, name, _ in self.each():
            file = self.fresh(room)
            with self.subTest(f'an opening, {name}: its answer'):
                self.assertIn(deed(self.program, switches, file), [None, answer])
            self.check(f'an opening, {name}', self.found(file), wanted)
