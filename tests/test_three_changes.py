"""Changes of the room of three machines that are no messages: vehicles that are enrolled,
terminals, another plan, a room without what is long over. Each is made on all machines while
terminals ask."""
# needs: etcd-server sqlite3
# builds: dispatch_room
import json
import threading
import time

import listed
from listed import ThreeTestCase, replayed
from machines import SEEN
from many_terminals import PLAN, asked_while
from room import PROGRAM, dump, message, run, sql

import changing
import entries
from entries import Place, Record

DAY = 86_400  # seconds
OPENS = 2.0  # seconds that a slow program takes to open a room
FLEET_HEAD = 'callsign,division,kind,place,token'


def call(serial):
    """A call of a place that is far from all others."""
    place = f'TQ{300 + 20 * (serial % 6)}{700 + 20 * (serial // 6)}'
    return listed.call(serial, 'takerat99', place=place)


def day(ago):
    return time.strftime('%Y-%m-%d', time.gmtime(time.time() - ago * DAY))


class Forms(ThreeTestCase):
    def setUp(self):
        super(ThreeTestCase, self).setUp()

    def test_texts(self):
        """What is a change of the list, and what is none."""
        for text, wanted in [
                (b'import\nrows\n', True), (b'replan\nrows\n', True), (b'import\n', False),
                (b'terminals --from\nrows\n', True), (b'terminals --new crew:A1\n', False),
                (b'terminals --revoke desk:1\n', True), (b'terminals --revoke crew:A1\n', False),
                (b'renew --since 2026-03-22\n', True), (b'renew --since today\n', False),
                (b'init\nrows\n', False), (b'import\n' + b'x' * entries.MOST_CHANGE, False)]:
            self.check(f'{text[:40]}', Record('a', text, 'change').is_whole(), wanted)
        self.check('a number', Record('a', b'17', 'taken').is_whole(), True)
        self.check('none', Record('a', b'x', 'taken').is_whole(), False)

    def test_entries(self):
        """A change stands in an entry of its own."""
        change = Record('a', b'renew --since 2026-03-22\n', 'change')
        for records, wanted in ([change], True), ([change, change], False), (
                [Record('b', call(1)), change], False):
            entry = entries.entry_behind(Place(7, 'a' * 64, 100), 100, records)
            self.check(f'{len(records)} records', entries.entry_of(entry.text) == entry, wanted)

    def test_tokens(self):
        """Whom the copy knows by another token: two may swap theirs, and one has none."""
        before = {'one': (0, 1, ''), 'two': (0, 2, ''), 'three': (1, 3, '')}
        after = {'two': (0, 1, ''), 'one': (0, 2, '')}
        self.check('names', changing.renamed(before, after), {b'one': b'two', b'two': b'one'})


class Changes(ThreeTestCase):
    def setUp(self):
        """A room that has thirty incidents of ten days ago, all closed, and one of today."""
        super().setUp()
        self.first.unlink()
        (self.folder / 'plan.csv').write_text(f'{PLAN}position,99,takerat99,,,\n')
        run('init', self.first, self.folder / 'plan.csv')
        run('import', self.first, self.folder / 'fleet.csv')
        began = int(time.time()) - 10 * DAY
        old = [(began + at, call(at)) for at in range(1, 31)]
        old += [(began + 100 + at, message('deskof02', f'POST /incidents/{at}/close'))
                for at in range(1, 31)]
        replayed(self.first, [*old, (int(time.time()) - 60, call(31))])
        run('digest', self.first)

    def change(self, number, *words, program=PROGRAM):
        """A change that is made by the command of a machine's companion."""
        return self.machines.companion_does(
            number, *words, '--program', program, '--folder',
            self.machines.machines[number].folder / 'room')

    def file(self, *lines):
        file = self.folder / f'new{len(list(self.folder.glob("new*.csv")))}.csv'
        file.write_text('\n'.join(lines) + '\n')
        return file

    def four(self):
        """Each of the four, by one machine after another: its words, and what it prints."""
        yield ['import', self.file(FLEET_HEAD, 'NEW1,1,1,TQ300804,crewofnew1',
                                   'new2,1,1,TQ300804,crewofnew2')], 'NEW1 added\nrow 2 bad\n'
        yield ['terminals', '--from', self.file(FLEET_HEAD, 'V1,1,1,TQ300804,otherof01',
                                                'V2,1,1,TQ300804,crewof02')], 'set: terminals 2\n'
        lines = PLAN.splitlines()
        yield ['replan', self.file(*lines[:4], 'area,3,400000,100000,449999,199999', *lines[4:],
                                   'desk,3,deskofnew,,,', 'position,99,takerat99,,,'
                                   )], 'replanned\n'
        yield ['renew', '--since', day(5)], 'renewed: incidents '

    def make_four(self, **named):
        for at, (words, wanted) in enumerate(self.four()):
            status, said = self.change(1 + at % 3, *words, **named)
            self.check(words[0], (status, said[:len(wanted)]), (0, wanted))

    def test_four(self):
        """Each of the four while forty terminals ask: no machine stops serving for it."""
        self.machines.words = dict.fromkeys(self.machines.machines, SEEN)
        self.machines.start_all()
        witness = self.witness()
        asking = asked_while(self.make_four, self.addresses(), 0.25, self.chance)
        self.check('all were answered', sum(it.unanswered for it in asking), 0)
        taken = self.end(asking, witness)
        self.check('each was taken over, and none twice', taken, 4)
        newest = self.newest(1).file
        self.check('a vehicle', sql(newest, "SELECT count(*) FROM vehicles WHERE "
                                            "callsign = 'NEW1'"), '1\n')
        self.check('a division', sql(newest, 'SELECT count(*) FROM divisions'), '3\n')
        self.check('a token', sql(newest, 'SELECT callsign FROM terminals WHERE token = '
                                          "'otherof01'"), 'V1\n')
        self.check('old incidents', sql(newest, 'SELECT count(*) FROM incidents WHERE division = '
                                                '1 AND number <= 30'), '0\n')

    def start_slow(self):
        """Starts all machines with a program that takes its time to open a room, as with many
        incidents, and longer where it is held."""
        program, self.holding = self.folder / 'slow', self.folder / 'holding'
        program.write_text(f'#!/bin/sh\nsleep {OPENS}\nwhile [ -e {self.holding} ]; do sleep 0.1; '
                           f'done\nexec {PROGRAM} "$@"\n')
        program.chmod(0o700)
        self.machines.programs = dict.fromkeys(self.machines.machines, program)
        self.machines.start_all()

    def test_slow(self):
        """A room that takes long to open is not away for it: the change is made beside. (How long
        it is behind as the copy takes its place, test_three_simulated measures.)"""
        self.start_slow()
        reasons, stopped = set(), threading.Event()

        def look():
            while not stopped.wait(0.05):
                reasons.update(self.machines.health(it).get('refuses')
                               for it in self.machines.machines)
        looking = threading.Thread(target=look)
        looking.start()
        try:
            self.make_four()
        finally:
            stopped.set()
            looking.join()
        self.check('no room was opened meanwhile',
                   reasons & {'the room is opening', 'it is not serving'}, set())
        self.check('it has the vehicle', self.answered(2, message('crewofnew1', 'GET /order'))[1],
                   200)

    def test_refused(self):
        """What is refused is not put; nor is what changes nothing."""
        self.machines.start_all()
        self.check('a call', self.answered(1, call(40))[1], 200)
        before = self.level()
        for words, wanted in [
                (['import', self.file('hello')], 'refused: '),
                (['import', self.file(FLEET_HEAD, 'new2,1,1,TQ300804,crewofnew2')],
                 'refused: nothing is changed\nrow 1 bad'),
                (['terminals', '--new', 'crew:NONE'], 'refused: '),
                (['terminals', '--new', 'nobody'], 'refused: '),
                (['terminals', '--revoke', 'desk:77'], 'refused: '),
                (['replan', self.file('what,number,a,b,c,d')], 'refused: '),
                (['renew', '--since', day(0)], 'refused: day'),
                (['renew', '--since', 'today'], 'it is no change')]:
            status, said = self.change(2, *words)
            self.check(f'{words}', (status, said[:len(wanted) + 11]),
                       (1, f'companion: {wanted}'))
        self.check('the list is as it was', self.level(), before)

    def test_terminals(self):
        """A terminal gets another token, or none, as the program's own command does."""
        self.machines.start_all()
        for who, old, sent in [('crew:V6', 'crewof06', 'GET /order'),
                               ('desk:1', 'deskof02', 'GET /queue'),
                               ('position:99', 'takerat99', 'GET /last')]:
            status, token = self.change(1, 'terminals', '--new', who)
            self.check(f'{who} gets one', (status, len(token)), (0, 33))
            for it in self.machines.machines:
                self.check('the old one', self.answered(it, message(old, sent))[1], 403)
                self.check('the new one', self.answered(it, message(token.strip(), sent))[1], 200)
            self.check(f'{who} gets none', self.change(2, 'terminals', '--revoke', who)[0], 0)
            self.check('the last one', self.answered(3, message(token.strip(), sent))[1], 403)
        self.machines.kill('companion', 2)
        self.machines.start('companion', 2)
        self.machines.wait_for(2)
        self.check('after a kill', self.answered(2, message('crewof06', 'GET /order'))[1], 403)

    def test_away(self):
        """A machine that was away meanwhile makes the changes as it plays the list."""
        self.machines.start_all()
        self.machines.kill('companion', 3)
        self.make_four()
        self.machines.start('companion', 3)
        self.machines.wait_for(3)
        self.check('a call', self.answered(3, call(40))[1], 200)
        self.check_level()

    def check_level(self):
        """The three are one room."""
        last = self.level()
        self.check('the companions end well', self.machines.stop_companions(), [0, 0, 0])
        newest = [self.newest(it) for it in self.machines.machines]
        self.check('all have it', [it.number for it in newest], [last] * 3)
        self.check('and are one room', len({dump(it.file) for it in newest}), 1)
        return newest[0].file

    def begin(self, *words):
        """Begins a change in the background; gives what waits for it and its result."""
        found, last = [], self.level()
        making = threading.Thread(target=lambda: found.append(self.change(1, *words)))
        making.start()
        self.machines.until(lambda: self.machines.list().ends()[1] > last or found, 'it is begun')
        return making, found

    def test_stops(self):
        """Machines that stop while a change is made: a companion that is killed, one that ends, and
        a room."""
        self.start_slow()
        for stop in (lambda: self.machines.kill('companion', 2),
                     lambda: self.machines.stop_companions(3),
                     lambda: self.machines.kill('room', 2)):
            making, found = self.begin('terminals', '--new', 'crew:V6')
            stop()
            for it in 2, 3:
                if self.machines.processes['companion', it].poll() is not None:
                    self.machines.start('companion', it)
            making.join()
            self.check('it is made', found[0][0], 0)
            self.machines.wait_for_all()
            for it in self.machines.machines:
                self.check('the new one', self.answered(it, message(
                    found[0][1].strip(), 'GET /order'))[1], 200)
        self.check_level()

    def test_otherwise(self):
        """Where somebody is answered otherwise meanwhile, the change is begun again."""
        self.start_slow()
        self.holding.touch()  # until somebody was answered
        fleet = self.file(FLEET_HEAD, 'NEW1,1,1,TQ300804,crewofnew1')
        making, found = self.begin('import', fleet)
        report = {'button': 'home', 'number': 1, 'order': 0, 'place': 'TQ300800'}
        sent = message('crewofnew1', 'POST /report', json.dumps(report))
        self.check('before it is there', self.answered(2, sent)[1], 403)
        self.holding.unlink()
        making.join()
        self.check('it is made', found, [(0, 'NEW1 added\n')])
        self.check('by a second one', 'somebody was answered otherwise' in self.machines.said(),
                   True)
        self.check('a report', self.answered(3, sent)[1], 200)
        self.check_level()
