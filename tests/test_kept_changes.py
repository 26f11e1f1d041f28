"""Changes of terminals and of the plan that are kept in a list. The list has where the room was,
what the change is, and where the room is then; over a room that stands where the list begins a
replay gives the room again, with its tokens and its zone, also where a change was stopped in
between. Rows that are none of a change, and a change that a room does not allow, are found at their
record."""
# needs: python3 gcc libc6-dev sqlite3
# builds: dispatch_room
import re
import shutil

from journals import CREW, JournalTestCase, NoList, bodies, chain, head_of, replay, verify
from preloaded import (BEFORE, HALFWAY, MACHINE, NAMES, NEVER_STOPPED, WRITES, PreloadedTestCase,
                       sampled, stop, sync_fault)
from room import PATIENT, call, dump, fleet_of, made, message, run, serving, sql

import digest

HEADER = 'terminal,token'
PLAN_HEAD = 'what,number,a,b,c,d'
LONDON = 'zone,0,"GMT0BST,M3.5.0/1,M10.5.0",,,'
TOKYO = 'zone,0,JST-9,,,'
WEST = 'area,1,500000,100000,549999,199999'
EAST = 'area,2,550000,100000,599999,199999'
FAR = 'area,3,400000,100000,449999,199999'
B1 = 'B1,2,2,TQ600800,crewofb1'
TOKEN = re.compile(r'[A-Za-z0-9]{24}\n')


def queue(token):
    return message(token, 'GET /queue')


def row(line):
    return f'row {line}\n'.encode()


def rows_of(room):
    """All rows of a room, whatever their order in its file."""
    return sorted(dump(room).splitlines())


def text_of(*lines):
    return ''.join(f'{it}\n' for it in lines)


class ChangesTestCase(JournalTestCase):
    def setUp(self):
        super().setUp()
        run('import', self.room, self.file('fleet', fleet_of(B1)))
        self.before = self.copy()

    def file(self, name, text):
        file = self.folder / f'{name}.csv'
        file.write_text(text)
        return file

    def changes(self, command, *words):
        """Changes the room, and keeps that in the list."""
        return run(command, self.room, *words, '--journal', self.list)

    def fresh(self):
        self.again = shutil.copy(self.before, self.folder / 'again.db')
        return self.again

    def leads_to_the_room(self, what, messages=0):
        """Over the copy of before the list leads to the room, row by row."""
        text = self.list.read_bytes()
        status, out, err = replay(self.fresh(), text)
        self.check(f'{what}: it is replayed', (status, err), (0, ''))
        self.check(f'{what}: its messages', out, b'replayed %d\n' % messages)
        self.check(f'{what}: the digest', digest.of_file(self.again), digest.of_file(self.room))
        self.check(f'{what}: the room', rows_of(self.again), rows_of(self.room))


class Kept(ChangesTestCase):
    """What is kept, and what it leads to."""

    def kept(self, what, *lines):
        """The list is this change, between the room as it was and as it is."""
        wanted = [head_of(self.before), *map(row, lines), head_of(self.room)]
        self.check(f'{what}: its text', self.list.read_bytes(), chain(wanted))
        self.check(f'{what}: a list', verify(self.list), (0, 'verified 0\nnot ended\n', ''))
        self.leads_to_the_room(what)
        self.list.unlink()
        shutil.copy(self.before, self.room)

    def test_new(self):
        """A new token is printed as ever, and the list has it."""
        for who in ['desk:1', 'position:1', 'position:99', 'crew:A1']:
            status, out, err = self.changes('terminals', '--new', who)
            self.check(who, (status, bool(TOKEN.fullmatch(out)), err), (0, True, ''))
            self.kept(who, HEADER, f'{who},{out.strip()}')

    def test_revoke(self):
        for who in ['desk:1', 'position:1']:
            self.check(who, self.changes('terminals', '--revoke', who), (0, 'revoked\n', ''))
            self.kept(who, HEADER, f'{who},')
        self.check('a crew', self.changes('terminals', '--revoke', 'crew:A1'), (0, 'revoked\n', ''))
        token = sql(self.room, "SELECT token FROM terminals WHERE callsign = 'A1'").strip()
        self.kept('a crew', HEADER, f'crew:A1,{token}')

    def test_from(self):
        """The list has what a file gives, not the file."""
        fleet = fleet_of('A1,1,1,TQ303804,newofa11', '"B1",2,2,TQ600800,newofb11')
        report = self.changes('terminals', '--from', self.file('new', fleet))
        self.check('a fleet', report, (0, 'set: terminals 2\n', ''))
        self.kept('a fleet', HEADER, 'crew:A1,newofa11', 'crew:B1,newofb11')
        plan = text_of(PLAN_HEAD, LONDON, WEST, EAST, 'position,7,takernew,,,',
                       'desk,1,newone11,,,', 'desk,1,newone12,,,')
        report = self.changes('terminals', '--from', self.file('new', plan))
        self.check('a plan', report, (0, 'set: terminals 3\n', ''))
        self.kept('a plan', HEADER, 'position:7,takernew', 'desk:1,newone11', 'desk:1,newone12')
        plan = text_of(PLAN_HEAD, LONDON, WEST, EAST)
        report = self.changes('terminals', '--from', self.file('new', plan))
        self.check('nobody', report, (0, 'set: terminals 0\n', ''))
        self.kept('nobody', HEADER)

    def test_swapped(self):
        """Two that change their tokens do so in one record's change."""
        plan = text_of(PLAN_HEAD, LONDON, WEST, EAST, 'desk,1,desktwo2,,,', 'desk,2,deskone1,,,')
        self.changes('terminals', '--from', self.file('new', plan))
        self.kept('swapped', HEADER, 'desk:1,desktwo2', 'desk:2,deskone1')

    def test_replan(self):
        for what, lines in [('the same', [LONDON, WEST, EAST]),
                            ('a division', [LONDON, WEST, EAST, FAR, 'desk,3,deskthree,,,']),
                            ('another zone', [TOKYO, EAST, WEST]),
                            ('other tokens', [LONDON, WEST, EAST, 'desk,1,newone11,,,'])]:
            plan = self.file('plan', text_of(PLAN_HEAD, *lines))
            self.check(what, self.changes('replan', plan), (0, 'replanned\n', ''))
            self.kept(what, PLAN_HEAD, *lines)

    def test_what_is_refused(self):
        """What a room does not allow is kept, and does not happen again."""
        before = rows_of(self.room)
        taken = fleet_of('A1,1,1,TQ303804,deskone1')
        lacking = text_of(PLAN_HEAD, LONDON, WEST)
        for what, words in [('nobody', ['terminals', '--new', 'crew:Z9']),
                            ('no division', ['terminals', '--new', 'desk:9']),
                            ('taken', ['terminals', '--from', self.file('taken', taken)]),
                            ('lacking', ['replan', self.file('plan', lacking)])]:
            report = self.changes(*words)
            self.check(what, (report[0], report[1], 'refused: ' in report[2]), (1, '', True))
            self.check(f'{what}: the room', rows_of(self.room), before)
        self.leads_to_the_room('what is refused')

    def test_as_ever(self):
        """Without a list a change is what it was, and no file is made."""
        fleet = self.file('new', fleet_of('A1,1,1,TQ303804,newofa11'))
        files = sorted(self.folder.iterdir())
        self.check('a change', run('terminals', self.room, '--from', fleet),
                   (0, 'set: terminals 1\n', ''))
        self.check('its files', sorted(self.folder.iterdir()), files)
        beside = shutil.copy(self.before, self.folder / 'beside.db')
        run('terminals', beside, '--from', fleet, '--journal', self.list)
        self.check('the same room', rows_of(beside), rows_of(self.room))


class Between(ChangesTestCase):
    """Whoever has the copy and the list has the room: services before, between and after
    changes."""

    def test_tokens(self):
        self.serve([call(1), queue('deskone1')])
        token = self.changes('terminals', '--new', 'desk:1')[1].strip()
        found, _ = self.serve([queue('deskone1'), queue(token)])
        self.check('the old token is none', [it[1] for it in found], [403, 200])
        self.changes('terminals', '--revoke', 'desk:2')
        fleet = self.file('new', fleet_of('C1,1,1,TQ303804,crewofc1'))
        self.check('an import', self.changes('import', fleet)[0], 0)
        crew = self.changes('terminals', '--new', 'crew:C1')[1].strip()
        found, _ = self.serve([queue('desktwo2'), message(crew, 'GET /order'), call(2)])
        self.check('the new crew asks', [it[1] for it in found], [403, 200, 200])
        self.leads_to_the_room('tokens', 7)
        text = self.list.read_bytes()
        for words in [('--answers',), ('--digest',), ('--open',)]:
            status, _, err = replay(self.fresh(), text, *words)
            self.check(f'{words}', (status, err), (0, ''))
            self.check(f'{words}: the room', rows_of(self.again), rows_of(self.room))

    def test_zone(self):
        """Behind another plan messages are answered in its zone, and in its areas."""
        far = 'SU200800'
        day = message('deskone1', 'GET /times/2026-03-29')
        served, _ = self.serve([call(1), call(2, far), day])
        plan = self.file('plan', text_of(PLAN_HEAD, TOKYO, WEST, EAST, FAR, 'desk,3,deskthree,,,'))
        self.check('a plan', self.changes('replan', plan), (0, 'replanned\n', ''))
        more, _ = self.serve([call(3, far), day, queue('deskthree')])
        self.check('an area is new', [it[1] for it in served + more][1::2], [409, 200, 200])
        self.leads_to_the_room('a zone', 6)
        status, out, err = replay(self.fresh(), self.list.read_bytes(), '--answers')
        self.check('answers', (status, err), (0, ''))
        self.check('the same answers', out.count(b'answer '), 6)
        self.check('the zone', sql(self.again, 'SELECT zone FROM meta'), 'JST-9\n')


class Found(ChangesTestCase):
    """Rows that are none of a change, and changes that do not fit their room, are found."""

    def setUp(self):
        super().setUp()
        self.serve([call(1)])
        self.first = bodies(self.list.read_bytes())[:-1]

    def refused(self, what, lines, report, room=None):
        text = chain([*self.first, *map(row, lines), head_of(room or self.before)])
        status, out, err = replay(self.fresh(), text)
        self.check(what, (status, out, report in err), (1, b'', True))

    def test_none(self):
        for what, lines in [('another header', ['terminal;token', 'desk:1,newone11']),
                            ('no header', ['desk:1,newone11']),
                            ('an empty line', ['']),
                            ('another who', [HEADER, 'desk:01,newone11']),
                            ('nobody', [HEADER, 'table:1,newone11']),
                            ('a short token', [HEADER, 'desk:1,short']),
                            ('a third field', [HEADER, 'desk:1,newone11,']),
                            ('an empty line behind', [HEADER, 'desk:1,newone11', '']),
                            ('one without a token', [HEADER, 'desk:1,', 'desk:2,newtwo22']),
                            ('two without a token', [HEADER, 'desk:1,', 'desk:2,']),
                            ('a plan without areas', [PLAN_HEAD, LONDON]),
                            ('a bad plan', [PLAN_HEAD, 'zone,0,Nowhere/None,,,', WEST, EAST])]:
            self.refused(what, lines, 'record 2')

    def test_not_allowed(self):
        for what, lines in [('no vehicle', [HEADER, 'crew:Z9,newofz99']),
                            ('no division', [HEADER, 'desk:9,newnine9']),
                            ('taken', [HEADER, 'desk:1,crewofa1']),
                            ('has none', [HEADER, 'position:55,']),
                            ('a crew', [HEADER, 'crew:A1,']),
                            ('no division there', [PLAN_HEAD, LONDON, WEST])]:
            self.refused(what, lines, 'another room at record 2')

    def test_another_head(self):
        """A change that leads to another room than its head says."""
        self.refused('another', [HEADER, 'desk:1,newone11'], 'another room at record 2')

    def test_there(self):
        """Where the room has the head's digest, a change did not happen."""
        for lines in [[HEADER, 'desk:1,newone11'], [HEADER, 'desk:1,'], [HEADER, 'desk:9,newnine9'],
                      [PLAN_HEAD, TOKYO, WEST, EAST]]:
            text = chain([*self.first, *map(row, lines), head_of(self.room)])
            self.check(str(lines), replay(self.fresh(), text), (0, b'replayed 1\n', ''))
            self.check(f'{lines}: the room', rows_of(self.again), rows_of(self.room))

    def test_part(self):
        """Of a change that was stopped between its rows nothing is made, whatever these are."""
        plan = [PLAN_HEAD, TOKYO, WEST, EAST]
        fleet = fleet_of('A1,1,1,TQ303804,"newofa11').splitlines()
        for lines in [plan[:1], plan[:2], plan[:3], [HEADER], [HEADER, 'desk:1,newone11'], fleet]:
            text = chain([*self.first, *map(row, lines), head_of(self.room)])
            self.check(str(lines), replay(self.fresh(), text), (0, b'replayed 1\n', ''))
            self.check(f'{lines}: the room', rows_of(self.again), rows_of(self.room))

    def test_end(self):
        """A list that ends with a change leaves it out, and says so."""
        for lines in [[HEADER, 'desk:1,newone11'], [PLAN_HEAD, TOKYO, WEST, EAST]]:
            text = chain([*self.first, *map(row, lines)])
            status, out, err = replay(self.fresh(), text)
            self.check(str(lines), (status, out, 'was left out' in err), (0, b'replayed 1\n', True))
            self.check(f'{lines}: the room', rows_of(self.again), rows_of(self.room))


class Unkept(NoList, ChangesTestCase):
    """Where the list can't be kept, nothing is changed."""

    def refused(self, what, path, status=6, report='journal\n'):
        plan = self.file('plan', text_of(PLAN_HEAD, TOKYO, WEST, EAST, 'desk,1,newone11,,,'))
        before = rows_of(self.room)
        for words in [('terminals', '--new', 'desk:1'), ('terminals', '--revoke', 'desk:1'),
                      ('terminals', '--from', plan), ('replan', plan)]:
            done = run(words[0], self.room, *words[1:], '--journal', path)
            it = f'{what}: {words[:2]}'
            self.check(it, (done[0], done[1], report in done[2]), (status, '', True))
            self.check(f'{it}: the room', rows_of(self.room), before)

    def test_a_long_line(self):
        """What stands before a line that is too long stays in the list, and is passed over."""
        self.serve([call(1)])
        before = rows_of(self.room)
        far = FAR.replace('3', f'{"0" * 9300}3', 1)
        plan = self.file('plan', text_of(PLAN_HEAD, TOKYO, WEST, EAST, far))
        self.check('too long', self.changes('replan', plan), (6, '', 'journal\n'))
        self.check('the room', rows_of(self.room), before)
        self.check('what is kept', bodies(self.list.read_bytes())[-1], row(EAST))
        self.serve([call(2)])
        self.leads_to_the_room('a long line', 2)
        self.check('without it', run('replan', self.room, plan), (0, 'replanned\n', ''))

    def test_first_version(self):
        self.serve([queue('deskone1')])
        first = b''.join(it for it in bodies(self.list.read_bytes()) if it != b'end\n')
        self.list.write_bytes(first)
        self.refused('version 1', self.list)
        self.check('it stays', self.list.read_bytes(), first)

    def test_in_use(self):
        other = made(self.folder / 'other.db', CREW)
        with serving(other, 1, *PATIENT, '--journal', str(self.list)):
            self.refused('a list in use', self.list)

    def test_names(self):
        for end in ['-journal', '-wal', '-shm']:
            self.refused(end, f'{self.room}{end}', 2, 'uses a file of this name')

    def test_no_change(self):
        """Who lists terminals changes nothing that could be kept."""
        status, out, err = self.changes('terminals')
        self.check('a list', (status, out, '--journal <LIST>' in err), (2, '', True))
        self.check('no file', self.list.exists(), False)


class Stopped(PreloadedTestCase):
    """Wherever a change is stopped, or a sync of its list fails, the copy and the list give the
    room that the next start finds."""

    PLAN = text_of(PLAN_HEAD, TOKYO, WEST, EAST, FAR, 'desk,1,newone11,,,')

    def setUp(self):
        super().setUp()
        self.before = made(self.folder / 'before.db', CREW)
        self.plan = self.folder / 'next.csv'
        self.plan.write_text(self.PLAN)

    def changes(self, switches, words):
        file = self.fresh(self.before)
        self.list = file.with_name('room.list')
        status, *_ = self.program.run(switches, words[0], file, *words[1:], '--journal', self.list)
        return file, status

    def leads_to(self, file):
        """The next start finds a room to which the copy and the list lead; whether it is
        changed."""
        _, status, report = self.program.serve({}, file, queue('desktwo2'), '--journal', self.list)
        self.assertEqual(status, 0, report)
        copy = shutil.copy(self.before, self.folder / 'copy.db')
        status, _, err = replay(copy, self.list.read_bytes())
        self.assertEqual((status, err), (0, ''))
        self.assertEqual(rows_of(copy), rows_of(file))
        return rows_of(file) != rows_of(self.before)

    def test_stops(self):
        for words in [('terminals', '--from', self.plan), ('replan', self.plan),
                      ('terminals', '--revoke', 'desk:1')]:
            self.changes(NEVER_STOPPED | WRITES, words)
            total, met = self.program.total(), set()
            self.check(f'{words[:2]}: files are changed', total > 0, True)
            for at in sampled(total):
                for how in (BEFORE, HALFWAY, MACHINE):
                    with self.subTest(f'{words[:2]}: stopped at {at}, {how}'):
                        file, _ = self.changes(stop(at, how) | WRITES, words)
                        met.add(self.leads_to(file))
            self.check(f'{words[:2]}: done and not done', met, {False, True})

    def test_torn(self):
        """A mark stands beside the list while records are there that need not last: wherever a
        change is stopped, these may be zeros after a power cut, and the next start goes on."""
        words, met = ('replan', self.plan), set()
        self.changes(NEVER_STOPPED | WRITES | NAMES, words)
        for at in sampled(self.program.total()):
            with self.subTest(f'stopped at {at}'):
                file, _ = self.changes(stop(at) | WRITES | NAMES, words)
                met.add(self.tear())
                self.leads_to(file)
        self.check('marked, and not', met, {False, True})

    def tear(self):
        """What stands behind the list's mark becomes zeros; whether anything does. What stands
        before it, and all where there is none, is the whole change or nothing of it."""
        text = self.list.read_bytes() if self.list.exists() else b''
        mark = self.list.with_name('room.list.change')
        size = mark.stat().st_size if mark.exists() else 0
        lasting = text[:size or len(text)]
        rows = len(self.PLAN.splitlines())
        self.assertIn(len(bodies(lasting)), {0, 1 + rows, 2 + rows})
        self.list.write_bytes(lasting + bytes(len(text) - len(lasting)))
        return lasting != text

    def test_syncs(self):
        """The list lasts before anything is changed; where its last head can't be made to, the
        change stays, and the next start says the same."""
        listed = self.fresh().resolve().with_name('room.list')
        changed = []
        for at in range(1, 6):
            file, status = self.changes(sync_fault(at, listed), ('replan', self.plan))
            with self.subTest(f'sync {at}'):
                self.assertEqual(status, 0 if at == 5 else 6)
                changed.append(self.leads_to(file))
        self.check('the start, the first line and the rows come before', changed,
                   3 * [False] + 2 * [True])
