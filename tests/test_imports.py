"""Imports that are kept in a list. The list has where the room was, the lines of the fleet's file,
and where the room is then; over a room that stands where the list begins a replay gives the room
again, also where an import was stopped in between, and whatever was refused is refused again. What
changed in its rows is found, and a list that ends with a fleet leaves it out."""
# needs: python3 gcc libc6-dev sqlite3
# builds: dispatch_room
import shutil

from journals import (CREW, CUT, QUEUE, JournalTestCase, NoList, bodies, chain, head_of, pieces,
                      plain, replay, verify)
from preloaded import (BEFORE, HALFWAY, MACHINE, NEVER_STOPPED, WRITES, PreloadedTestCase, sampled,
                       stop, sync_fault)
from room import PATIENT, call, dump, fleet_of, made, message, run, serving, sql

import digest

HEADER = 'callsign,division,kind,place,token'
B1 = 'B1,2,2,TQ600800,crewofb1'
C1 = 'C1,1,1,TQ303804,crewofc1'
UNTIL = 4_000_000_000


def duty(callsign):
    return message('deskone1', f'POST /vehicles/{callsign}/duty',
                   f'{{"place":"TQ303804","until":{UNTIL}}}')


def rows_in(text):
    """The lines of fleets in a list."""
    return [it[4:].decode() for it in bodies(text) if it.startswith(b'row ')]


def is_cut(text):
    """Whether a list ends within a record, or within its first line."""
    at = len(b'list 2\n')
    while at + 71 <= len(text) and at + 71 + int(text[at:at + 5]) <= len(text):
        at += 71 + int(text[at:at + 5])
    return text != b'' and at != len(text)


class ImportsTestCase(JournalTestCase):
    def setUp(self):
        super().setUp()
        self.before = self.copy()

    def imports(self, *rows, words=(), text=None):
        """Imports rows, or a text, and keeps them in the list; its status, what it printed, and
        what it reported."""
        fleet = self.folder / 'next.csv'
        fleet.write_bytes(fleet_of(*rows).encode() if text is None else text)
        return run('import', self.room, fleet, '--journal', self.list, *words)

    def fresh(self):
        self.again = shutil.copy(self.before, self.folder / 'again.db')
        return self.again

    def leads_to_the_room(self, what, text=None):
        """Over the copy of before the list leads to the room, row by row."""
        text = self.list.read_bytes() if text is None else text
        status, out, err = replay(self.fresh(), text)
        self.check(f'{what}: it is replayed', (status, err), (0, ''))
        self.check(f'{what}: its messages', out, b'replayed %d\n' % plain(text).count(b'message '))
        self.check(f'{what}: the digest', digest.of_file(self.again), digest.of_file(self.room))
        self.check(f'{what}: the room', dump(self.again), dump(self.room))


class Kept(ImportsTestCase):
    """What is kept, and what it leads to."""

    def test_records(self):
        report = self.imports(B1, C1)
        self.check('as an import reports', report, (0, 'B1 added\nC1 added\n', ''))
        wanted = [head_of(self.before), f'row {HEADER}\n'.encode(), f'row {B1}\n'.encode(),
                  f'row {C1}\n'.encode(), head_of(self.room)]
        self.check('its records', bodies(self.list.read_bytes()), wanted)
        self.check('its text', self.list.read_bytes(), chain(wanted))
        self.check('it is a list', verify(self.list), (0, 'verified 0\nnot ended\n', ''))
        self.leads_to_the_room('one import')

    def test_between_services(self):
        """Whoever has the list has the room: what a vehicle does that was enrolled in between."""
        self.serve([call(1), duty('A1')])
        self.imports(C1)
        self.serve([duty('C1'), message('deskone1', 'POST /incidents/1/mobilise',
                                        '{"vehicle":"C1"}')])
        self.imports(B1)
        self.serve([QUEUE])
        self.check('C1 is on its way', sql(self.room, "SELECT count(*) FROM assignments "
                                                      "WHERE callsign = 'C1'"), '1\n')
        self.leads_to_the_room('imports between services')
        out = verify(self.list)[1].splitlines()
        self.check('its messages', (out[0], out[-1]), ('verified 5', 'ended'))
        text = self.list.read_bytes()
        for words, more in [(('--answers',), None), (('--digest',), 'digest'),
                            (('--open',), 'replayed')]:
            status, out, err = replay(self.fresh(), text, *words)
            self.check(f'{words}', (status, err), (0, ''))
            self.check(f'{words}: the room', dump(self.again), dump(self.room))
            if more:
                self.check(f'{words}: what is printed', out.split()[-2].decode(), more)
            else:
                self.check(f'{words}: what is printed', out.count(b'HTTP/1.1'), 5)

    def test_what_is_refused(self):
        """Bad rows, and those that are refused, are so again: they change nothing."""
        rows = ['a7,1,1,TQ303804,crewofa7', 'A1,1,2,TQ303804,crewofa1', CREW,
                'C1,1,1,TQ303804,crewofa1', 'C2,9,1,TQ303804,crewofc2', C1, C1, B1]
        report = self.imports(*rows)
        self.check('in part', report[0], 1)
        wanted = [f'{it}\n' for it in [HEADER, *rows]]
        self.check('its rows', rows_in(self.list.read_bytes()), wanted)
        self.leads_to_the_room('rows that are refused')
        self.check('its vehicles', sql(self.again, 'SELECT callsign FROM vehicles ORDER BY 1'),
                   'A1\nB1\nC1\n')
        self.check('again', self.imports(*rows)[0], 1)
        self.leads_to_the_room('the same once more')

    def test_texts(self):
        """The lines of a file as it has them: other line ends, quotes, empty ones, no last end."""
        for what, text in [('no last line end', f'{HEADER}\n{B1}'),
                           ('other line ends', f'{HEADER}\r\n{C1}\r\n'),
                           ('empty lines', f'{HEADER}\n\n\n"C3",1,1,TQ303804,crewofc3\n\n'),
                           ('a line end in quotes', f'{HEADER}\n"C\n4",1,1,TQ303804,crewofc4\n'
                                                    'C5,1,1,TQ303804,crewofc5\n'),
                           ('only a header', f'{HEADER}\n')]:
            status, _, err = self.imports(text=text.encode())
            self.check(what, (status, err), (1 if 'quotes' in what else 0, ''))
            self.leads_to_the_room(what)
        self.check('its vehicles', sql(self.again, 'SELECT callsign FROM vehicles ORDER BY 1'),
                   'A1\nB1\nC1\nC3\nC5\n')

    def test_as_ever(self):
        """Without a list an import is what it was, and no file is made."""
        fleet = self.folder / 'next.csv'
        fleet.write_text(fleet_of(B1, CREW))
        before = sorted(self.folder.iterdir())
        self.check('an import', run('import', self.room, fleet), (0, 'B1 added\nA1 same\n', ''))
        self.check('its files', sorted(self.folder.iterdir()), before)
        beside = shutil.copy(self.before, self.folder / 'beside.db')
        run('import', beside, fleet, '--journal', self.list)
        self.check('the same room', dump(beside), dump(self.room))

    def test_until(self):
        """Rows behind the first later message are not enrolled, and those before it are."""
        self.serve([call(1)])
        self.imports(C1)
        self.serve([call(2)])
        self.imports(B1)
        found = bodies(self.list.read_bytes())
        moments = iter([1_000_000_000, 1_000_000_100])
        for nth, it in enumerate(found):
            if it.startswith(b'message '):
                word, _, size = it.split(b'\n', 1)[0].split(b' ')
                rest = it.split(b'\n', 1)[1]
                found[nth] = b'%s %d %s\n' % (word, next(moments), size) + rest
        # of the heads only the first is of a room that these moments lead to
        text = chain(found[:found.index(f'row {HEADER}\n'.encode()) - 1])
        status, _, err = replay(self.fresh(), text, '--until', '1000000050')
        self.check('before the rows', (status, err), (0, ''))
        first = head_of(self.again)
        run('import', self.again, self.fleet('C1', C1))
        second = head_of(self.again)
        wanted = dump(self.again)
        late = b'message 1000000100 %d\n' % len(call(2)) + call(2) + b'\n'
        rows = [f'row {it}\n'.encode() for it in (HEADER, C1)]
        more = [f'row {it}\n'.encode() for it in (HEADER, B1)]
        kept = found[:found.index(f'row {HEADER}\n'.encode()) - 1]
        text = chain([*kept, first, *rows, second, late, b'answer 200\n', second, *more, second])
        status, out, err = replay(self.fresh(), text, '--until', '1000000050')
        self.check('until', (status, out, err), (0, b'replayed 1\n', ''))
        self.check('until: the room', dump(self.again), wanted)

    def fleet(self, name, *rows):
        file = self.folder / f'{name}.csv'
        file.write_text(fleet_of(*rows))
        return file


class Changed(ImportsTestCase):
    """What changed in a list with a fleet, or was lost from it, is found."""

    def setUp(self):
        super().setUp()
        self.serve([call(1)])
        self.imports(C1)
        self.serve([QUEUE])
        self.text = self.list.read_bytes()
        self.pieces = pieces(self.text)
        self.rows = [nth for nth, it in enumerate(self.pieces) if it[71:75] == b'row ']

    def refused(self, what, text):
        self.list.write_bytes(text)
        status, out, err = verify(self.list)
        with self.subTest(f'{what}: it is found'):
            self.assertEqual((status, out), (1, ''))
            self.assertRegex(err, r'record \d+\n')
        self.unplayed(what, text)

    def unplayed(self, what, text):
        status, out, err = replay(self.fresh(), text)
        with self.subTest(f'{what}: it is not replayed'):
            self.assertEqual((status, out), (1, b''))
            self.assertRegex(err, r'record \d+\n')

    def test_each_byte(self):
        at = len(b'list 2\n') + sum(map(len, self.pieces[:self.rows[0]]))
        end = at + sum(len(it) for it in self.pieces[self.rows[0]:self.rows[-1] + 2])
        self.check('its rows', self.text[at + 71:at + 75], b'row ')
        for byte in range(at, end):
            changed = bytearray(self.text)
            changed[byte] ^= 1 << byte % 8
            self.unplayed(f'byte {byte}', bytes(changed))

    def test_each_record(self):
        for nth in range(len(self.pieces) - 1):
            lost = b''.join(self.pieces[:nth] + self.pieces[nth + 1:])
            self.refused(f'record {nth} lost', b'list 2\n' + lost)
            twice = b''.join(self.pieces[:nth + 1] + self.pieces[nth:])
            self.refused(f'record {nth} twice', b'list 2\n' + twice)

    def test_cut(self):
        """Cut behind the rows, the list leaves them out and says so; cut within a record it is
        none, or where it may be open, the rows are left out until the head behind them is whole."""
        first = self.rows[0]
        begin = len(b'list 2\n') + sum(map(len, self.pieces[:first]))
        end = begin + sum(len(self.pieces[nth]) for nth in self.rows)
        status, out, err = replay(self.fresh(), self.text[:begin])
        self.check('before them', (status, out, err), (0, b'replayed 1\n', ''))
        without = dump(self.again)
        ends = {begin}
        for nth in self.rows:
            ends.add(max(ends) + len(self.pieces[nth]))
        headed = end + len(self.pieces[self.rows[-1] + 1])
        places = sorted({*ends, headed})
        within = {it for at, to in zip(places, places[1:])
                  for it in (at + 1, at + 5, at + 70, at + 71, at + 72, to - 1)}
        for at in sorted(ends | within):
            text = self.text[:at]
            status, out, err = replay(self.fresh(), text)
            if at in ends:
                left_out = at > begin
                self.check(f'cut at {at}', (status, out), (0, b'replayed 1\n'))
                self.check(f'cut at {at}: it is reported', 'was left out' in err, left_out)
            else:
                self.check(f'cut at {at}', (status, out), (1, b''))
            status, out, err = replay(self.fresh(), text, '--open')
            self.check(f'open at {at}', (status, out), (0, b'replayed 1\n'))
            self.check(f'open at {at}: the room', dump(self.again), without)
        status, out, err = replay(self.fresh(), self.text[:headed])
        self.check('behind the head', (status, out, err), (0, b'replayed 1\n', ''))
        self.check('behind the head: the room', dump(self.again), dump(self.room))

    def test_heads(self):
        """Rows are enrolled as the head behind them says: none, some of them, or all; behind
        another head the list is of another room."""
        text = chain(bodies(self.text)[:self.rows[0]])
        replay(self.fresh(), text)
        rooms = [shutil.copy(self.again, self.folder / 'none.db')]
        for name, row in [('one', B1), ('two', 'C2,1,1,TQ303804,crewofc2')]:
            fleet = self.folder / f'{name}.csv'
            fleet.write_text(fleet_of(row))
            rooms.append(shutil.copy(rooms[-1], self.folder / f'{name}.db'))
            run('import', rooms[-1], fleet)
        lines = [HEADER, CREW, B1, B1, 'C2,1,1,TQ303804,crewofc2']
        rows = [f'row {it}\n'.encode() for it in lines]
        for room in rooms:
            report = replay(self.fresh(), chain([*bodies(self.text)[:self.rows[0]], *rows,
                                                 head_of(room)]))
            self.check(f'{room.stem}', report, (0, b'replayed 1\n', ''))
            self.check(f'{room.stem}: the room', dump(self.again), dump(room))
        status, out, err = replay(self.fresh(), chain([*bodies(self.text)[:self.rows[0]], *rows,
                                                       head_of(self.before)]))
        self.check('another', (status, out, 'another room at record 2' in err), (1, b'', True))

    def test_no_head(self):
        """Behind rows a list goes on with a head."""
        found = bodies(self.text)
        after = self.rows[-1] + 1
        self.check('a head', found[after][:7], b'room 2 ')
        text = chain(found[:after] + found[after + 2:])
        status, out, err = replay(self.fresh(), text)
        self.check('none', (status, out, 'record 2' in err), (1, b'', True))


class Unkept(NoList, ImportsTestCase):
    """Where the list can't be kept, nothing is enrolled."""

    def refused(self, what, path, status=6, report='journal\n'):
        fleet = self.folder / 'next.csv'
        fleet.write_text(fleet_of(B1))
        before = dump(self.room)
        done = run('import', self.room, fleet, '--journal', path)
        self.check(what, done, (status, '', report))
        self.check(f'{what}: the room', dump(self.room), before)

    def test_first_version(self):
        """A list of version 1 has no fleets, stays as it is, and it is reported what it is."""
        self.serve([QUEUE])
        first = plain(self.list.read_bytes())
        self.list.write_bytes(first)
        self.refused('version 1', self.list)
        self.check('it stays', self.list.read_bytes(), first)
        status, _, err = self.imports(B1, words=['--explain'])
        self.check('it is explained', (status, 'version 1' in err, err.endswith('\njournal\n')),
                   (6, True, True))

    def test_in_use(self):
        other = made(self.folder / 'other.db', CREW)
        with serving(other, 1, *PATIENT, '--journal', str(self.list)):
            self.refused('a list in use', self.list)
        with serving(self.room, 1, *PATIENT):
            fleet = self.folder / 'next.csv'
            fleet.write_text(fleet_of(B1))
            status, *_ = run('import', self.room, fleet, '--journal', self.list)
            self.check('a room in use', status, 3)

    def test_names(self):
        """A list may not have the name of a file that the database uses."""
        fleet = self.folder / 'next.csv'
        fleet.write_text(fleet_of(B1))
        for end in ['-journal', '-wal', '-shm']:
            status, out, err = run('import', self.room, fleet, '--journal', f'{self.room}{end}')
            self.check(end, (status, out, 'uses a file of this name' in err), (2, '', True))

    def test_long_line(self):
        """A line that is longer than a record may be is not kept."""
        text = fleet_of(B1) + f'C9,1,1,{"x" * 20_000},crewofc9\n'
        before = dump(self.room)
        self.check('it is refused', self.imports(text=text.encode()), (6, '', 'journal\n'))
        self.check('the room', dump(self.room), before)
        self.serve([QUEUE])
        self.leads_to_the_room('behind it')


class Stopped(PreloadedTestCase):
    """Wherever an import is stopped, or a sync of its list fails, the copy and the list give the
    room that the next start finds."""

    def setUp(self):
        super().setUp()
        self.before = made(self.folder / 'before.db', CREW)
        self.fleet = self.folder / 'next.csv'
        self.fleet.write_text(fleet_of(B1, CREW, C1))

    def imports(self, switches):
        file = self.fresh(self.before)
        self.list = file.with_name('room.list')
        status, *_ = self.program.run(switches, 'import', file, self.fleet, '--journal', self.list)
        return file, status

    def leads_to(self, file):
        """The next start finds a room to which the copy and the list lead."""
        _, status, report = self.program.serve({}, file, QUEUE, '--journal', self.list)
        self.assertEqual(status, 0, report)
        copy = shutil.copy(self.before, self.folder / 'copy.db')
        status, _, err = replay(copy, self.list.read_bytes())
        self.assertEqual((status, err), (0, ''))
        self.assertEqual(dump(copy), dump(file))
        return sql(file, 'SELECT callsign FROM vehicles ORDER BY 1').split()

    def test_stops(self):
        self.imports(NEVER_STOPPED | WRITES)
        total, met = self.program.total(), set()
        self.check('files are changed', total > 0, True)
        for at in sampled(total):
            for how in (BEFORE, HALFWAY, MACHINE):
                with self.subTest(f'stopped at {at}, {how}'):
                    file, _ = self.imports(stop(at, how) | WRITES)
                    met.add(' '.join(self.leads_to(file)))
        self.check('none, some and all were enrolled', met, {'A1', 'A1 B1', 'A1 B1 C1'})

    def test_done_again(self):
        """An import that was stopped is done again, and the list leads to the room."""
        self.imports(NEVER_STOPPED | WRITES)
        for at in sampled(self.program.total()):
            with self.subTest(f'stopped at {at}'):
                file, _ = self.imports(stop(at) | WRITES)
                cut = self.list.exists() and is_cut(self.list.read_bytes())
                done = self.program.run({}, 'import', file, self.fleet, '--journal', self.list)
                self.assertEqual(done[0], 0)
                self.assertRegex(done[2], CUT if cut else rb'\A\Z')
                self.assertEqual(self.leads_to(file), ['A1', 'B1', 'C1'])

    def test_syncs(self):
        """The list lasts before anything is enrolled; where its last head can't be made to, the
        rows stay, and the next start says the same."""
        listed = self.fresh().resolve().with_name('room.list')
        enrolled = []
        for at in range(1, 6):
            file, status = self.imports(sync_fault(at, listed))
            with self.subTest(f'sync {at}'):
                self.assertEqual(status, 0 if at == 5 else 6)
                enrolled.append(self.leads_to(file))
        self.check('the start, the first line and the rows come before', enrolled,
                   3 * [['A1']] + 2 * [['A1', 'B1', 'C1']])
