"""What a power cut leaves of a change that a list was to keep: behind as many bytes as the mark
beside the list has, any of its blocks may be new and others zeros or old ones. Whoever opens the
list to write sets that aside, and goes on behind those bytes. Where they are not whole records, or
there is no mark, the list stays as it is; where it is whole, it goes on behind its end."""
# needs: python3
# builds: dispatch_room
import random
import shutil

from journals import (CREW, OPENING, QUEUE, JournalTestCase, bodies, chain, ends, head_of, replay,
                      verify)
from room import PATIENT, call, dump, fleet_of, free_port, run

import digest

PAGE, SECTOR = 4096, 512
ROWS = [f'X{it},1,1,TQ303804,crewofx{it:03}' for it in range(250)]


def pages(text, size, start):
    """A text that stands from a byte of a file on, by the blocks of the file."""
    edges = [0, *range(size - start % size, len(text), size), len(text)]
    return [text[at:end] for at, end in zip(edges, edges[1:])]


def blank(text, size, start, lost):
    """The text with zeros in place of these of its blocks."""
    return b''.join(bytes(len(it)) if nth in lost else it
                    for nth, it in enumerate(pages(text, size, start)))


class MarkedChanges(JournalTestCase):
    def setUp(self):
        super().setUp()
        self.before = self.copy()
        self.serve([call(1), QUEUE])
        self.lasting = self.list.read_bytes()
        self.fleet = self.folder / 'fleet.csv'
        self.fleet.write_text(fleet_of(CREW, *ROWS))
        rows = [f'row {it}\n'.encode() for it in self.fleet.read_text().splitlines()]
        self.whole = chain([*bodies(self.lasting), head_of(self.room), *rows])
        self.assertEqual(self.whole[:len(self.lasting)], self.lasting)
        self.change = self.whole[len(self.lasting):]
        self.mark = self.folder / 'room.list.change'
        self.same = self.folder / 'same.csv'
        self.same.write_text(fleet_of(CREW))

    def torn(self):
        """What may stand where the change was to stand."""
        text, start = self.change, len(self.lasting)
        count = len(pages(text, PAGE, start))
        assert count > 5, count
        yield 'zeros', bytes(len(text))
        yield 'fewer zeros', bytes(100)
        yield 'one zero', bytes(1)
        for nth in (1, 2, 5):
            at = ends(self.whole)[len(bodies(self.lasting)) + nth] - start
            yield f'{nth} records and zeros', text[:at] + bytes(len(text) - at)
            yield f'{nth} records, a line, and zeros', text[:at + 80] + bytes(999)
        for lost in ({0}, {1}, {2, 3}, {count - 2}, {0, count - 1}):
            yield f'without blocks {lost}', blank(text, PAGE, start, lost)
        old = chain(3 * bodies(self.lasting))
        yield 'an old block', b''.join(
            (9 * old)[:len(it)] if nth == 1 else it
            for nth, it in enumerate(pages(text, PAGE, start)))
        yield 'an old list', old
        yield 'without its first record', text[ends(self.whole)[len(bodies(self.lasting)) + 1]
                                               - start:]
        for seed in range(4):
            some = random.Random(seed)
            lost = {it for it in range(len(text)) if some.random() < 0.5}
            yield f'any sectors by {seed}', blank(text, SECTOR, start, lost)
            yield f'any bytes by {seed}', some.randbytes(5000)

    def put(self, text, marked=None):
        """A list of this text, and a mark of so many bytes beside it."""
        for it in self.folder.glob('room.list*'):
            it.unlink()
        self.list.write_bytes(text)
        if marked is not None:
            with self.mark.open('wb') as mark:
                mark.truncate(marked)

    def opened(self):
        """Opens the list to write, as an import does that changes nothing; the status, what was
        reported, what stands in the list then, and what lies beside it."""
        status, _, err = run('import', self.room, self.same, '--journal', self.list)
        beside = {it.name: it.read_bytes() for it in sorted(self.folder.glob('room.list.*'))}
        return status, err, self.list.read_bytes(), beside

    def stays(self, what, text, marked=None):
        """Such a list is refused, and stays as it is, with its mark."""
        self.put(text, marked)
        before = {'room.list.change': bytes(marked)} if marked is not None else {}
        status, _, now, beside = self.opened()
        with self.subTest(what):
            self.assertEqual((status, now == text, beside == before), (6, True, True))

    def is_whole(self, what):
        """The list is one, and over the copy of before it leads to the room."""
        self.check(f'{what}: a list', verify(self.list)[0], 0)
        again = shutil.copy(self.before, self.folder / 'again.db')
        status, _, err = replay(again, self.list.read_bytes())
        self.check(f'{what}: it is replayed', (status, err), (0, ''))
        self.check(f'{what}: the digest', digest.of_file(again), digest.of_file(self.room))

    def test_torn(self):
        """It is set aside, whatever it is, and the list goes on behind what lasted."""
        for what, rest in self.torn():
            self.put(self.lasting + rest, len(self.lasting))
            status, err, now, beside = self.opened()
            with self.subTest(what):
                self.assertEqual((status, now.startswith(self.lasting)), (0, True))
                self.assertEqual(list(beside), ['room.list.cut.1'])
                self.assertEqual(beside['room.list.cut.1'] == rest, True)
                self.assertIn('journal: a change that was not made is set aside as '
                              f'{self.list}.cut.1\n', err)
            self.is_whole(what)

    def test_each_command(self):
        """Whoever opens it does so: then the service goes on, and the change can be made."""
        plan = self.folder / 'next.csv'
        plan.write_text('what,number,a,b,c,d\nzone,0,JST-9,,,\n'
                        'area,1,500000,100000,549999,199999\narea,2,550000,100000,599999,199999\n')
        rest = blank(self.change, PAGE, len(self.lasting), {1})
        for words in [('import', self.room, self.fleet), ('replan', self.room, plan),
                      ('terminals', self.room, '--revoke', 'position:1')]:
            shutil.copy(self.before, self.room)
            self.list.unlink()
            self.serve([call(1), QUEUE])
            self.put(self.list.read_bytes() + rest, self.list.stat().st_size)
            self.check(words[0], run(*words, '--journal', self.list)[0], 0)
            self.check(f'{words[0]}: it is set aside',
                       self.list.with_name('room.list.cut.1').read_bytes() == rest, True)
            self.check(f'{words[0]}: no mark is left', self.mark.exists(), False)
            self.is_whole(words[0])

    def test_start(self):
        rest = blank(self.change, PAGE, len(self.lasting), {0})
        self.put(self.lasting + rest, len(self.lasting))
        served, err = self.serve([call(2), QUEUE])
        self.check('it is served', [it[1] for it in served], [200, 200])
        self.check('that is reported', 'a change that was not made is set aside' in err, True)
        self.check('no mark is left', self.mark.exists(), False)
        self.is_whole('a start')
        self.check('the import', run('import', self.room, self.fleet, '--journal', self.list)[0], 0)
        self.is_whole('an import')

    def test_link(self):
        """The mark lies beside the list, whatever link leads to it."""
        rest = blank(self.change, PAGE, len(self.lasting), {1})
        self.put(self.lasting + rest, len(self.lasting))
        (self.folder / 'links').mkdir()
        link = self.folder / 'links' / 'other.list'
        link.symlink_to(self.list)
        status, *_ = run('import', self.room, self.same, '--journal', link)
        self.check('it is opened', (status, self.mark.exists()), (0, False))
        self.check('and goes on', self.list.read_bytes().startswith(self.lasting), True)
        self.is_whole('a link')

    def test_no_mark(self):
        """Without a mark it is refused, and stays as it is, with all that stands behind it."""
        for what, rest in self.torn():
            self.stays(what, self.lasting + rest)
        self.put(self.lasting + bytes(99))
        address = f'127.0.0.1:{free_port()}'
        self.check('a start', run('serve', self.room, address, '--journal', self.list, *PATIENT)[0],
                   6)

    def test_other_marks(self):
        """A mark that says another length than that of whole records says nothing."""
        rest = blank(self.change, PAGE, len(self.lasting), {1})
        text, last = self.lasting + rest, len(self.lasting)
        for marked in (0, 1, 7 - 1, last - 1, last + 1, len(text) - 1, len(text), len(text) + 1):
            self.stays(f'a mark of {marked}', text, marked)

    def test_turned(self):
        """Where a byte of what lasted is another, none of it is taken away."""
        rest = blank(self.change, PAGE, len(self.lasting), {1})
        for at in range(0, len(self.lasting), 7):
            text = bytearray(self.lasting + rest)
            text[at] ^= 1 << at % 8
            if at >= 7:  # (else it is no chain, but left of another list)
                self.stays(f'byte {at}', bytes(text), len(self.lasting))

    def test_whole(self):
        """Where a stop left the mark, and all is whole, or but one record, only that is cut off."""
        for what, more in {'nothing': b'', 'all': self.change,
                           'some': self.whole[len(self.lasting):ends(self.whole)[-9]]}.items():
            self.put(self.lasting + more, len(self.lasting))
            status, err, now, beside = self.opened()
            with self.subTest(what):
                self.assertEqual((status, err, beside), (0, '', {}))
                self.assertEqual(now.startswith(self.lasting + more), True)
            self.put(self.lasting + more + b'0007', len(self.lasting))
            status, err, now, beside = self.opened()
            with self.subTest(f'{what}, and a part'):
                self.assertEqual((status, beside), (0, {'room.list.cut.1': b'0007'}))
                self.assertIn('a record that was cut off is set aside', err)
                self.assertEqual(now.startswith(self.lasting + more), True)

    def test_new_list(self):
        """A mark beside a list that is not begun, or is another one, is taken away."""
        for what, text in {'an empty list': b'', 'a part of a line': b'list',
                           'a shorter list': self.lasting[:ends(self.lasting)[1]]}.items():
            self.put(text, len(self.lasting))
            status, _, now, _ = self.opened()
            self.check(what, (status, self.mark.exists()), (0, False))
            self.check(f'{what}: a list', (verify(self.list)[0], now.startswith(text)), (0, True))
        self.put(OPENING + bytes(999), len(OPENING))
        status, _, now, beside = self.opened()
        self.check('a list without a record', (status, beside),
                   (0, {'room.list.cut.1': bytes(999)}))
        self.check('it goes on', (verify(self.list)[0], now.startswith(OPENING)), (0, True))

    def test_unmarked(self):
        """Where no mark can be made, nothing is kept, and nothing is changed."""
        before = dump(self.room)
        self.put(self.lasting)
        self.mark.mkdir()
        status, out, _ = run('import', self.room, self.fleet, '--journal', self.list)
        self.check('a folder is there', (status, out), (6, ''))
        self.check('the list', self.list.read_bytes(), self.lasting)
        self.check('the room', dump(self.room) == before, True)
        self.mark.rmdir()
