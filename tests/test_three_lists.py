"""The list of three machines: who may write at which place of it, what is no entry, and a list that
went back behind what the rooms have played."""
# needs: etcd-server etcd-client sqlite3
# builds: dispatch_room
import dataclasses
import shutil
import subprocess
import unittest.mock

from listed import ThreeTestCase, call
from room import PATIENCE, message

import comparison
import copies
import entries
import kept_list
from entries import Place, Record

QUESTION = message('deskof01', 'GET /queue')


class Copies(ThreeTestCase):
    def setUp(self):
        super(ThreeTestCase, self).setUp()

    def test_set_aside(self):
        """A copy that is set aside takes no name that another one has."""
        copy = copies.copy_at(self.folder, Place(7, 'a' * 64, 100), 'b' * 64, 'c' * 64)
        name = copy.file.name.replace('copy', 'lost', 1)
        for text in 'one', 'two', 'three':
            copy.file.write_text(text)
            copies.set_aside(copy)
            self.check(f'{text}: it has another name', copy.file.exists(), False)
        self.check('all are there',
                   {it.name: it.read_text() for it in self.folder.glob('lost.*')},
                   {name: 'one', f'{name}.1': 'two', f'{name}.2': 'three'})


class Entries(ThreeTestCase):
    def setUp(self):
        super(ThreeTestCase, self).setUp()

    def test_form(self):
        """An entry is read as it was written, and no other bytes are."""
        place = Place(7, 'a' * 64, 100)
        entry = entries.entry_behind(place, 90, [
            Record('one-1', call(1)), Record('two', call(2))])
        self.check('numbers', (entry.first, entry.number, entry.moment), (8, 9, 100))
        self.check('read again', entries.entry_of(entry.text), entry)
        read = []
        for at in range(len(entry.text)):
            for other in entry.text[at] ^ 1, entry.text[at] ^ 32:
                changed = entry.text[:at] + bytes([other]) + entry.text[at + 1:]
                found = entries.entry_of(changed)
                if found and found.place.digest == entry.place.digest:
                    read.append(changed)
        self.check('another byte is another entry, or none', read, [])
        for it in b'', b'\n', b'entry 2\n', entry.text[:-1], entry.text + b'\n', b'\xff\n' * 3:
            self.check(f'{it[:20]}: none', entries.entry_of(it), None)

    def test_messages(self):
        """Only what a room reads as one whole message is a record."""
        whole = call(1)
        for name, content, wanted in [
                ('whole', whole, True), ('a byte less', whole[:-1], False),
                ('a byte more', whole + b' ', False), ('none', b'', False),
                ('another host', whole.replace(b'Host: room', b'Host: a'), False),
                ('two', whole + whole, False)]:
            self.check(name, Record('a', content).is_whole(), wanted)
        self.check('another kind', Record('a', whole, 'other').is_whole(), False)


class Differences(ThreeTestCase):
    def setUp(self):
        super(ThreeTestCase, self).setUp()
        self.enterContext(unittest.mock.patch.object(comparison, 'WAITS', 0))
        self.it = comparison.Comparison(3)

    def note(self, *noted):
        for it in noted:
            self.it.note(*it)

    def stops(self, silent=()):
        """Whether it stops as the odd one, and whether it takes nothing."""
        text = self.it.judge(set(silent))
        return bool(self.it.odd), bool(text)

    def test_odd(self):
        """One that differs from both others stops, and stays so; it was as they last at 20."""
        self.note((2, 'answers', 20, True), (3, 'answers', 10, True))
        self.check('all are the same', self.stops(), (False, False))
        self.note((2, 'answers', 30, False))
        self.check('it differs from one', self.stops(), (False, True))
        self.note((3, 'answers', 31, False))
        self.check('it is the odd one', self.stops(), (True, True))
        self.check('from where on', self.it.last_agreed(), 20)
        self.note((3, 'answers', 40, True), (2, 'answers', 40, True))
        self.check('and stays it', self.stops(), (True, True))

    def test_last_agreed(self):
        """A copy that is the same shows that all answers before it were."""
        self.note((2, 'answers', 25, True), (2, 'rooms', 30, True))
        self.note((2, 'answers', 33, False), (3, 'answers', 33, False))
        self.check('it is the odd one', self.stops(), (True, True))
        self.check('from where on', self.it.last_agreed(), 30)

    def test_other_is_odd(self):
        """One goes on where the third has the same as it, until then not, unless the other is
        silent; and the other counts again once it has the same."""
        self.note((2, 'answers', 30, False), (3, 'answers', 29, True))
        self.check('the third may be as either', self.stops(), (False, True))
        self.check('the other is silent', self.stops([2]), (False, False))
        self.note((3, 'answers', 30, True))
        self.check('the third is as this one', self.stops(), (False, False))
        self.check('which is known', self.it.first_differing(), {2: (30, 'answers')})
        self.note((2, 'answers', 29, True))
        self.check('the same before shows nothing', 2 in self.it.first_differing(), True)
        self.note((2, 'answers', 35, True))
        self.check('it was begun anew', self.it.first_differing(), {})

    def test_copies(self):
        """A copy that differs shows it too, whatever the answers are."""
        self.note((2, 'answers', 99, True), (3, 'answers', 99, True))
        self.note((2, 'rooms', 30, True), (2, 'rooms', 60, False), (3, 'rooms', 60, False))
        self.check('it is the odd one', self.stops(), (True, True))
        self.check('from where on', self.it.last_agreed(), 30)


class Lists(ThreeTestCase):
    def test_places(self):
        """Who may write at which place of the list."""
        self.machines.start_all()
        self.machines.stop_companions()
        kept = self.machines.list(2)
        begun = kept.entry(0).place
        a, b = (Record(it, call(nth)) for nth, it in enumerate('ab', 1))
        found = kept.keep(begun, 9, [a, b])
        first = found.entries[0]
        self.check('two at the end', (first.number, first.records), (2, (a, b)))
        self.check('a place that is taken', kept.keep(begun, 9, [a]).entries, [first])
        with self.assertRaises(kept_list.Lost):
            kept.keep(Place(2, 'f' * 64, 9), 9, [a])
        with self.assertRaises(kept_list.Lost):
            kept.keep(Place(9, first.place.digest, 9), 9, [a])
        second = kept.keep(first.place, 5, [b]).entries[0]
        self.check('the next, at no earlier moment', (second.number, second.moment), (3, 9))
        revision = kept.read(second.place).revision
        stray = entries.entry_behind(second.place, 9, [a])
        kept.change([], [kept_list.put(kept_list.key_of(4), stray.text)])
        other = entries.entry_behind(second.place, 9, [b])
        asked = kept_list.keeping(second.place, other, revision)
        self.check('nothing over what was put since',
                   kept.member.ask(kept_list.TXN, asked).get('succeeded'), None)
        self.check('it is taken', [kept.read(second.place).entries for _ in range(2)],
                   [[], [stray]])
        kept.drop_before(3)
        self.check('read on', kept.read(first.place).entries, [second, stray])
        with self.assertRaises(kept_list.Lost):
            kept.keep(begun, 9, [a])
        self.check('a list that has gone on is not begun again',
                   kept.begin(entries.first_entry('0' * 64)), None)

    def test_foreign(self):
        """What is no entry is reported and left out by each machine, wherever it stands."""
        self.machines.start_all()
        kept = self.machines.list()
        number, status, _ = self.answered(1, call(1))
        self.check('a call', (number, status), (1, 200))
        entry = kept.entry(1)
        forged = dataclasses.replace(entry, before='0' * 64, number=3)
        foreign = [(kept_list.key_of(2), b'\x00\xff'), (kept_list.key_of(3), forged.text),
                   (f'{kept_list.LIST}zzz', b'stray'), (kept_list.key_of(999_999_999), entry.text)]
        for key, value in foreign:
            kept.change([], [kept_list.put(key, value)])
        kept.change([], [kept_list.put(kept_list.HEAD, b'a head that is none')])
        for serial, it in enumerate([2, 3, 1], 2):
            self.check(f'call {serial}', self.answered(it, call(serial))[1], 200)
        for it in self.machines.machines:
            self.machines.until(lambda: self.machines.health(it).get('foreign', 0) >= 2,
                                f'{it} says what is foreign')
        self.machines.kill('companion', 2)
        self.machines.start('companion', 2)
        self.machines.wait_for(2)
        self.check('a machine starts over it', self.answered(2, QUESTION)[0] >= 4, True)
        self.check('the companions end well', self.machines.stop_companions(), [0, 0, 0])

    def test_foreign_head(self):
        """A head that names what is not there ends no companion: each says so, and one command puts
        it in order."""
        self.machines.start_all()
        number = self.answered(1, call(1))[0]
        kept = self.machines.list()
        kept.change([], [kept_list.put(kept_list.HEAD, f'{number + 5} {"0" * 64}')])
        self.each_refuses('its head names another record')
        self.check('mended', self.machines.companion_does(2, 'mend'),
                   (0, f'the list ends at record {number}, and 0 values are deleted\n'))
        self.machines.wait_for_all()
        self.check('it goes on', self.answered(3, call(2))[:2], (number + 1, 200))
        kept.change([], [kept_list.put(kept_list.HEAD, kept.entry(number).place.text())])
        self.check('a head that went back is mended', self.answered(1, call(3))[:2],
                   (number + 2, 200))
        self.check('the companions end well', self.machines.stop_companions(), [0, 0, 0])

    def each_refuses(self, text):
        for it in self.machines.machines:
            self.machines.until(lambda: text in self.machines.health(it).get('refuses', ''),
                                f'{it} says: {text}')

    def test_entry_without_head(self):
        """An entry behind the last one, whose head was not moved, is taken by all alike."""
        self.machines.start_all()
        number = self.answered(1, call(1))[0]
        kept = self.machines.list()
        entry = entries.entry_behind(kept.entry(number).place, 0, [Record('stray', call(2))])
        kept.change([], [kept_list.put(kept_list.key_of(number + 1), entry.text)])
        for serial, it in enumerate([2, 3, 1], 3):
            self.check(f'call {serial}', self.answered(it, call(serial))[:2], (serial, 200))
        last = self.level()
        self.check('the companions end well', self.machines.stop_companions(), [0, 0, 0])
        self.check('all have it', [self.newest(it).number for it in self.machines.machines],
                   [last] * 3)
        self.check('and are one room', len({self.newest(it).room
                                            for it in self.machines.machines}), 1)

    def test_entry_deleted(self):
        """A machine that needs an entry that was deleted says so, and gets a copy of another; where
        all need it, one command ends the list before it."""
        self.machines.start_all()
        self.machines.kill('companion', 3)
        for it in range(1, 7):
            self.answered(1, call(it))
        kept = self.machines.list()
        kept.change([], [kept_list.delete(kept_list.span(kept_list.key_of(4)))])
        self.machines.start('companion', 3)
        gone = 'record 4 of the list is gone'
        self.machines.until(lambda: gone in self.machines.health(3).get('refuses', ''), gone)
        self.check('others go on', self.answered(2, call(7))[:2], (7, 200))
        # (a machine reports each second what it has played)
        self.machines.until(lambda: 'has played 7: bring'
                            in self.machines.companion_does(1, 'mend')[1],
                            'their records are not dropped')
        self.check('machine 2 ends with a copy', self.machines.stop_companions(2), [0])
        self.machines.kill('companion', 3)
        copy = self.newest(2).file
        shutil.copy(copy, self.machines.machines[3].folder / 'room' / copy.name)
        for it in 2, 3:
            self.machines.start('companion', it)
            self.machines.wait_for(it)
        self.check('it has all', self.answered(3, QUESTION)[0], 7)
        self.start_from_oldest_copy()
        self.each_refuses(gone)
        self.machines.until(lambda: self.machines.companion_does(1, 'mend')[0] == 0, 'it is mended')
        self.machines.wait_for_all()
        self.check('the list ends before it', self.answered(2, call(8))[:2], (4, 200))

    def start_from_oldest_copy(self):
        """Starts all companions from the oldest copy that machine 1 has."""
        for it in self.machines.machines:
            self.machines.end('companion', it)
        folders = [it.folder / 'room' for it in self.machines.machines.values()]
        *newer, oldest = copies.copies_in(folders[0])
        for it in newer:
            it.file.unlink()
        for it in folders[1:]:
            shutil.rmtree(it)
            it.mkdir()
            shutil.copy(oldest.file, it / oldest.file.name)
        for it in self.machines.machines:
            self.machines.start('companion', it)

    def test_went_back(self):
        """Where etcd is restored from yesterday, a room that has played more stops, says so, and is
        made anew from a copy that is in the list."""
        self.machines.copy_every = 2
        self.machines.start_all()
        for it in 1, 2, 3:
            self.answered(1, call(it))
        last = self.level()
        saved = self.folder / 'saved'
        self.etcdctl(1, 'snapshot', 'save', saved)
        for it in 4, 5, 6:
            self.check(f'call {it}', self.answered(2, call(it))[1], 200)
        self.copied(self.level() - 1)
        self.restore(saved)
        for it in self.machines.machines:
            status = self.machines.ended(it)
            self.check(f'machine {it} stops', status, 3)
        report = f'the list went back: it ends at record {last}, and this room has played'
        self.check('and says so', report in self.machines.said(), True)
        for it in self.machines.machines:
            self.machines.start('companion', it)
        for it in self.machines.machines:
            self.machines.wait_for(it)
        self.check('it goes on from there', self.answered(2, call(7))[0] > last, True)
        self.level()
        folder = self.machines.machines[1].folder / 'room'
        self.check('what was lost is kept aside', len(list(folder.glob('lost.*'))) > 0, True)
        self.check('the companions end well', self.machines.stop_companions(), [0, 0, 0])
        self.check('the copies are the new list', {self.newest(it).digest
                   for it in self.machines.machines}, {self.newest(1).digest})

    def test_no_copy(self):
        """A machine none of whose copies is in the list says so, touches nothing, and goes on once
        it has one."""
        self.machines.start_all()
        self.machines.stop_companions()
        folder = self.machines.machines[1].folder / 'room'
        copy = copies.copies_in(folder)[0]
        other = copies.copy_at(folder, Place(copy.number + 5, copy.digest), copy.answers, copy.room)
        copy.file.rename(other.file)
        self.machines.start('companion', 1)
        self.machines.until(lambda: 'bring a copy of another machine'
                            in self.machines.health(1).get('refuses', ''), 'it says so')
        self.check('the copy is there', [it.file for it in copies.copies_in(folder)], [other.file])
        other.file.rename(copy.file)
        self.machines.start('companion', 2)
        self.machines.wait_for(1)

    def etcdctl(self, number, *words):
        command = ['etcdctl', '--endpoints', self.machines.machines[number].etcd,
                   *(f'--{it}-timeout={PATIENCE:.0f}s' for it in ('dial', 'command')), *words]
        subprocess.run(command, check=True, capture_output=True, env={'ETCDCTL_API': '3',
                       'PATH': '/usr/bin:/bin'})

    def restore(self, saved):
        """Restores all members from what was saved, while companions run."""
        for it in self.machines.machines:
            self.machines.kill('member', it)
        for it, machine in self.machines.machines.items():
            shutil.rmtree(machine.folder / 'etcd')
            values = machine.settings()
            self.etcdctl(it, 'snapshot', 'restore', saved, '--skip-hash-check=false',
                         *(f'--{name}={values[name]}' for name in (
                             'name', 'data-dir', 'initial-cluster', 'initial-cluster-token',
                             'initial-advertise-peer-urls')))
        self.machines.start_members()
