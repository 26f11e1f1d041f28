"""Copies without a stop, restores and the weekly new room, from outside: the digest of a file is the
one that Python works out of its tables; the copy of a night has what was answered, however the list
was cut; what can't be trusted is one line with its status; a restore that is stopped before any of
its system calls, and done again, leaves no file, or one of the two rooms whole, and what was there
in its place or aside; and a night takes a fleet and another change of the list with the head behind
it."""
# needs: python3 sqlite3 gcc libc6-dev
# builds: dispatch_room
import hashlib
import itertools
import json
import os
import pathlib
import re
import shutil
import subprocess
import sys
import time

from journals import ends, head_of, records
from preloaded import LAST, NAMES, WRITES, Preloaded, stop
from room import (PATIENT, PLAN, PROGRAM, TOP, TestCase, call, dump, fleet_of, free_port, made,
                  message, run, serving, sql, talk)

sys.path.insert(0, str(TOP / 'examples' / 'three'))
import digest  # noqa: E402

BACKUP = TOP / 'examples' / 'backup'
WEEKLY = TOP / 'examples' / 'weekly'
CREW = 'A1,1,1,TQ303804,crewofa1'
B1 = 'B1,2,2,TQ600800,crewofb1'
C1 = 'C1,1,1,TQ303804,crewofc1'
QUEUE = message('deskone1', 'GET /queue')
REFUSED_FILE = 'refused: file\n'


def call_of(serial):
    """A call at a place of its own."""
    return call(serial, f'TQ3{serial % 100:02}8{serial // 100 % 100:02}')


class CopiesTestCase(TestCase):
    def setUp(self):
        super().setUp()
        self.room = made(self.folder / 'room.db', CREW)
        self.list = self.folder / 'room.list'

    def serve(self, *sent, words=()):
        """Serves the room with a journal to one connection."""
        words = *PATIENT, '--journal', self.list, *words
        with serving(self.room, 1, *map(str, words)) as (port, process):
            talk(port, *sent)
            process.wait(timeout=180)

    def copy(self, name='copy.db'):
        return shutil.copy(self.room, self.folder / name)

    def names(self, start=''):
        return sorted(it.name for it in self.folder.iterdir() if it.name.startswith(start))


class Digests(CopiesTestCase):
    def test_digest(self):
        """It is that of the tables; and the file stays as it is."""
        for change in ['', "UPDATE meta SET zone = 'UTC0'",
                       "UPDATE vehicles SET east = east + 1 WHERE callsign = 'A1'"]:
            sql(self.room, change)
            before = dump(self.room)
            self.check(change or 'as it was made', run('digest', self.room),
                       (0, f'digest {digest.of_file(self.room)}\n', ''))
            self.check(f'{change}: what it holds', dump(self.room), before)

    def test_after_a_day(self):
        self.serve(*[call_of(it) for it in range(1, 40)], QUEUE)
        self.check('after calls', run('digest', self.room),
                   (0, f'digest {digest.of_file(self.room)}\n', ''))

    def test_refused(self):
        none = self.folder / 'none.db'
        self.check('no file', run('digest', none), (1, '', REFUSED_FILE))
        self.check('which is not made', none.exists(), False)
        sql(self.room, 'PRAGMA foreign_keys = 0; DELETE FROM divisions')
        self.check('no room', run('digest', self.room), (1, '', REFUSED_FILE))
        with serving(made(self.folder / 'other.db'), 1):
            self.check('a served one', run('digest', self.folder / 'other.db'),
                       (3, '', 'storage\n'))


def replay(room, text, *words):
    done = subprocess.run([PROGRAM, 'replay', room, *words], input=text, capture_output=True,
                          timeout=180)
    return done.returncode, done.stdout.decode(), done.stderr.decode()


def goes_on(text, bodies):
    """A list of version 2 that goes on with these records, each with the SHA-256 of the check of
    the one before and of itself; at first the check is zeros."""
    places = ends(text)
    check = text[places[-2] + 6:places[-2] + 70] if len(places) > 1 else b'0' * 64
    for body in bodies:
        check = hashlib.sha256(check + body).hexdigest().encode()
        text += b'%05d %s\n' % (len(body), check) + body
    return text


def all_in(room):
    """All rows of a room, whatever their order in its file."""
    return sorted(dump(room).splitlines())


class Open(CopiesTestCase):
    """A list that is still written."""
    REPORTED = 'the last record is cut off, and was left out\n'

    def setUp(self):
        super().setUp()
        self.first = self.copy('first.db')
        self.serve(call_of(1), call_of(2), call_of(3))
        self.text = self.list.read_bytes()

    def played(self, text, *words):
        """A replay over a copy of the first room, and the calls that this has then."""
        copy = shutil.copy(self.first, self.folder / 'copy.db')
        copy.with_name('copy.db-wal').unlink(missing_ok=True)
        done = replay(copy, text, *words)
        return done, sql(copy, 'SELECT count(*) FROM calls').strip()

    def test_whole(self):
        """A whole list is replayed as ever, and the digest printed is that of the tables."""
        (status, out, err), calls = self.played(self.text, '--open', '--digest')
        self.check('a whole list', (status, out, err, calls),
                   (0, f'replayed 3\ndigest {digest.of_file(self.room)}\n', '', '3'))
        self.check('the copy', dump(self.folder / 'copy.db'), dump(self.room))

    def test_cut(self):
        """Wherever a chain is cut, what is whole before is replayed; without the word it is refused
        where the cut is within a record."""
        places = ends(self.text)
        # The head, and then a message and an answer of each call; the last record says `end`.
        for number, (at, end) in enumerate(zip(places, places[1:])):
            whole = min(max(number - 1, 0) // 2, 3)
            cuts = sorted({at + 1, at + 5, at + 70, at + 71, at + 72, end - 1} & set(range(at + 1, end)))
            for cut in cuts:
                done, calls = self.played(self.text[:cut], '--open')
                self.check(f'record {number} at {cut}', (done, calls),
                           ((0, f'replayed {whole}\n', self.REPORTED), str(whole)))
                done, calls = self.played(self.text[:cut])
                self.check(f'by default, {cut}', (done[0], done[2], calls),
                           (1, f'refused: record {whole + 1}\n', str(whole)))

    def test_between(self):
        """Between two records it is a list; a message without a status is left out."""
        for number, end in enumerate(ends(self.text)[1:], 1):
            (status, out, err), calls = self.played(self.text[:end], '--open')
            self.check(f'{number} records', (status, calls), (0, str(min((number - 1) // 2, 3))))
            self.check(f'{number} records: cut', 'cut off' in err, False)

    def test_first_version(self):
        entries = records(self.text)
        text = b''.join(entries)
        last = len(text) - len(entries[-1])
        for cut in range(last + 1, len(text)):
            done, calls = self.played(text[:cut], '--open')
            self.check(f'cut at {cut}', (done, calls), ((0, 'replayed 2\n', self.REPORTED), '2'))

    def test_changed(self):
        """A byte that was changed is no cut, in the last record either, nor what stands behind it."""
        for place in [-1, -3, -40, -69, -80]:
            text = bytearray(self.text)
            text[place] ^= 1
            done, _ = self.played(bytes(text), '--open')
            self.check(f'byte {place}', (done[0], done[2].startswith('refused: record ')), (1, True))
        # A length that announces more than there is can't be distinguished from a cut.
        text = bytearray(self.text)
        text[-72] ^= 1
        done, _ = self.played(bytes(text), '--open')
        self.check('a longer record', done, (0, 'replayed 3\n', self.REPORTED))
        for more in [b'x' * 80, self.text[:90], b'00005 ' + b'0' * 64 + b'\nwhat\n']:
            done, _ = self.played(self.text + more, '--open')
            self.check(f'{more[:7]} behind it', (done[0], done[2]), (1, 'refused: record 4\n'))

    def test_another_room(self):
        shutil.copy(self.room, self.first)
        done, _ = self.played(self.text, '--open', '--digest')
        self.check('another room', done, (1, '', 'refused: another room at record 1\n'))

    def test_answers(self):
        """Where each message is answered, nothing is printed but the answers."""
        one, _ = self.played(self.text, '--answers')
        two, _ = self.played(self.text, '--answers', '--digest', '--open')
        self.check('the same', two, one)
        self.check('answers', one[1].startswith('answer 200 '), True)


class Restores(CopiesTestCase):
    def test_restore(self):
        """A copy in the place of a crashed room, with its log beside it, is the copy's room; what
        was there stays beside it."""
        copy = self.copy('copy.db')
        with serving(self.room, 2) as (port, process):
            talk(port, call_of(1), call_of(2))
            process.kill()
        self.check('the log has something', self.room.with_name('room.db-wal').stat().st_size > 0,
                   True)
        wanted, (status, checked, _) = dump(copy), run('check', copy)
        self.check('restored', run('restore', copy, self.room),
                   (status, f'{checked}set aside: {self.room}.old\n', ''))
        self.check('its digest', run('digest', self.room)[1], f'digest {digest.of_file(copy)}\n')
        self.check('its rows', dump(self.room), wanted)
        self.check('the copy stays', dump(copy), wanted)
        self.check('the mode', self.room.stat().st_mode & 0o777, 0o600)
        self.check('the old room', sql(self.folder / 'room.db.old', 'SELECT count(*) FROM calls'),
                   '2\n')

    def test_where_none_is(self):
        copy, new = self.copy(), self.folder / 'new.db'
        self.check('restored', run('restore', copy, new), run('check', copy))
        self.check('its rows', dump(new), dump(copy))
        self.check('nothing old', self.names('new.db.'), [])

    def test_a_log_alone(self):
        """A log that lies where no file is goes to a name of its own."""
        copy, new = self.copy(), self.folder / 'new.db'
        with serving(self.room, 1) as (port, process):
            talk(port, call_of(1))
            process.wait(timeout=180)
        log = (self.folder / 'room.db-wal').read_bytes()
        (self.folder / 'new.db-wal').write_bytes(log)
        self.check('restored', run('restore', copy, new)[0], 0)
        self.check('its rows', dump(new), dump(copy))
        self.check('the log', (self.folder / 'new.db.old-wal').read_bytes(), log)

    def test_a_rollback_journal(self):
        """A journal of another program beside the file is no hindrance."""
        copy = self.copy()
        self.room.with_name('room.db-journal').write_bytes(b'journal')
        self.check('the room', run('digest', self.room)[0], 3)
        self.check('restored', run('restore', copy, self.room)[0], 0)
        self.check('its digest', run('digest', self.room)[0], 0)

    def aside(self):
        """What is set aside, by its names."""
        return {it.name: it.read_bytes() for it in self.folder.glob('room.db.old*')}

    def serials(self, name):
        """The serials of a room's calls, by a copy of its file and log."""
        for end in '', '-wal':
            shutil.copy(self.folder / f'{name}{end}', self.folder / f'seen.db{end}')
        return sql(self.folder / 'seen.db', 'SELECT serial FROM calls')

    def test_again_and_again(self):
        """What was set aside stays, each under a name of its own; and a room that is the copy's
        already is not set aside."""
        copy = self.copy()
        (self.folder / 'room.db.old.3').write_bytes(b'of another')
        for serial, end in enumerate(['', '.1', '.2', '.4'], 1):
            with serving(self.room, 1) as (port, process):
                talk(port, call_of(serial))
                process.wait(timeout=180)
            before = self.aside()
            self.check(f'{serial}', run('restore', copy, self.room)[1].splitlines()[-1],
                       f'set aside: {self.room}.old{end}')
            self.check(f'{serial}: the room', dump(self.room), dump(copy))
            self.check(f'{serial}: old', self.serials(f'room.db.old{end}'), f'{serial}\n')
            now = self.aside()
            self.check(f'{serial}: what was aside', {it: now[it] for it in before}, before)
            self.check(f'{serial}: again', run('restore', copy, self.room)[1].splitlines()[-1],
                       'in place already: nothing is set aside')
            self.check(f'{serial}: nothing more', self.aside(), now)

    def test_a_name_of_a_log(self):
        """A name is not free where a log lies that would be its file's."""
        copy = self.copy()
        sql(self.room, "UPDATE vehicles SET east = east + 1 WHERE callsign = 'A1'")
        (self.folder / 'room.db.old-wal').write_bytes(b'log')
        self.check('restored', run('restore', copy, self.room)[1].splitlines()[-1],
                   f'set aside: {self.room}.old.1')
        self.check('the log', (self.folder / 'room.db.old-wal').read_bytes(), b'log')
        self.check('no file', (self.folder / 'room.db.old').exists(), False)

    def test_no_name(self):
        """Where no name is free, nothing is changed."""
        copy = self.copy()
        sql(self.room, "UPDATE vehicles SET east = east + 1 WHERE callsign = 'A1'")
        for name in ['room.db.old', *(f'room.db.old.{it}' for it in range(1, 1000))]:
            (self.folder / name).touch()
        before = self.room.read_bytes()
        self.check('not restored', run('restore', copy, self.room)[::2], (3, 'storage\n'))
        self.check('the room', self.room.read_bytes(), before)
        (self.folder / 'room.db.old.999').unlink()
        self.check('restored', run('restore', copy, self.room)[1].splitlines()[-1],
                   f'set aside: {self.room}.old.999')

    def refused(self, what, words, wanted):
        before = {it: it.read_bytes() for it in self.folder.iterdir() if it.is_file()}
        self.check(what, run('restore', *words)[::2], wanted)
        after = {it: it.read_bytes() for it in self.folder.iterdir() if it.is_file()}
        changed = [it.name for it in {*before, *after} if before.get(it) != after.get(it)]
        self.check(f'{what}: what changed', [it for it in changed if not it.endswith('-wal')], [])

    def test_refused(self):
        copy = self.copy()
        none = self.folder / 'none.db'
        self.refused('no copy', [none, self.room], (1, REFUSED_FILE))
        text = self.folder / 'text.db'
        text.write_text('what?' * 1000)
        self.refused('no database', [text, self.room], (3, 'storage\n'))
        bad = self.copy('bad.db')
        sql(bad, "UPDATE vehicles SET status = 5 WHERE callsign = 'A1'")
        self.refused('no well-formed room', [bad, self.room], (1, REFUSED_FILE))
        self.refused('the same file', [copy, copy], (1, REFUSED_FILE))
        self.refused('in no folder', [copy, none / 'room.db'], (3, 'storage\n'))
        with serving(self.room, 2) as (port, _):
            talk(port, call_of(1))
            self.refused('over a served room', [copy, self.room], (3, 'storage\n'))
            self.refused('of a served room', [self.room, none], (3, 'storage\n'))


class Stopped(CopiesTestCase):
    """A restore over a crashed room that is stopped before any of its calls leaves no file, or the
    crashed room, or the copy's; and then it is done again, and stopped again. The crashed room is
    in its place or aside all the while, and nothing that is aside is changed."""

    def setUp(self):
        super().setUp()
        self.program = Preloaded(self.folder)
        self.place = self.folder / 'place'
        self.copied = self.copy()
        with serving(self.room, 2) as (port, process):
            talk(port, call_of(1))
            process.kill()
        self.held = {end: (self.folder / f'room.db{end}').read_bytes() for end in ('', '-wal')}

    def begin(self):
        """The crashed room, and one that was set aside before."""
        shutil.rmtree(self.place, ignore_errors=True)
        self.place.mkdir()
        (self.place / 'room.db.old').write_bytes(b'of another')
        for end, held in self.held.items():
            (self.place / f'room.db{end}').write_bytes(held)

    def stopped(self, at):
        """The status of a restore that is stopped at a call."""
        switches = stop(at) | WRITES | NAMES
        before = self.aside()
        status = self.program.run(switches, 'restore', self.copied, self.place / 'room.db')[0]
        after = self.aside()
        self.check(f'what was aside, {at}', {it: after.get(it) for it in before}, before)
        places = [f'{self.place}/room.db', *(it for it in after if not it.endswith('-wal'))]
        self.check(f'the crashed room, {at}', any(self.is_crashed(it) for it in places), True)
        return status

    def aside(self):
        """What is set aside, by its names."""
        return {str(it): it.read_bytes() for it in self.place.glob('room.db.old*')}

    def is_crashed(self, name):
        """Whether the crashed room has a name, with its log."""
        files = {end: pathlib.Path(f'{name}{end}') for end in self.held}
        return all(it.exists() and it.read_bytes() == self.held[end] for end, it in files.items())

    def test_stops(self):
        room = self.place / 'room.db'
        self.begin()
        copied, crashed = digest.of_file(self.copied), self.digest_of(room)
        seen = []
        for at in itertools.count(1):
            self.begin()
            status = self.stopped(at)
            if status != 9:
                break
            seen.append(self.digest_of(room))
            for again in range(at, 0, -7):
                self.stopped(again)
            self.check(f'again after {at}', run('restore', self.copied, room)[0], 0)
            self.check(f'the copy after {at}', self.digest_of(room), copied)
            self.check(f'at last after {at}', self.stopped(LAST), 0)
        self.check('with no call left it is done', status, 0)
        self.check('in this order', [it for it, _ in itertools.groupby(seen)],
                   [crashed, 'none', copied])

    def digest_of(self, room):
        """A room's digest, of copies of its file and log; or none."""
        if not room.exists():
            return 'none'
        seen = self.folder / 'seen.db'
        for end in '', '-wal':
            seen.with_name(seen.name + end).unlink(missing_ok=True)
            if room.with_name(room.name + end).exists():
                shutil.copy(room.with_name(room.name + end), seen.with_name(seen.name + end))
        status, out, _ = run('digest', seen)
        return out.split()[-1] if status == 0 else f'status {status}'


class Names(CopiesTestCase):
    def test_names(self):
        """A journal has no name of the database's; and the room opens after that."""
        address = f'127.0.0.1:{free_port()}'
        for end in '-journal', '-wal', '-shm':
            before = self.names()
            for path in f'{self.room}{end}', f'./room.db{end}':
                status, out, err = run('serve', self.room, address, '--journal', path)
                self.check(f'{end}', (status, out, err.splitlines()[0]), (
                    2, '', f"error: invalid value '{path}' for '--journal <LIST>': the database of "
                           f'{self.room} uses a file of this name'))
            self.check(f'{end}: no file is made', self.names(), before)
        self.check('the room opens', run('digest', self.room)[0], 0)
        for name in 'room-journal', 'room.db-list', 'other.db-wal', 'xroom.db-wal':
            with serving(self.room, 1, *PATIENT, '--journal', str(self.folder / name)) as (port, it):
                talk(port, QUEUE)
                self.check(name, it.wait(timeout=180), 0)


class Nights(CopiesTestCase):
    """Copies of a room that is served on."""

    def setUp(self):
        super().setUp()
        self.copies = self.folder / 'copies'
        self.copies.mkdir()

    def backup(self, *words):
        done = subprocess.run([BACKUP / 'backup.py', *map(str, words)], capture_output=True,
                              text=True, timeout=300,
                              env=os.environ | {'DISPATCH_ROOM': str(PROGRAM)})
        return done.returncode, done.stdout, done.stderr

    def begin(self):
        return self.backup('begin', self.room, self.list, self.copies)

    def night(self, *words):
        return self.backup('night', self.list, self.copies, *words)

    def newest(self):
        """The newest copy, from outside."""
        file = sorted(self.copies.glob('*.json'))[-1]
        return file.with_suffix('.db'), json.loads(file.read_text())

    def later(self):
        """Waits for a second of which no copy has its name."""
        while time.strftime('%Y-%m-%d.%H%M%S') == self.newest()[0].stem:
            time.sleep(0.01)

    def copied(self, calls):
        """Whether a night gives a copy with so many calls, whose digest is that of its tables."""
        status, out, err = self.night()
        self.assertEqual((status, err), (0, ''))
        path, found = self.newest()
        self.assertEqual(sql(path, 'SELECT count(*) FROM calls'), f'{calls}\n')
        self.assertEqual((digest.of_file(path), out.split()[-1]), (found['digest'],) * 2)
        return path

    def test_nights(self):
        """Three nights while the room is served, and a last one after its end."""
        self.check('the first', self.begin()[0], 0)
        words = *PATIENT, '--journal', str(self.list), '--history'
        with serving(self.room, 4, *words) as (port, process):
            talk(port, call_of(1), call_of(2))
            self.copied(2)
            self.copied(2)
            talk(port, call_of(3), QUEUE)
            self.copied(3)
            talk(port, call_of(4))
            talk(port, QUEUE)
            process.wait(timeout=180)
        path = self.copied(4)
        self.check('the copy is the room', dump(path), dump(self.room))
        self.check('what is left in the folder', {it.name.partition('.db')[0] for it in
                                                  self.copies.iterdir() if '.db' in it.name} &
                   {'part', 'third'}, set())

    def test_a_torn_record(self):
        """A list that is cut within a record gives the copy of what is whole; the next night goes on
        from there."""
        self.begin()
        self.serve(call_of(1), call_of(2))
        text = self.list.read_bytes()
        for cut in [*range(ends(text)[3] + 1, ends(text)[4] + 1, 40), ends(text)[4] - 1]:
            for it in self.copies.iterdir():
                it.unlink()
            self.list.write_bytes(b'')
            first = made(self.folder / f'first{cut}.db', CREW)
            self.check('the first', self.backup('begin', first, self.list, self.copies)[0], 0)
            self.list.write_bytes(text[:cut])
            self.check(f'cut at {cut}', self.night()[0], 0)
            self.list.write_bytes(text)
            self.check(f'and then, {cut}', self.night()[0], 0)
            self.check(f'the last copy, {cut}', digest.of_file(self.newest()[0]),
                       digest.of_file(self.room))

    def test_untrusted(self):
        """What can't be trusted is one line and status 1, and the copies of before stay."""
        self.check('no first copy', self.night()[0], 1)
        self.begin()
        self.serve(call_of(1))
        self.copied(1)
        self.serve(call_of(2))
        text, place = self.list.read_bytes(), self.newest()[1]['bytes']
        for what, other in [('a changed byte', text[:-100] + bytes([text[-100] ^ 1]) + text[-99:]),
                            ('a record that is lost', text[:place] + text[ends(text)[-3]:]),
                            ('a list that is shorter', text[:place - 80]),
                            ('another list', b'room 2 ' + text)]:
            self.list.write_bytes(other)
            before = self.newest()
            status, out, err = self.night()
            self.check(what, (status, out, len(err.splitlines()),
                              err.startswith('no copy that can be trusted: ')), (1, '', 1, True))
            self.check(f'{what}: the copies', self.newest(), before)
        self.list.write_bytes(text)
        self.copied(2)
        # A change that no list has is found by the next head.
        sql(self.room, "UPDATE vehicles SET east = east + 1 WHERE callsign = 'A1'")
        self.serve(call_of(3))
        status, out, err = self.night()
        self.check('a change beside the list', (status, 'another room at record' in err), (1, True))

    def test_a_damaged_copy(self):
        self.begin()
        self.serve(call_of(1))
        path, _ = self.newest()
        sql(path, "UPDATE vehicles SET east = east + 1 WHERE callsign = 'A1'")
        status, _, err = self.night()
        self.check('another room', (status, 'another room at record 1' in err), (1, True))
        path.write_bytes(path.read_bytes()[:5000])
        self.check('no room', self.night()[0], 1)

    def enrols(self, *rows, stopped=0):
        """Enrols a fleet, or all but its last rows, and puts into the list what an import leaves
        there: where the room was, the lines of the file, and where the room is then."""
        head, fleet = head_of(self.room), self.folder / 'next.csv'
        fleet.write_text(fleet_of(*rows[:len(rows) - stopped]))
        self.assertEqual(run('import', self.room, fleet)[0], 0)
        lines = [f'row {it}\n'.encode() for it in fleet_of(*rows).splitlines()]
        text = self.list.read_bytes()
        self.list.write_bytes(goes_on(text, [head, *lines, head_of(self.room)]))

    def vehicles(self):
        """The vehicles of the newest copy."""
        return sql(self.newest()[0], 'SELECT callsign FROM vehicles ORDER BY 1').split()

    def test_a_fleet(self):
        """A fleet in the list is enrolled in the copy, as far as the head behind it says."""
        self.begin()
        for stopped, wanted in [(1, ['A1', 'B1']), (0, ['A1', 'B1', 'C1'])]:
            head, place = head_of(self.newest()[0]), self.newest()[1]['bytes']
            self.serve(call_of(2 * stopped + 1))
            self.enrols(B1, C1, stopped=stopped)
            self.serve(call_of(2 * stopped + 2))
            text = self.list.read_bytes()
            path = self.copied(4 - 2 * stopped)
            self.check(f'{stopped} not enrolled', self.vehicles(), wanted)
            self.check(f'{stopped} not enrolled: the room', dump(path), dump(self.room))
            # What was played: where the copy was, and what the list has had since.
            since = records(b'list 2\n' + text[place:])
            self.check(f'{stopped} not enrolled: the list', path.with_suffix('.list').read_bytes(),
                       goes_on(b'list 2\n', [head, *since]))

    def test_a_fleet_without_its_head(self):
        """Where the head behind a fleet is not written yet, or not whole, the copy has none of it;
        the next night goes on from there."""
        first = self.copy('first.db')
        self.serve(call_of(1))
        self.enrols(B1, C1)
        text = self.list.read_bytes()
        # The last records: a head, three lines of a file, and a head.
        places = ends(text)[-6:]
        for cut in sorted({*places[1:-1], *(it - 1 for it in places[1:])}):
            for it in self.copies.iterdir():
                it.unlink()
            self.list.write_bytes(b'')
            room = shutil.copy(first, self.folder / f'first{cut}.db')
            self.check('the first', self.backup('begin', room, self.list, self.copies)[0], 0)
            self.list.write_bytes(text[:cut])
            self.check(f'cut at {cut}', self.night()[0], 0)
            self.check(f'cut at {cut}: the copy', self.vehicles(), ['A1'])
            self.check(f'cut at {cut}: its place', self.newest()[1]['bytes'],
                       places[1] if cut >= places[1] else places[0])
            self.list.write_bytes(text)
            self.check(f'and then, {cut}', self.night()[0], 0)
            self.check(f'the last copy, {cut}', dump(self.newest()[0]), dump(self.room))

    def test_a_change(self):
        """A change of terminals or of the plan that a command kept in the list is in the copy, once
        the head behind it is there; before that the copy has none of it."""
        plan = self.folder / 'next.csv'
        plan.write_text(PLAN.read_text().replace('deskone1', 'newone11').replace(
            'area,1,', 'area,3,400000,100000,449999,199999\narea,1,'))
        self.begin()
        self.serve(call_of(1))
        for words in [('terminals', '--new', 'crew:A1'), ('terminals', '--revoke', 'desk:2'),
                      ('terminals', '--from', plan), ('replan', plan)]:
            before = all_in(self.room)
            status, _, err = run(words[0], self.room, *words[1:], '--journal', self.list)
            self.assertEqual((status, err), (0, ''))
            after, text = all_in(self.room), self.list.read_bytes()
            self.check(f'{words}: it changes', before != after, True)
            self.list.write_bytes(text[:ends(text)[-2]])
            self.check(f'{words}: without its head', all_in(self.copied(1)), before)
            self.list.write_bytes(text)
            self.check(f'{words}: the copy', all_in(self.copied(1)), after)

    def test_kept(self):
        self.begin()
        for serial in range(1, 5):
            self.serve(call_of(serial))
            self.later()
            self.check(f'night {serial}', self.night('--keep', '2')[0], 0)
        self.check('kept', len(list(self.copies.glob('*.db'))), 2)
        self.check('of each', len(list(self.copies.glob('*.json'))), 2)


class Weekly(CopiesTestCase):
    """The script of each week, with a systemctl that notes what it is asked for."""

    def setUp(self):
        super().setUp()
        self.asked = self.folder / 'asked'
        bin_of = self.folder / 'bin'
        bin_of.mkdir()
        (bin_of / 'systemctl').write_text(f'#!/bin/sh\necho "$@" >>{self.asked}\n')
        (bin_of / 'dispatch_room').write_text(f'#!/bin/sh\nexec {PROGRAM} "$@"\n')
        for it in bin_of.iterdir():
            it.chmod(0o755)
        self.path = f'{bin_of}:{os.environ["PATH"]}'

    def renew(self):
        self.asked.unlink(missing_ok=True)
        done = subprocess.run([WEEKLY / 'renew.sh', self.folder, 'room'], capture_output=True,
                              text=True, timeout=180, env=os.environ | {'PATH': self.path})
        return done.returncode, done.stdout, self.asked.read_text().splitlines()

    def test_renew(self):
        """The new room stands in the old one's place, and this beside it, with its list and what a
        rotation moved away."""
        self.serve(call_of(1), call_of(2))
        for name in 'room.list.1', 'room.list.2.gz':
            (self.folder / name).write_text(name)
        old = dump(self.room)
        status, out, asked = self.renew()
        self.check('done', (status, asked), (0, ['stop room', 'start room']))
        self.check('how long', re.search(r'stood still for \d+ s', out) is not None, True)
        self.check('the new room', sql(self.room, 'SELECT count(*) FROM calls'), '2\n')
        self.check('it opens', run('digest', self.room)[0], 0)
        archives = [it for it in self.names('room.2') if it.endswith('.db')]
        self.check('the archive', [dump(self.folder / it) for it in archives], [old])
        lists = [it for it in self.names('room.2') if '.list' in it]
        self.check('the list', [re.sub('^room.*list', 'room.list', it) for it in lists],
                   ['room.list', 'room.list.1', 'room.list.2.gz'])
        self.check('and none of it is left', self.names('room.list'), [])
        self.check('it is served', self.serve(call_of(3)), None)

    def test_beside_an_old_room(self):
        """What was set aside before stays."""
        self.serve(call_of(1))
        before = self.folder / 'room.db.old'
        before.write_bytes(b'of another')
        old = dump(self.room)
        self.check('done', self.renew()[0], 0)
        archives = [it for it in self.names('room.2') if it.endswith('.db')]
        self.check('the archive', [dump(self.folder / it) for it in archives], [old])
        self.check('what was there', (before.read_bytes(), self.names('room.db.old')),
                   (b'of another', ['room.db.old']))

    def test_fails(self):
        """Where it fails the old room is served again."""
        old = dump(self.room)
        sql(self.room, "UPDATE vehicles SET status = 5 WHERE callsign = 'A1'")
        bad = self.room.read_bytes()
        status, _, asked = self.renew()
        self.check('not done', (status != 0, asked), (True, ['stop room', 'start room']))
        self.check('the room stays', self.room.read_bytes(), bad)
        self.check('it was another', dump(self.room) == old, False)

    def test_after_a_stop(self):
        """Where a stop left no room but the new one, it is put in its place."""
        self.serve(call_of(1))
        run('renew', self.room, self.folder / 'next.db', '--since', '2020-01-01')
        self.room.rename(self.folder / 'room.db.old')
        status, _, asked = self.renew()
        self.check('done', (status, asked), (0, ['stop room', 'start room']))
        self.check('the room', sql(self.room, 'SELECT count(*) FROM calls'), '1\n')
