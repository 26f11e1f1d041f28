"""The journal of a served room and its replay. The list that is kept is what was asked and answered;
over a room that stands where the list begins a replay gives the room again, row by row, also where
the program or the machine stopped in between; and a list that is none is refused at its record."""
# needs: python3 gcc libc6-dev sqlite3
# builds: dispatch_room
import contextlib
import io
import os
import re
import shutil
import signal
import socket
import stat
import subprocess
import sys
import time

from journals import (CREW, QUEUE, JournalTestCase, bodies, chain, entries, pieces, plain, replay,
                      verify)
from preloaded import (BEFORE, HALFWAY, MACHINE, NEVER_STOPPED, WRITES, PreloadedTestCase, faults,
                       sampled, stop, sync_fault)
from room import (PATIENT, PROGRAM, TOP, TestCase, call, dump, free_port, made, message,
                  read_dated, run, serving, sql, talk)

sys.path.insert(0, str(TOP / 'bench' / 'crossings'))

import day  # noqa: E402
import digest  # noqa: E402
import terminals  # noqa: E402

UNTIL = int(time.time()) + 8 * 3600
DUTY = message('deskone1', 'POST /vehicles/A1/duty', f'{{"place":"TQ303804","until":{UNTIL}}}')
MOBILISE = message('deskone1', 'POST /incidents/1/mobilise', '{"vehicle":"A1"}')
REPORT = message('crewofa1', 'POST /report',
                 '{"button":"mobile","number":1,"order":1,"place":"TQ302802"}')


def written(found):
    """The text of a journal of these entries."""
    text = b''
    for words in found:
        if words[0] == 'message':
            text += f'message {words[1]} {len(words[2])}\n'.encode() + words[2] + b'\n'
        else:
            text += ' '.join(words).encode() + b'\n'
    return text


def records(found):
    """The records of a journal of these entries, each as a list of version 2 has it."""
    return [written([it]) for it in found]


class Kept(JournalTestCase):
    """What is kept is what was asked and answered."""

    SENT = [call(1), DUTY, MOBILISE, REPORT, REPORT, QUEUE, message('deskone1', 'GET /nowhere'),
            message('nobody12', 'GET /queue'), message('takerone', 'POST /call', '{}'),
            message('deskone1', 'HEAD /queue'), QUEUE]

    def test_entries(self):
        sent = [it for it in self.SENT if b'HEAD' not in it]
        answers, _ = self.serve(sent[:4], sent[4:])
        head, *rest = self.entries()
        self.check('its head', (head[:2], re.fullmatch('[0-9a-f]{64}', head[2]) is not None),
                   (('room', '2'), True))
        wanted = []
        for bytes_sent, (moment, status, _) in zip(sent, answers):
            wanted += [('message', str(moment), bytes_sent), ('answer', str(status))]
        self.check('its records', rest, wanted)
        self.check('its mode', stat.S_IMODE(os.stat(self.list).st_mode), 0o600)

    def test_what_is_no_message(self):
        """What is refused in the place of a message is no record."""
        self.serve([QUEUE, b'what\r\n\r\n'])
        self.check('its records', [it[0] for it in self.entries()], ['room', 'message', 'answer'])

    def test_head(self):
        """A message whose answer has no content is one."""
        self.serve([message('deskone1', 'HEAD /queue')])
        self.check('its records', [it[-1] for it in self.entries()][2], '200')

    def test_parts(self):
        """Each start begins a part; the digest changes with the room, and with nothing else."""
        for sent in [[QUEUE], [call(1)], [QUEUE]]:
            self.serve(sent)
        digests = [it[2] for it in self.entries() if it[0] == 'room']
        self.check('as Python has it', digests[2], digest.of_file(self.room))
        self.check('the same room', digests[0] == digests[1], True)
        self.check('another room', digests[1] == digests[2], False)

    def test_zone(self):
        """The digest is that of the zone too."""
        self.serve([QUEUE])
        sql(self.room, "UPDATE meta SET zone = 'UTC0'")
        self.serve([QUEUE])
        digests = [it[2] for it in self.entries() if it[0] == 'room']
        self.check('in another zone', digests[0] == digests[1], False)
        self.check('as Python has it', digests[1], digest.of_file(self.room))

    def test_synced(self):
        self.serve([call(1)], words=['--journal-sync', 'always'])
        self.check('its records', len(self.entries()), 3)


class Unkept(JournalTestCase):
    """A room is not served without the journal that was asked for."""

    def refused(self, what, path, wanted=(6, '', 'journal\n')):
        before = dump(self.room)
        address = f'127.0.0.1:{free_port()}'
        report = run('serve', self.room, address, '--connections', 1, '--journal', path)
        self.check(what, report, wanted)
        self.check(f'{what}: the room', dump(self.room), before)

    def test_no_file(self):
        self.refused('a folder', self.folder)
        self.refused('in no folder', self.folder / 'none' / 'list')

    def test_no_journal(self):
        self.list.write_text('deskone1 POST /call\n')
        self.refused('another text', self.list)
        self.check('which stays', self.list.read_text(), 'deskone1 POST /call\n')

    def test_in_use(self):
        other = made(self.folder / 'other.db', CREW)
        with serving(other, 1, *PATIENT, '--journal', str(self.list)):
            self.refused('a list in use', self.list)

    def test_full(self):
        self.refused('a full disk', '/dev/full')


class Cut(JournalTestCase):
    def test_cut(self):
        """A record that was cut off is reported and set aside at the next start."""
        copy = self.copy()
        self.serve([call(1)])
        whole = self.list.read_bytes()
        for length in [1, 7, 71, 72, 90]:
            part = pieces(whole)[1][:length]
            self.list.write_bytes(whole + part)
            _, report = self.serve([QUEUE])
            self.check(f'{length} bytes: it is reported', 'cut off' in report, True)
            self.check(f'{length} bytes: what stays', self.list.read_bytes()[:len(whole)], whole)
            rest = self.list.read_bytes()[len(whole):]
            self.check(f'{length} bytes: what follows', rest[71:76], b'room ')
            whole = self.list.read_bytes()
        status, out, err = replay(copy, whole)
        self.check('it is a list', (status, out, err), (0, b'replayed 6\n', ''))


class GoneOnWith(JournalTestCase):
    """A list goes on as it stands there."""

    def test_first_version(self):
        """A list of version 1 is gone on with as one, and what was cut off is set aside."""
        copy = self.copy()
        self.serve([call(1)])
        whole = plain(self.list.read_bytes())
        for part in [b'', whole[:7], whole[:40]]:
            self.list.write_bytes(whole + part)
            _, report = self.serve([QUEUE])
            self.check(f'{len(part)} bytes: it is reported', 'cut off' in report, part != b'')
            self.check(f'{len(part)} bytes: what stays', self.list.read_bytes()[:len(whole) + 5],
                       whole + b'room ')
            whole = self.list.read_bytes()
        self.check('it is a list', replay(copy, whole), (0, b'replayed 4\n', ''))

    def test_first_line(self):
        """The first line of a list that a crash cut off is written anew."""
        self.serve([QUEUE])
        for part in [b'', b'l', b'list 2']:
            self.list.write_bytes(part)
            self.serve([QUEUE])
            self.check(f'behind {part}', len(self.entries()), 3)

    def test_end(self):
        """A service that ends well says so, and the next goes on behind it; one that is killed
        does not."""
        self.serve([QUEUE])
        self.serve([QUEUE])
        bodies = [it[71:] for it in pieces(self.list.read_bytes())]
        self.check('its ends', [nth for nth, it in enumerate(bodies) if it == b'end\n'], [3, 7])
        with serving(self.room, 2, *PATIENT, '--journal', str(self.list)) as (port, process):
            talk(port, QUEUE)
            process.kill()
            process.wait()
        self.check('killed', pieces(self.list.read_bytes())[-1].endswith(b'\nanswer 200\n'), True)

    def test_changed(self):
        """A chain that was changed is not gone on with."""
        self.serve([call(1)])
        text = bytearray(self.list.read_bytes())
        text[100] ^= 1
        self.list.write_bytes(text)
        done = run('serve', self.room, f'127.0.0.1:{free_port()}', '--connections', 1, '--journal',
                   self.list)
        self.check('it is refused', done, (6, '', 'journal\n'))
        self.check('it stays', self.list.read_bytes(), bytes(text))


class Renewed(JournalTestCase):
    """A new part begins where the list was renamed, removed or truncated while it is served."""

    def setUp(self):
        super().setUp()
        self.before = self.copy()
        self.port = free_port()
        words = ['serve', self.room, f'127.0.0.1:{self.port}', '--journal', self.list]
        self.process = subprocess.Popen([PROGRAM, *words], stdout=subprocess.PIPE,
                                        stderr=subprocess.PIPE)
        self.addCleanup(self.process.communicate)
        self.addCleanup(self.process.kill)
        self.check('it serves', self.process.stdout.readline(), b'serving\n')

    def asked(self, *messages):
        """The statuses of the answers to some messages on one connection."""
        stream = io.BytesIO(talk(self.port, *messages))
        return [status for _, status, _ in iter(lambda: read_dated(stream), None)]

    def begun(self, *beside):
        """Waits until a new part has begun, and other files are there."""
        until = time.monotonic() + 180
        while time.monotonic() < until:
            time.sleep(0.1)
            # (the old part is moved away before the new one is there)
            with contextlib.suppress(FileNotFoundError):
                if all(it.exists() for it in beside):
                    if b'\nroom 2 ' in self.list.read_bytes():
                        return
        self.fail('no new part has begun')

    def stopped(self):
        """Stops the program; what else it printed, and what it reported."""
        self.process.kill()
        out, err = self.process.communicate()
        return out.decode(), err.decode()

    def replayed(self, *parts):
        """Replays parts one after another: they lead to the room."""
        room = shutil.copy(self.before, self.folder / 'again.db')
        for part in parts:
            status, _, err = replay(room, part)
            self.check('it is replayed', (status, err), (0, ''))
        self.check('its digest', run('digest', room), run('digest', self.room))
        self.check('the room', dump(room), dump(self.room))

    def test_renamed(self):
        old = self.folder / 'room.list.1'
        with socket.create_connection(('127.0.0.1', self.port), timeout=180) as stays:
            answers = stays.makefile('rb')
            stays.sendall(call(1))
            self.check('the call', read_dated(answers)[1], 200)
            self.list.rename(old)
            self.begun()
            stays.sendall(DUTY)
            self.check('on the same connection', read_dated(answers)[1], 200)
        self.check('on another', self.asked(QUEUE), [200])
        self.check('it is reported', self.stopped(),
                   ('', 'journal: the list was moved, a new one begins\n'))
        first, second = old.read_bytes(), self.list.read_bytes()
        self.check('the old one', verify(old)[1].splitlines()[-1], 'ended')
        self.check('its entries', [it[0] for it in entries(first)], ['room', 'message', 'answer'])
        self.check('those of the new one', [it[0] for it in entries(second)],
                   ['room', 'message', 'answer', 'message', 'answer'])
        self.replayed(first, second)

    def test_rotated(self):
        """As a rotation by night moves it, which makes the next file itself, beside desks that ask
        without a pause: each message is in one part, none is in two, and nobody is closed."""
        olds, sent = [self.folder / f'room.list.{it}' for it in (1, 2, 3)], 0
        with socket.create_connection(('127.0.0.1', self.port), timeout=180) as stays:
            answers = stays.makefile('rb')
            for old in olds:
                self.list.rename(old)
                os.close(os.open(self.list, os.O_CREAT | os.O_WRONLY, 0o600))  # if none is there
                until, has_begun = time.monotonic() + 180, False
                while not has_begun and time.monotonic() < until:
                    sent += 1
                    stays.sendall(call(sent))
                    self.check('a call', read_dated(answers)[1], 200)
                    has_begun = b'\nroom 2 ' in self.list.read_bytes()
        self.stopped()
        parts = [it.read_bytes() for it in (*olds, self.list)]
        found = [it for part in parts for it in entries(part) if it[0] == 'message']
        self.check('each once', [it[2] for it in found], [call(it + 1) for it in range(sent)])
        self.check('some', sent >= len(olds), True)
        for old in olds:
            self.check('an old one', verify(old)[1].splitlines()[-1], 'ended')
        self.check('a head for each', [entries(part)[0][0] for part in parts], ['room'] * 4)
        self.replayed(*parts)

    def test_removed(self):
        self.check('the call', self.asked(call(1)), [200])
        first = self.list.read_bytes()
        self.list.unlink()
        self.begun()
        self.check('the next', self.asked(call(2)), [200])
        self.stopped()
        self.replayed(first, self.list.read_bytes())

    def test_truncated(self):
        asides = [self.list.with_name(f'room.list.truncated.{it}') for it in (1, 2)]
        self.check('the call', self.asked(call(1)), [200])
        first = self.list.read_bytes()
        os.truncate(self.list, 10)
        self.begun(asides[0])
        self.check('the next', self.asked(call(2)), [200])
        second = self.list.read_bytes()
        # (within the head, so that it is shorter than at the last look, whenever that was)
        os.truncate(self.list, 100)
        self.begun(asides[1])
        self.check('it is reported', self.stopped(),
                   ('', 2 * 'journal: the list was truncated, a new one begins\n'))
        self.check('what was left', [it.read_bytes() for it in asides], [first[:10], second[:100]])
        self.replayed(first, second, self.list.read_bytes())

    def test_emptied(self):
        """As a rotation by night copies it and makes it empty, and nothing is set aside."""
        self.check('the call', self.asked(call(1)), [200])
        first = self.list.read_bytes()
        os.truncate(self.list, 0)
        self.begun()
        self.check('the next', self.asked(call(2)), [200])
        self.check('it is reported', self.stopped(),
                   ('', 'journal: the list was truncated, a new one begins\n'))
        self.check('files', sorted(it.name for it in self.folder.glob('room.list*')),
                   ['room.list'])
        self.replayed(first, self.list.read_bytes())

    def test_nowhere(self):
        """Where no new list can be made, nothing more is served, and no message is lost."""
        self.check('the call', self.asked(call(1)), [200])
        folder = self.folder / 'moved'
        folder.mkdir()
        # The program is held, or it might look between the two and make its new list there.
        self.process.send_signal(signal.SIGSTOP)
        os.waitid(os.P_PID, self.process.pid, os.WSTOPPED)
        old = self.list.rename(folder / 'room.list')
        self.list.mkdir()
        self.process.send_signal(signal.SIGCONT)
        self.process.wait(timeout=180)
        self.check('it ended', self.process.returncode, 6)
        self.check('the old one', verify(old)[1].splitlines()[-1], 'ended')
        self.replayed(old.read_bytes())

    def test_not(self):
        """A service with a number of connections keeps its list, whatever its name is."""
        self.stopped()
        with serving(self.room, 2, *PATIENT, '--journal', str(self.list)) as (port, process):
            talk(port, call(1))
            old = self.list.rename(self.folder / 'room.list.1')
            talk(port, QUEUE)
            process.wait(timeout=180)
        self.check('its messages', sum(it[0] == 'message' for it in entries(old.read_bytes())), 2)
        self.check('no other', self.list.exists(), False)


class OfChanges(JournalTestCase):
    """A list without questions leads to the same room."""

    def test_changes(self):
        before = self.copy()
        head = message('deskone1', 'HEAD /queue')
        found, _ = self.serve([call(1), QUEUE, DUTY], [QUEUE, MOBILISE, REPORT, QUEUE], [head],
                              words=('--journal-of', 'changes'))
        kept = self.entries()
        self.check('what is kept', [it[2] for it in kept if it[0] == 'message'],
                   [call(1), DUTY, MOBILISE, REPORT])
        statuses = [str(status) for _, status, _ in found]
        self.check('their statuses', [it[1] for it in kept if it[0] == 'answer'],
                   [statuses[nth] for nth in (0, 2, 4, 5)])
        self.check('it is replayed', replay(before, self.list.read_bytes()),
                   (0, b'replayed 4\n', ''))
        self.check('the room', dump(before), dump(self.room))

    def test_all(self):
        """All are kept where that is asked for, as where nothing is."""
        for words in [(), ('--journal-of', 'all')]:
            self.list.unlink(missing_ok=True)
            self.serve([QUEUE], words=words)
            self.check(str(words), [it[0] for it in self.entries()], ['room', 'message', 'answer'])


class Replayed(JournalTestCase):
    """Last night's copy and today's journal give today's room."""

    def setUp(self):
        super().setUp()
        self.before = self.copy()
        self.answers, _ = self.serve([call(1), DUTY], [MOBILISE, REPORT, REPORT, QUEUE])
        self.kept = self.list.read_bytes()
        self.text = plain(self.kept)

    def test_as_it_was_kept(self):
        room = shutil.copy(self.before, self.folder / 'again.db')
        self.check('it is replayed', replay(room, self.kept), (0, b'replayed 6\n', ''))
        self.check('the room', dump(room), dump(self.room))

    def test_whole(self):
        room = shutil.copy(self.before, self.folder / 'again.db')
        self.check('it is replayed', replay(room, self.text), (0, b'replayed 6\n', ''))
        self.check('the room', dump(room), dump(self.room))

    def test_of_another_room(self):
        self.check('after the list', replay(self.room, self.text)[0], 1)
        other = made(self.folder / 'other.db', CREW, 'A2,1,1,TQ303804,crewofa2')
        before = dump(other)
        status, out, err = replay(other, self.text)
        self.check('a vehicle more', (status, out), (1, b''))
        self.check('it is reported', 'another room' in err, True)
        self.check('the room', dump(other), before)

    def test_bad_lists(self):
        found = entries(self.text)
        first = found[:3]
        moment = found[1][1]
        text = written(first)
        bad = {
            'cut in a message': self.text[:len(text) + 30],
            'cut in a line': self.text[:len(text) + 3],
            'no list behind a record': text + b'what is this\n',
            'a length that lies': text + f'message {moment} 3\nGET /queue HTTP/1.1\n'.encode(),
            'a moment out of range': text + b'message 4102444800 1\nx\nanswer 200\n',
            'two statuses': text + b'answer 200\n',
            'no message': text + f'message {moment} 4\nwhat\nanswer 400\n'.encode(),
            'two messages in one': written([*first, ('message', moment, QUEUE + QUEUE),
                                            ('answer', '200')]),
            'zeros': text + bytes(100_000),
        }
        for what, text in bad.items():
            with self.subTest(what):
                status, out, err = replay(self.fresh(), text)
                self.assertEqual((status, out, 'record 2' in err), (1, b'', True), err)
                self.assertEqual(dump(self.again), dump(self.after(1)))

    def fresh(self):
        self.again = shutil.copy(self.before, self.folder / 'again.db')
        return self.again

    def after(self, records):
        """A room after so many of the records."""
        room = shutil.copy(self.before, self.folder / 'wanted.db')
        status, *_ = replay(room, written(entries(self.text)[:1 + 2 * records]))
        self.assertEqual(status, 0)
        return room

    def test_another_zone(self):
        """A list of a room whose days are reckoned in another zone is refused."""
        sql(self.fresh(), "UPDATE meta SET zone = 'UTC0'")
        before = dump(self.again)
        status, out, err = replay(self.again, self.text)
        self.check('it is refused', (status, out), (1, b''))
        self.check('it is reported', 'another room at record 1' in err, True)
        self.check('the room', dump(self.again), before)

    def of_first_version(self):
        """The list as of version 1, whose heads say nothing of the zone."""
        rooms = [digest.of_file(self.before, 1), digest.of_file(self.after(2), 1)]
        return [('room', '1', rooms.pop(0)) if it[0] == 'room' else it
                for it in entries(self.text)]

    def test_first_version(self):
        """A list of version 1 is played, whatever the zone is. Its head is refused at another room,
        and an open message before one is done where it leads to its room."""
        found = self.of_first_version()
        report = replay(self.fresh(), written(found))
        self.check('it is replayed', report, (0, b'replayed 6\n', ''))
        self.check('the room', dump(self.again), dump(self.room))
        sql(self.fresh(), "UPDATE meta SET zone = 'UTC0'")
        self.check('in another zone', replay(self.again, written(found))[:2], (0, b'replayed 6\n'))
        status, out, err = replay(self.room, written(found))
        self.check('over another room', (status, out), (1, b''))
        self.check('it is reported', 'another room at record 1' in err, True)
        head, sent = found[:2]
        wanted = self.after(1)
        opened = written([head, sent, (*head[:2], digest.of_file(wanted, 1))])
        self.check('an open message', replay(self.fresh(), opened)[:2], (0, b'replayed 1\n'))
        self.check('is done', dump(self.again), dump(wanted))

    def test_another_version(self):
        status, out, err = replay(self.fresh(), self.text.replace(b'room 2', b'room 3', 1))
        self.check('another version', (status, out, 'record 1' in err), (1, b'', True))

    def test_no_head(self):
        status, out, err = replay(self.fresh(), written(entries(self.text)[1:]))
        self.check('no head', (status, out, 'record 1' in err), (1, b'', True))
        self.check('the room', dump(self.again), dump(self.before))

    def test_zeros_without_end(self):
        with open('/dev/zero', 'rb') as zeros:
            done = subprocess.run([PROGRAM, 'replay', self.fresh()], stdin=zeros,
                                  capture_output=True, timeout=180)
        self.check('zeros', (done.returncode, done.stdout), (1, b''))

    def test_another_status(self):
        found = entries(self.text)
        found[4] = ('answer', '404')
        status, out, err = replay(self.fresh(), written(found))
        self.check('another status', (status, out, 'record 2' in err), (1, b'', True))

    def test_left_open(self):
        """A message without a status is left out within a part, and at the list's end."""
        found = entries(self.text)
        opened = ('message', found[1][1], call(9))
        for at in [3, len(found)]:
            text = written([*found[:at], opened, *found[at:]])
            self.check(f'opened at {at}', replay(self.fresh(), text)[:2], (0, b'replayed 7\n'))
            self.check(f'opened at {at}: the room', dump(self.again), dump(self.room))

    def test_open_before_a_head(self):
        """A message without a status is done before a head to whose room it leads. Before another
        head nothing is done, and that is reported."""
        head, sent = entries(self.text)[:2]
        wanted = self.after(1)
        for said, text in [
            ('its room', written([head, sent, (*head[:2], digest.of_file(wanted))])),
            ('another', written([head, sent, (*head[:2], digest.of_file(self.room))])),
            ('none', written([head, sent, (*head[:2], '0' * 64)])),
        ]:
            led = said == 'its room'
            status, out, err = replay(self.fresh(), text)
            self.check(said, (status, out), (0, b'replayed 1\n') if led else (1, b''))
            self.check(f'{said}: it is reported', 'another room at record 1' in err, not led)
            self.check(f'{said}: the room', dump(self.again), dump(wanted if led else self.before))

    def test_until(self):
        found = entries(self.text)
        moment = int(found[1][1])
        for nth in range(1, len(found), 2):
            found[nth] = ('message', str(moment + 60 * (nth // 2)), found[nth][2])
        text = written(found)
        for records in range(7):
            last = moment + 60 * (records - 1) + 59
            report = replay(self.fresh(), text, '--until', str(last))
            self.check(f'until {records}', report, (0, f'replayed {records}\n'.encode(), ''))
            wanted = shutil.copy(self.before, self.folder / 'wanted.db')
            replay(wanted, written(found[:1 + 2 * records]))
            self.check(f'until {records}: the room', dump(self.again), dump(wanted))


class Chained(JournalTestCase):
    """A list of version 2 is a chain: what changed in it is found at its record."""

    END = b'end\n'

    def setUp(self):
        super().setUp()
        self.before = self.copy()
        self.serve([call(1), DUTY], [QUEUE])
        self.found = self.entries()
        self.bodies = records(self.found)

    def fresh(self):
        self.again = shutil.copy(self.before, self.folder / 'again.db')
        return self.again

    def refused(self, what, text, number):
        """A list is refused at this record, by its replay and where it is looked through."""
        status, out, err = replay(self.fresh(), text)
        self.check(f'{what}: the replay', (status, out, f'record {number}\n' in err),
                   (1, b'', True))
        self.list.write_bytes(text)
        status, out, err = verify(self.list)
        self.check(f'{what}: it is reported', (status, out), (1, ''))
        self.check(f'{what}: where', re.search(r'record (\d+)\n', err) is not None, True)

    def test_whole(self):
        """It is played as a list of version 1 is."""
        for end in ([], [self.END]):
            report = replay(self.fresh(), chain([*self.bodies, *end]))
            self.check('it is replayed', report, (0, b'replayed 3\n', ''))
            self.check('the room', dump(self.again), dump(self.room))
        self.check('version 1', replay(self.fresh(), written(self.found)),
                   (0, b'replayed 3\n', ''))

    def test_verified(self):
        moments = [it[1] for it in self.found if it[0] == 'message']
        span = f'verified 3\nfrom {moments[0]} to {moments[-1]}\n'
        for what, text, wanted in [
            ('one that ended', chain([*self.bodies, self.END]), span + 'ended\n'),
            ('one that did not', chain(self.bodies), span + 'not ended\n'),
            ('version 1', written(self.found), span + 'not ended\n'),
            ('a head', chain(self.bodies[:1]), 'verified 0\nnot ended\n'),
        ]:
            self.list.write_bytes(text)
            self.check(what, verify(self.list), (0, wanted, ''))
        self.check('no list', verify(self.folder / 'none')[:2], (1, ''))
        for what, text in [('nothing', b''), ('no record', b'list 2\n'),
                           ('an end', chain([self.END]))]:
            self.list.write_bytes(text)
            self.check(what, verify(self.list), (1, 'nothing was begun\n', ''))
        for what, text in [('a part of its first line', b'list'),
                           ('a part of a head', chain(self.bodies[:1])[:-3])]:
            self.list.write_bytes(text)
            self.check(what, verify(self.list), (1, '', 'refused: record 1\n'))

    # what an import leaves in a list: the lines of the fleet's file
    ROWS = [b'row callsign,division,kind,place,token\n', b'row A9,1,0,TQ303804,crewofa9\n']

    def test_rows(self):
        """Rows of the fleet's file are passed over, wherever they stand; those of a list of version
        1 are none."""
        moments = [it[1] for it in self.found if it[0] == 'message']
        span = f'verified 3\nfrom {moments[0]} to {moments[-1]}\n'
        for at in range(len(self.bodies) + 1):
            for end, wanted in [([], 'not ended\n'), ([self.END], 'ended\n')]:
                rows = self.ROWS * (at % 3 + 1)
                self.list.write_bytes(chain([*self.bodies[:at], *rows, *self.bodies[at:], *end]))
                self.check(f'rows at {at}', verify(self.list), (0, span + wanted, ''))
        self.list.write_bytes(chain([*self.bodies, self.END, *self.ROWS]))
        self.check('rows at last', verify(self.list), (0, span + 'not ended\n', ''))
        self.list.write_bytes(chain(self.ROWS))
        self.check('only rows', verify(self.list), (1, 'nothing was begun\n', ''))
        for what, text in [
            ('version 1', written(self.found) + b''.join(self.ROWS)),
            ('another word', chain([*self.bodies, b'rows A9\n'])),
            ('two lines in a row', chain([*self.bodies, b'row A9\nB9\n'])),
            ('no line end', chain([*self.bodies, b'row A9'])),
            ('two ends', chain([*self.bodies, self.END, self.END, *self.ROWS])),
        ]:
            self.list.write_bytes(text)
            self.check(what, verify(self.list)[:2], (1, ''))

    def test_each_byte_of_rows(self):
        """A bit that changed in a row, or a row that was lost, is found."""
        stood = pieces(chain([self.bodies[0], *self.ROWS, *self.bodies[1:3], self.END]))
        start = len(b'list 2\n' + stood[0])
        text = b'list 2\n' + b''.join(stood)
        self.list.write_bytes(text)
        self.check('the whole', verify(self.list)[0], 0)
        for at in range(start, start + len(stood[1] + stood[2])):
            changed = bytearray(text)
            changed[at] ^= 1 << at % 8
            self.list.write_bytes(changed)
            with self.subTest(f'byte {at}'):
                status, out, err = verify(self.list)
                self.assertEqual((status, out), (1, ''))
                self.assertRegex(err, r'record 1\n')
        for nth in (1, 2):
            self.list.write_bytes(b'list 2\n' + b''.join(stood[:nth] + stood[nth + 1:]))
            self.check(f'row {nth} lost', verify(self.list)[:2], (1, ''))

    def test_served_behind_rows(self):
        """A service goes on behind rows, and sets aside one that was cut off."""
        whole = chain([*self.bodies, self.END, *self.ROWS])
        for what, cut in [('whole', len(whole)), ('cut off', len(whole) - 5)]:
            self.list.write_bytes(whole[:cut])
            report = self.serve([QUEUE])[1]
            rows = 2 if what == 'whole' else 1
            kept = chain([*self.bodies, self.END, *self.ROWS[:rows]])
            now = self.list.read_bytes()
            self.check(f'{what}: what stood', now[:len(kept)] == kept, True)
            self.check(f'{what}: it is reported', 'cut off' in report, what != 'whole')
            self.check(f'{what}: its records', [it[0] for it in entries(now)][-3:],
                       ['room', 'message', 'answer'])
            self.check(f'{what}: it is whole', verify(self.list)[0], 0)

    def test_served_after_a_truncation(self):
        """Where a list was truncated, and the service stopped before it saw that, the next start
        sets aside what was appended, and begins a new list."""
        between = self.copy()
        left = b''.join(pieces(self.list.read_bytes())[2:])
        self.list.write_bytes(left)
        report = self.serve([QUEUE])[1]
        aside = self.list.with_name('room.list.truncated.1')
        self.check('it is reported', report, 'journal: the list was truncated, what is left is set '
                                             f'aside as {aside}\n')
        self.check('what is left', aside.read_bytes(), left)
        self.check('a new list', [it[0] for it in self.entries()], ['room', 'message', 'answer'])
        self.check('it is replayed', replay(between, self.list.read_bytes()),
                   (0, b'replayed 1\n', ''))

    def test_each_byte(self):
        """A bit that changed anywhere is found at its record."""
        text = chain([*self.bodies[:3], self.END])
        ends = [len(b'list 2\n')]
        for piece in pieces(text):
            ends.append(ends[-1] + len(piece))
        for at in range(len(text)):
            changed = bytearray(text)
            changed[at] ^= 1 << at % 8
            status, out, err = replay(self.fresh(), bytes(changed))
            with self.subTest(f'byte {at}'):
                self.assertEqual((status, out), (1, b''))
                self.assertRegex(err, r'record [12]\n')
                if at < ends[2]:
                    self.assertIn('record 1\n', err)
                    self.assertEqual(dump(self.again), dump(self.before))

    def test_each_record(self):
        """A record that was lost, came twice or changed places is found."""
        whole = [*self.bodies, self.END]
        stood = pieces(chain(whole))
        for nth in range(len(stood)):
            front, rest = stood[:nth], stood[nth + 1:]
            cases = {'twice': [*front, stood[nth], stood[nth], *rest]}
            if rest:
                cases['lost'] = [*front, *rest]
                cases['after the next'] = [*front, rest[0], stood[nth], *rest[1:]]
            for what, found in cases.items():
                text = b'list 2\n' + b''.join(found)
                with self.subTest(f'record {nth}, {what}'):
                    status, out, err = replay(self.fresh(), text)
                    self.assertEqual((status, out), (1, b''))
                    self.assertRegex(err, r'record \d+\n')
                    self.list.write_bytes(text)
                    self.assertEqual(verify(self.list)[:2], (1, ''))
        self.list.write_bytes(b'list 2\n' + b''.join(stood[:-1]))
        self.check('its end lost', verify(self.list)[1].splitlines()[-1], 'not ended')

    def test_bad(self):
        text = chain(self.bodies)
        self.refused('cut in a record', text[:-1], 3)
        self.refused('cut in a line', text[:-len(self.bodies[-1]) - 30], 3)
        self.refused('no first line', text[7:], 1)
        self.refused('the first line twice', b'list 2\n' + text, 1)
        self.refused('another version', chain(self.bodies, b'list 3\n'), 1)
        self.refused('two ends', chain([*self.bodies, self.END, self.END]), 4)
        self.refused('an empty record', chain([self.bodies[0], b'']), 1)
        self.refused('no entry', chain([self.bodies[0], b'what is this\n']), 1)
        self.refused('zeros', b'list 2\n' + bytes(100_000), 1)


class Piped(JournalTestCase):
    """Another program drives a room by pipes: one record in, one answer out."""

    def test_answers(self):
        moment = int(time.time())
        self.digest = digest.of_file(self.room)
        process = subprocess.Popen([PROGRAM, 'replay', self.room, '--answers'],
                                   stdin=subprocess.PIPE, stdout=subprocess.PIPE,
                                   stderr=subprocess.PIPE)
        with process:
            process.stdin.write(written([('room', '2', self.digest)]))
            for nth, (sent, wanted) in enumerate([(call(1), 200), (DUTY, 200), (call(1), 200),
                                                  (message('nobody12', 'GET /queue'), 403)]):
                process.stdin.write(written([('message', str(moment + nth), sent)]))
                process.stdin.flush()
                word, status, size = process.stdout.readline().decode().split()
                answer = process.stdout.read(int(size))
                found = read_dated(io.BytesIO(answer))
                self.check(f'answer {nth}', (word, int(status), found[:2]),
                           ('answer', wanted, (moment + nth, wanted)))
                self.check(f'answer {nth} ends', process.stdout.read(1), b'\n')
            process.stdin.close()
            self.check('nothing more', process.stdout.read(), b'')
            self.check('its end', (process.wait(timeout=180), process.stderr.read()), (0, b''))
        self.check('one call', sql(self.room, 'SELECT count(*) FROM calls'), '1\n')

    def test_no_message(self):
        text = written([('room', '2', digest.of_file(self.room)), ('message', '1000', b'what')])
        done = subprocess.run([PROGRAM, 'replay', self.room, '--answers'], input=text,
                              capture_output=True, timeout=180)
        self.check('no message', (done.returncode, done.stdout, b'record 1' in done.stderr),
                   (1, b'', True))


class Day(TestCase):
    """A generated day of nine divisions, replayed over the room before it."""

    def test_day(self):
        stations = day.stations(60)
        fleet = [f'{it},{division},1,{day.reference(place)},crewof{it}'
                 for it, (division, place) in stations.items()]
        journal = self.folder / 'day.list'
        room = terminals.Room(self.folder, day.plan(), fleet, ['--journal', journal],
                              lambda file: shutil.copy(file, self.folder / 'before.db'))
        try:
            homes = {it: division for it, (division, _) in stations.items()}
            day.Day(1, terminals.Terminals(room, homes), stations).play(400)
        finally:
            room.end()
        # the room that was killed, as the next command finds it
        run('times', self.folder / 'room.db', 1, '1970-01-01')
        before = self.folder / 'before.db'
        status, out, err = replay(before, journal.read_bytes())
        self.check('it is replayed', (status, out.startswith(b'replayed '), err), (0, True, ''))
        with self.subTest('it is long'):
            self.assertGreater(int(out.split()[1]), 3000)
        for table in sql(before, "SELECT name FROM sqlite_schema WHERE type = 'table'").split():
            self.check(table, sql(before, f'SELECT * FROM {table}'),
                       sql(self.folder / 'room.db', f'SELECT * FROM {table}'))


class Stopped(PreloadedTestCase):
    """Wherever the program or the machine stops, the copy and the journal give the room that the
    next start finds."""

    def stopped(self, what, before, sent):
        file, listed = self.fresh(before), self.folder / 'case' / 'room.list'
        words = '--journal', listed, '--journal-sync', 'always'
        self.program.serve(NEVER_STOPPED | WRITES, file, sent, *words)
        total = self.program.total()
        for at in sampled(total):
            for how in (BEFORE, HALFWAY, MACHINE):
                with self.subTest(f'{what}, stopped at {at}, {how}'):
                    file = self.fresh(before)
                    self.program.serve(stop(at, how) | WRITES, file, sent, *words)
                    _, status, report = self.program.serve({}, file, QUEUE, *words)
                    self.assertEqual(status, 0, report)
                    copy = shutil.copy(before, self.folder / 'copy.db')
                    status, _, err = replay(copy, listed.read_bytes())
                    self.assertEqual((status, err), (0, ''))
                    self.assertEqual(dump(copy), dump(file))

    def test_stops(self):
        before = made(self.folder / 'before.db', CREW)
        self.stopped('a call', before, call(1))
        with serving(before, 1) as (port, process):
            talk(port, call(1), DUTY)
            process.wait(timeout=180)
        self.stopped('an order', before, MOBILISE)


class Unsynced(PreloadedTestCase):
    """What a start and a message make last. Where a list could not be made to last, what was
    answered is kept in it and in the room, the program ends, and the next start serves."""

    def setUp(self):
        super().setUp()
        self.before = made(self.folder / 'before.db', CREW)
        self.lists = self.folder.resolve() / 'lists'
        self.list = self.lists / 'room.list'

    def served(self, sent, *words, fails=0, synced=None):
        """Serves the room to one connection; the answers, the status, and what was reported."""
        switches = sync_fault(fails, synced or self.list)
        return self.program.serve(switches, self.file, sent, '--journal', self.list, *words)

    def anew(self):
        """A room and no list yet."""
        self.file = self.fresh(self.before)
        shutil.rmtree(self.lists, ignore_errors=True)
        self.lists.mkdir()

    def test_start(self):
        """A start makes what stands in the list last, and the first line of a new one, also where
        messages need not."""
        self.anew()
        self.check('it is served', self.served(QUEUE)[1:], (0, b''))
        self.check('a new list', self.program.total(), 2)
        self.check('it is served again', self.served(QUEUE)[1:], (0, b''))
        self.check('a list that stands', self.program.total(), 1)
        with self.list.open('ab') as it:
            it.write(b'00113 c41e')
        self.check('it is served once more', self.served(QUEUE)[1], 0)
        self.check('a list that is cut', self.program.total(), 2)

    def test_folder(self):
        self.anew()
        self.check('it is served', self.served(QUEUE, synced=self.lists)[1:], (0, b''))
        self.check('the folder of a new list', self.program.total(), 1)
        self.anew()
        report = self.served(QUEUE, synced=self.lists, fails=1)
        self.check('where it fails', report, ([], 6, b'journal\n'))

    def test_failing(self):
        sent, words = b''.join([call(1), DUTY, MOBILISE]), ('--journal-sync', 'always')
        self.anew()
        answers, *end = self.served(sent, *words)
        self.check('where none fails', ([it[0] for it in answers], end), ([200] * 3, [0, b'']))
        total = self.program.total()
        self.check('the start, the first line, the head, each message and the end', total, 7)
        for at in range(1, total + 1):
            self.anew()
            answers, *end = self.served(sent, *words, fails=at)
            self.check(f'where {at} fails', end, [6, b'journal\n'])
            kept = [int(it[1]) for it in entries(self.list.read_bytes()) if it[0] == 'answer']
            self.check(f'where {at} fails: the answers', [it[0] for it in answers],
                       kept[:len(answers)])
            self.check(f'where {at} fails: each message before', len(kept), max(at - 4, 0))
            self.check(f'after {at}', self.served(QUEUE, *words)[1:], (0, b''))
            copy = shutil.copy(self.before, self.folder / 'copy.db')
            status, _, err = replay(copy, self.list.read_bytes())
            self.check(f'after {at}: the list', (status, err), (0, ''))
            self.check(f'after {at}: the room', dump(copy), dump(self.file))


class Unwritten(PreloadedTestCase):
    """Each call of the disk fails in turn, writes to the list too. A service that ends well has said
    so in its list; else the program ends as `journal` or `storage`, and the next start serves."""

    def test_each(self):
        before, listed = made(self.folder / 'before.db', CREW), self.folder / 'list'

        def served(switches):
            file = self.fresh(before)
            listed.unlink(missing_ok=True)
            return self.program.serve(switches | WRITES, file, QUEUE, '--journal', listed), file

        (_, *end), _ = served(faults(0, 0))
        self.check('where none fails', (end, bodies(listed.read_bytes())[-1]),
                   ([0, b''], b'end\n'))
        whole, met = listed.read_bytes(), set()
        for at in range(1, self.program.total() + 1):
            (_, *end), file = served(faults(at, at))
            kept = listed.read_bytes() if listed.exists() else b''
            with self.subTest(f'where {at} fails'):
                self.assertIn(end, [[0, b''], [3, b'storage\n'], [6, b'journal\n']])
            if end[0] == 0:
                self.check(f'where {at} fails: the list', len(kept), len(whole))
            met.add((end[0], len(kept)))
            again = self.program.serve({}, file, QUEUE, '--journal', listed)
            self.check(f'after {at}', again[1], 0)
            self.check(f'after {at}: its end', bodies(listed.read_bytes())[-1], b'end\n')
        record = len(pieces(whole)[-1])
        self.check('where its end fails', (6, len(whole) - record) in met, True)
