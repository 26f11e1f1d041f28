"""Bits of lists, turned. Whoever opens a list to write takes nothing away from it but the beginning
of one record at its end, and sets that aside: where a bit of a whole record was turned, the list is
refused, and stays as it was."""
# needs: python3
# builds: dispatch_room
import os

from journals import CREW, HEAD, QUEUE, JournalTestCase, chain, head_of, pieces
from room import fleet_of, run

EVERY = 'EVERY_PLACE' in os.environ  # tests/run --all


def turned(text, at, bit):
    """The text with this bit turned."""
    found = bytearray(text)
    found[at] ^= 1 << bit
    return bytes(found)


def places(text, start=0):
    """Bytes and bits of a text to turn: every one, or one bit of each third byte."""
    if EVERY:
        return [(at, bit) for at in range(start, len(text)) for bit in range(8)]
    return [(at, at // 3 % 8) for at in range(start, len(text), 3)]


class TurnedBits(JournalTestCase):
    def setUp(self):
        super().setUp()
        self.fleet = self.folder / 'fleet.csv'
        self.fleet.write_text(fleet_of(CREW))
        head = head_of(self.room)
        self.bodies = [head, b'message 1774771200 %d\n%b\n' % (len(QUEUE), QUEUE), b'answer 200\n',
                       b'end\n', head, b'row callsign,division,kind,place,token\n',
                       b'row A1,1,1,TQ303804,crewofa1\n', head]

    def opened(self, text):
        """Opens a list of this text to write, as an import does that changes nothing; the status,
        what was reported, what stands in the list then, and what lies beside it."""
        self.list.write_bytes(text)
        status, _, err = run('import', self.room, self.fleet, '--journal', self.list)
        beside = {it.name: it.read_bytes() for it in sorted(self.folder.glob('room.list.*'))}
        for name in beside:
            (self.folder / name).unlink()
        return status, err, self.list.read_bytes(), beside

    def refused(self, what, text):
        status, _, now, beside = self.opened(text)
        with self.subTest(what):
            self.assertEqual((status, now == text, beside), (6, True, {}))

    def test_each_bit(self):
        """A list with a record of each kind, whichever bit is turned."""
        text = chain(self.bodies)
        self.check('as it is', self.opened(text)[0], 0)
        for at, bit in places(text):
            self.refused(f'byte {at}, bit {bit}', turned(text, at, bit))

    def test_each_size(self):
        """The size of the last record, of each kind, and of the one before it."""
        for count in range(1, len(self.bodies) + 1):
            text = chain(self.bodies[:count])
            stood = pieces(text)
            for nth in {count - 1, max(count - 2, 0)}:
                start = len(b'list 2\n' + b''.join(stood[:nth]))
                for at in range(start, start + 5):
                    for bit in range(8) if EVERY else (0, 3, 5):
                        self.refused(f'{count} records, byte {at}, bit {bit}',
                                     turned(text, at, bit))

    def test_cut(self):
        """The beginning of one record is taken away, and lies beside the list."""
        stood = pieces(chain(self.bodies))
        for nth, piece in enumerate(stood):
            whole = b'list 2\n' + b''.join(stood[:nth])
            lengths = {1, 5, 6, HEAD - 1, HEAD, HEAD + 1, HEAD + 3, len(piece) - 1}
            for length in range(1, len(piece)) if EVERY else sorted(lengths):
                status, err, now, beside = self.opened(whole + piece[:length])
                with self.subTest(f'{length} bytes of record {nth}'):
                    self.assertEqual((status, now[:len(whole)] == whole, beside),
                                     (0, True, {'room.list.cut.1': piece[:length]}))
                    self.assertIn(f'set aside as {self.list}.cut.1\n', err)

    def test_turned_and_cut(self):
        """Where what is cut was turned too, no byte is lost, and none of the whole records goes."""
        stood = pieces(chain(self.bodies))
        for nth, piece in enumerate(stood):
            whole = b'list 2\n' + b''.join(stood[:nth])
            text = whole + piece[:-1]
            for at, bit in places(text, len(whole)):
                found = turned(text, at, bit)
                status, _, now, beside = self.opened(found)
                with self.subTest(f'record {nth}, byte {at}, bit {bit}'):
                    if status == 6:
                        self.assertEqual((now == found, beside), (True, {}))
                    else:
                        self.assertEqual((status, now[:len(whole)] == whole, beside),
                                         (0, True, {'room.list.cut.1': found[len(whole):]}))

    def test_own_length(self):
        """A message that is cut has the size that its own line gives; another is refused."""
        whole, message = chain(self.bodies[:1]), pieces(chain(self.bodies[:2]))[1]
        cut = message[:-10]
        self.check('its own', self.opened(whole + cut)[0], 0)
        for size in (1, -1, 100):
            line = b'%05d' % (int(cut[:5]) + size)
            self.refused(f'{size} more', whole + line + cut[5:])
        more = b'1' + cut[1:]
        self.refused('a size that no record has', whole + more)

    def test_first_version(self):
        """Of a list of version 1, which has no checks and takes no import, no byte is lost."""
        text = b''.join(it for it in self.bodies if not it.startswith((b'row ', b'end\n')))
        for at, bit in places(text):
            found = turned(text, at, bit)
            status, _, now, beside = self.opened(found)
            aside = beside.pop('room.list.cut.1', b'')
            with self.subTest(f'byte {at}, bit {bit}'):
                self.assertEqual((status, now + aside == found, beside), (6, True, {}))

    def test_truncated(self):
        """Of a list that was emptied while it was written, what was appended lies beside the new
        one. One that was truncated otherwise can't be told from a changed one, and is refused."""
        whole = chain(self.bodies)
        stood = pieces(whole)
        for nth in range(1, len(stood)):
            left = b''.join(stood[nth:])
            for what, text in {'whole': left, 'cut': left[:-3], 'a line': left[:HEAD]}.items():
                status, err, now, beside = self.opened(text)
                with self.subTest(f'{what}, from record {nth}'):
                    self.assertEqual((status, now.startswith(whole[:len(b'list 2\n' + stood[0])]),
                                      beside), (0, True, {'room.list.truncated.1': text}))
                    self.assertIn(f'what is left is set aside as {self.list}.truncated.1\n', err)
            self.refused(f'less than a line, from record {nth}', left[:HEAD - 1])
            if nth + 1 < len(stood):
                lost = b''.join(stood[:nth] + stood[nth + 1:])
                self.refused(f'without record {nth}', b'list 2\n' + lost)
                self.refused(f'record {nth} in part', b'list 2\n' + b''.join(stood[:nth])
                             + stood[nth][:-9] + b''.join(stood[nth + 1:]))

    def test_never_written_over(self):
        """What was set aside stays as it is."""
        whole = chain(self.bodies)
        for number in (1, 2, 3):
            self.list.write_bytes(whole + b'0001%d' % number)
            status, _, err = run('import', self.room, self.fleet, '--journal', self.list)
            self.check(f'{number}: the status', status, 0)
            self.check(f'{number}: its name', f'set aside as {self.list}.cut.{number}\n' in err,
                       True)
        lying = [self.list.with_name(f'room.list.cut.{it}') for it in (1, 2, 3)]
        self.check('what lies there', [it.read_bytes() for it in lying],
                   [b'00011', b'00012', b'00013'])
        self.check('for its owner only', {it.stat().st_mode & 0o777 for it in lying}, {0o600})
