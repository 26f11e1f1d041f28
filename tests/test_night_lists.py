"""Which records a night takes from the lists of a room, by lists that are made here: what rotations
moved away, in order; what was compressed, cut or changed; the lists of rooms that were renewed; and
a rotation in the middle of it."""
# needs: python3
import gzip
import hashlib
import sys

from journals import HEAD, OPENING, chain, ends
from room import TOP, TestCase

sys.path.insert(0, str(TOP / 'examples' / 'backup'))
import lists  # noqa: E402
from lists import Place, Untrusted  # noqa: E402

# Rooms by their digests, and records of a list.
A, B, C, D = (hashlib.sha256(it.encode()).hexdigest() for it in 'ABCD')
NONE = hashlib.sha256(b'none').hexdigest()
END = b'end\n'


def head(room):
    return f'room 2 {room}\n'.encode()


def asked(number):
    text = b'GET /queue HTTP/1.1\r\nX-Terminal: desk%d\r\n\r\n' % number
    return b'message 1774224000 %d\n%b\n' % (len(text), text)


def pair(number):
    return [asked(number), b'answer 200\n']


def place_of(text, records):
    """The place behind so many records of a list."""
    at = ends(text)[records]
    begin = ends(text)[records - 1]
    return Place(at, text[begin + 6:begin + HEAD - 1].decode())


class Lists(TestCase):
    def setUp(self):
        super().setUp()
        self.list = self.folder / 'room.list'

    def put(self, name, *bodies):
        """A list in the folder; its text."""
        text = chain([*bodies])
        file = self.folder / name
        file.write_bytes(gzip.compress(text) if file.suffix == '.gz' else text)
        return text

    def rest(self, digest=NONE, place=Place()):
        return lists.rest(self.list, digest, place)

    def refused(self, what, why, digest=NONE, place=Place()):
        with self.subTest(what):
            with self.assertRaisesRegex(Untrusted, why):
                self.rest(digest, place)

    def year(self):
        """Four parts, the oldest first, and the text of each."""
        return [self.put('room.list.10.gz', head(A), *pair(1), END),
                self.put('room.list.2.gz', head(B), *pair(2), *pair(3), END),
                self.put('room.list.1', head(C), *pair(4), END),
                self.put('room.list', head(D), *pair(5))]

    def test_in_order(self):
        """From wherever the last copy was, all that came later is taken, each once."""
        texts = self.year()
        each = [[head(A), *pair(1)], [head(B), *pair(2), *pair(3)], [head(C), *pair(4)],
                [head(D), *pair(5)]]
        self.check('parts', [it.name for it in lists.parts_of(self.list)],
                   ['room.list.10.gz', 'room.list.2.gz', 'room.list.1', 'room.list'])
        newest = place_of(texts[-1], 3)
        for part, text in enumerate(texts):
            for records in range(1, len(ends(text))):
                found = self.rest(place=place_of(text, records))
                wanted = [*each[part][records:], *sum(each[part + 1:], [])]
                self.check(f'part {part} behind {records} records',
                           (found.entries, found.place, found.heads, found.day),
                           (wanted, newest, set(), None))
        for part, room in enumerate([A, B, C, D]):
            self.check(f'from the head of part {part}', self.rest(room).entries,
                       sum(each[part:], []))

    def test_by_its_room_first(self):
        """A copy goes on in the newest list that begins with its room, as after a restore."""
        old = self.put('room.list.1', head(A), *pair(1), END)
        self.put('room.list', head(B), *pair(2))
        self.check('by its room', self.rest(B, place_of(old, 1)).entries, [head(B), *pair(2)])
        self.put('room.list.1', head(B), *pair(3), END)
        self.check('in the newest', self.rest(B).entries, [head(B), *pair(2)])

    def test_of_another_place(self):
        """A record is the copy's last only where it ends."""
        text = self.put('room.list', head(A), *pair(1), *pair(2))
        one, two = place_of(text, 2), place_of(text, 3)
        for place in Place(two.bytes, one.check), Place(one.bytes, two.check):
            self.refused(f'{place}', 'goes on from the last copy', NONE, place)

    def test_other_files(self):
        """What lies beside the list under other names is no part of it."""
        self.put('room.list', head(A), *pair(1))
        for name in ('room.list.cut.1', 'room.list.truncated.1', 'room.list.old', 'room.list2',
                     'other.list.1', 'room.list.1.xz', 'room.2026-03-31.list.cut.1'):
            self.put(name, head(B), *pair(2))
        self.check('parts', lists.parts_of(self.list), [self.list])
        self.check('no room before', lists.renewed(self.list), {})

    def test_while_it_is_compressed(self):
        """The part stands there whole until its compressed form does."""
        self.put('room.list.1', head(A), *pair(1), END)
        (self.folder / 'room.list.1.gz').write_bytes(gzip.compress(b'list 2\n')[:-3])
        self.put('room.list', head(B), *pair(2))
        self.check('taken', self.rest(A).entries, [head(A), *pair(1), head(B), *pair(2)])

    def test_not_settled(self):
        """A last message without a status, and last lines without a head, are left to the next
        night; in a part that has ended they are taken, for the next head says what came of them."""
        row = b'row callsign,division,kind,place,token\n'
        whole = [head(A), *pair(1)]
        for more in [[asked(2)], [head(B), row], [head(B), row, row]]:
            text = self.put('room.list', *whole, *more)
            found = self.rest(A)
            left = sum(it.startswith((b'message', b'row')) for it in more)
            self.check(f'{len(more)} records', (found.entries, found.place),
                       ([*whole, *more][:3 + len(more) - left],
                        place_of(text, 3 + len(more) - left)))
            self.put('room.list.1', *whole, *more)
            self.put('room.list', head(C))
            self.check(f'{len(more)} records in a part', self.rest(A).entries,
                       [*whole, *more, head(C)])
            (self.folder / 'room.list.1').unlink()

    def test_cut(self):
        """What is cut off within a record is still being written."""
        text = self.put('room.list', head(A), *pair(1), *pair(2))
        places = ends(text)
        for size in range(places[3], len(text)):
            self.list.write_bytes(text[:size])
            found = self.rest(A)
            self.check(f'{size} bytes', (found.entries, found.place),
                       ([head(A), *pair(1)], place_of(text, 3)))

    def test_changed(self):
        """Each byte that is changed is found, in a part, in the newest list and in a compressed
        one."""
        text = self.put('room.list.1', head(A), *pair(1), END)
        self.put('room.list', head(B), *pair(2))
        newest = self.list.read_bytes()
        for name, held in ('room.list.1', text), ('room.list', newest):
            for at in range(len(OPENING), len(held)):
                changed = bytes(it ^ 1 if nth == at else it for nth, it in enumerate(held))
                (self.folder / name).write_bytes(changed)
                self.refused(f'{name}: byte {at}', 'no record that comes next|goes on from', A)
            (self.folder / name).write_bytes(held)
        (self.folder / 'room.list.1').unlink()
        whole = gzip.compress(text)
        for at in range(len(whole) - 8, len(whole)):
            (self.folder / 'room.list.1.gz').write_bytes(whole[:at])
            self.refused(f'{at} compressed bytes', 'is not as it was compressed', A)

    def test_no_list(self):
        self.refused('none', 'room.list is not there')
        self.list.write_bytes(b'')
        self.check('an empty one', self.rest(A), lists.Rest([], Place(), set(), None))
        begun = self.put('room.list', head(A))
        for size in range(len(begun)):
            self.list.write_bytes(begun[:size])
            self.check(f'{size} bytes', self.rest(A).entries, [])
        self.refused('after records', 'goes on from the last copy', A, place_of(begun, 1))
        self.put('room.list', head(B), *pair(1))
        self.refused('of another room', 'goes on from the last copy', A)
        self.list.write_bytes(b'x' + begun)
        self.refused('what is no list', 'goes on from the last copy', A)
        self.put('room.list.1', head(A), END)
        self.list.unlink()
        self.refused('where none is written', 'room.list is not there', A)

    def test_renewed(self):
        """What the old room's lists have is taken first, and which rooms come next is told."""
        texts = [self.put('room.2026-03-31.043000.list.1', head(A), *pair(1), END),
                 self.put('room.2026-03-31.043000.list', head(B), *pair(2), END),
                 self.put('room.2026-04-07.list', head(C), *pair(3), END),
                 self.put('room.list', head(D), *pair(4))]
        found = self.rest(place=place_of(texts[0], 3))
        self.check('two rooms before', (found.entries, found.heads, found.day),
                   ([head(B), *pair(2)], {C, D}, '2026-03-24'))
        found = self.rest(place=place_of(texts[1], 4))
        self.check('nothing is left', (found.entries, found.heads, found.day),
                   ([], {C, D}, '2026-03-24'))
        found = self.rest(C)
        self.check('the room before', (found.entries, found.heads, found.day),
                   ([head(C), *pair(3)], {D}, '2026-03-31'))
        found = self.rest(D)
        self.check('this room', (found.entries, found.heads, found.day),
                   ([head(D), *pair(4)], set(), None))

    def test_rotated_meanwhile(self):
        """What is read while a rotation moves a list is read again."""
        text = self.put('room.list', head(A), *pair(1))
        reads = []

        def read():
            found = self.rest(place=place_of(text, 1))
            if not reads:
                self.list.rename(self.folder / 'room.list.1')
                self.put('room.list', head(B), *pair(2))
            reads.append(found)
            return found

        self.check('the last', lists.steady(self.list, read).entries,
                   [*pair(1), head(B), *pair(2)])
        self.check('readings', len(reads), 2)
