"""What the list is made of: entries, each of which is one put of etcd, has the records that waited
together, and names the entry before it by its digest."""
import dataclasses
import functools
import hashlib
import re
import typing

from clocks import LAST_MOMENT

MOST_RECORDS = 400  # of one entry; etcd takes one and a half megabytes
MOST_CHANGE = 1 << 18  # bytes of a change
LAST_READ = 4  # entries that are known again, as the last one is heard, found and read
# The head of a message as companions write it: no other is given to a room.
WRITTEN = re.compile(rb'[A-Z]{1,16} /[A-Za-z0-9/-]{0,127} HTTP/1\.1\r\nHost: room\r\n'
                     rb'X-Terminal: [A-Za-z0-9]{8,32}\r\nContent-Length: (\d{1,4})\r\n\r\n')
# The program's command, and the lines of its file.
CHANGE = re.compile(rb'(import|replan|terminals --from)\n.+'
                    rb'|terminals --revoke (desk|position):[1-9]\d{0,8}\n'
                    rb'|renew --since \d{4}-\d\d-\d\d\n', re.S)
NAME = re.compile(r'[0-9a-z-]{1,64}')
NUMBER = rb'(0|[1-9][0-9]{0,11})'
HEAD = re.compile(rb'entry 2 ([0-9a-f]{64}) %b %b %b\n' % (NUMBER, NUMBER, NUMBER))
RECORD = re.compile(rb'([a-z]{1,16}) ([0-9a-z-]{1,64}) %b\n' % NUMBER)


class Place(typing.NamedTuple):
    """How far a list is known: the number of the last record, and the digest and the moment of the
    entry that has it."""
    number: int
    digest: str
    moment: int = 0

    def text(self) -> bytes:
        return f'{self.number} {self.digest}'.encode()


class Record(typing.NamedTuple):
    """What every room plays: a terminal's message; or a change that is begun, or that takes the
    room's place, by its number, 0 where none does. And by whom it was put there. (A question is in
    no list.)"""
    name: str
    content: bytes
    kind: str = 'message'

    def is_whole(self) -> bool:
        """Whether a room can play it."""
        if not NAME.fullmatch(self.name):
            return False
        if self.kind == 'message':
            found = WRITTEN.match(self.content)
            return bool(found) and len(self.content) == found.end() + int(found[1])
        if self.kind == 'change':
            return len(self.content) <= MOST_CHANGE and bool(CHANGE.fullmatch(self.content))
        return self.kind == 'taken' and bool(re.fullmatch(NUMBER, self.content))


@dataclasses.dataclass(frozen=True)
class Entry:
    """Records that were put together, behind the entry of this digest: messages, or one that is
    none. The number is that of the last of them."""
    before: str
    number: int
    moment: int
    records: tuple[Record, ...]

    @property
    def first(self) -> int:
        return self.number - len(self.records) + 1

    @property
    def has_messages(self) -> bool:
        return all(it.kind == 'message' for it in self.records)

    @property
    def machine(self) -> int:
        """The machine that put it, by which the name of a terminal's record begins; 0 where none
        did."""
        machine = self.records[0].name.partition('-')[0] if self.records else ''
        return int(machine) if machine.isdecimal() else 0

    @functools.cached_property
    def text(self) -> bytes:
        head = f'entry 2 {self.before} {self.number} {self.moment} {len(self.records)}\n'
        return head.encode() + b''.join(
            b'%b %b %d\n%b\n' % (it.kind.encode(), it.name.encode(), len(it.content), it.content)
            for it in self.records)

    @functools.cached_property
    def place(self) -> Place:
        return Place(self.number, hashlib.sha256(self.text).hexdigest(), self.moment)

    def follows(self, place: Place) -> bool:
        """Whether it is the entry behind a place."""
        return (self.before == place.digest and self.first == place.number + 1
                and place.moment <= self.moment <= LAST_MOMENT)


def first_entry(file_digest: str) -> Entry:
    """The one with which the list of a room's file begins. It has no record."""
    return Entry(file_digest, 0, 0, ())


def entry_behind(place: Place, moment: int, records: list[Record]) -> Entry:
    return Entry(place.digest, place.number + len(records), max(moment, place.moment),
                 tuple(records))


def records_of(text: bytes, at: int) -> list[Record] | None:
    """The records behind a place of a text, where they are whole, and end it."""
    found = []
    while at < len(text):
        head = RECORD.match(text, at)
        behind = head.end() + int(head[3]) if head else at
        record = head and Record(head[2].decode(), text[head.end():behind], head[1].decode())
        if not record or text[behind:behind + 1] != b'\n' or not record.is_whole():
            return None
        found.append(record)
        at = behind + 1
    return found


@functools.lru_cache(LAST_READ)
def entry_of(text: bytes) -> Entry | None:
    """Reads what stands in the list. Whatever isn't an entry, byte for byte, is none; nor is a
    change beside another record."""
    head = HEAD.match(text)
    records = records_of(text, head.end()) if head else None
    if records is None or len(records) != int(head[4]) or len(records) > MOST_RECORDS:
        return None
    found = Entry(head[1].decode(), int(head[2]), int(head[3]), tuple(records))
    found.__dict__['text'] = text  # as it would be written
    return found if found.has_messages or len(records) == 1 else None
