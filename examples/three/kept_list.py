"""The list of one room's records, as the machines keep it in etcd: one key an entry, and one that
names the last. An entry is put only where the last is the one that its machine has played to. Which
entry stands where, and what is kept, is etcd's to say."""
import collections
import re
import typing
from collections.abc import Iterator

from entries import Entry, Place, Record, entry_behind, entry_of
from etcd import Member, Unreached, coded, decoded

ROOM = 'room/2/'  # by the version of what an entry is
LIST, AFTER_LIST = f'{ROOM}list/', f'{ROOM}list0'
HEAD = f'{ROOM}head'  # the place of the last entry
OUTCOMES = f'{ROOM}outcomes/'  # what became of changes, by their records
TOLD = 100_000  # records behind a change in which its outcome is told
MOST_READ = 100  # keys that are read at once
HEAD_FORM = re.compile(rb'(0|[1-9][0-9]{0,11}) ([0-9a-f]{64})')


class Lost(Exception):
    """The list is not the one that this machine's room has played, or has gone on without it."""


class Found(typing.NamedTuple):
    """What a look at the list gave: the entries behind the place that was known, whether they are
    all, what stands among them and is none, etcd's revision, and why the list can't go on. Where
    the list doesn't end with its entries: the place where those end, and its head's row."""
    entries: list[Entry]
    is_all: bool
    foreign: list[str]
    revision: int
    fault: str = ''
    doubt: tuple[Place, dict] | None = None


def key_of(number: int) -> str:
    return f'{LIST}{number:012}'


def span(first: str, behind: str = '') -> dict:
    return {'key': coded(first)} | ({'range_end': coded(behind)} if behind else {})


def under(prefix: str) -> dict:
    """All keys that begin so."""
    return span(prefix, prefix[:-1] + chr(ord(prefix[-1]) + 1))


def is_value(key: str, value: bytes) -> dict:
    return span(key) | {'target': 'VALUE', 'result': 'EQUAL', 'value': coded(value)}


def is_none(keys: dict) -> dict:
    return keys | {'target': 'CREATE', 'result': 'EQUAL', 'create_revision': '0'}


def is_of(key: str, revision: int) -> dict:
    return span(key) | {'target': 'MOD', 'result': 'EQUAL', 'mod_revision': str(revision)}


def put(key: str, value: bytes | str) -> dict:
    return {'request_put': span(key) | {'value': coded(value)}}


def delete(keys: dict) -> dict:
    return {'request_delete_range': keys}


def get(keys: dict, **more: object) -> dict:
    return {'request_range': keys | more}


def value_of(row: dict) -> bytes:
    return decoded(row.get('value', ''))


def pairs(found: dict) -> list[tuple[str, bytes]]:
    """The keys that were found, and what stands there."""
    return [(decoded(it['key']).decode(errors='replace'), value_of(it))
            for it in found.get('kvs', [])]


def head_of(text: bytes) -> Place | None:
    found = HEAD_FORM.fullmatch(text)
    return Place(int(found[1]), found[2].decode()) if found else None


def linked(known: Place | None, rows: list[tuple[str, bytes]]) -> tuple[list[Entry], list[str]]:
    """The entries among rows that follow a place, one behind the other, or of none the most that
    do; where several stand behind one, those that go on. And the keys of all that is none of them.
    Every machine finds the same."""
    behind: dict[str, list[Entry]] = collections.defaultdict(list)  # by the digest before
    lengths: dict[str, int] = {}  # of what begins with an entry, by its digest

    def length(entry: Entry | None) -> int:
        return lengths[entry.place.digest] if entry else 0

    def next_of(place: Place) -> Entry | None:
        return max((it for it in behind[place.digest] if it.follows(place)), key=length,
                   default=None)
    for key, text in reversed(rows):
        entry = entry_of(text)
        if entry and key == key_of(entry.number):
            lengths[entry.place.digest] = 1 + length(next_of(entry.place))
            behind[entry.before].append(entry)
    every = [it for some in behind.values() for it in some]
    found = next_of(known) if known else max(every, key=length, default=None)
    entries = []
    while found:
        entries.append(found)
        found = next_of(found.place)
    keys = {key_of(it.number) for it in entries}
    return entries, [key for key, _ in rows if key not in keys]


# ---- what is asked of etcd, and what its answers say

TXN, RANGE = '/v3/kv/txn', '/v3/kv/range'


def transaction(holds: list[dict], then: list[dict]) -> dict:
    return {'compare': holds, 'success': then}


def reading(known: Place, is_latest: bool) -> dict:
    """Entries behind a place: those that the member has, or those that any has."""
    how, behind = {'serializable': not is_latest}, span(key_of(known.number + 1), AFTER_LIST)
    return transaction([], [get(span(HEAD), **how), get(behind, limit=MOST_READ, **how)])


def keeping(known: Place, entry: Entry, revision: int) -> dict:
    """Has an entry put behind the place that is known, where that is the list's end, and nothing
    was put behind it since a revision by which all that stands there was seen. Where that is asked
    again after Unreached, for the same place, at most one of both is done."""
    is_seen = span(key_of(known.number + 1), AFTER_LIST) | {
        'target': 'MOD', 'result': 'LESS', 'mod_revision': str(revision + 1)}
    return transaction([is_value(HEAD, known.text()), is_seen], [
        put(key_of(entry.number), entry.text), put(HEAD, entry.place.text())])


def kept(entry: Entry, answer: dict) -> Found | None:
    """What there is once an entry was put, nothing where it was not."""
    revision = int(answer['header']['revision'])
    return Found([entry], True, [], revision) if answer.get('succeeded') else None


def seen(known: Place, answer: dict, is_latest: bool) -> Found:
    """What looks gave, of one moment. Where the list doesn't end with its entries, that is in doubt
    by the word of most members, and shows nothing by that of one, which may have been away."""
    heads, rows = (it['response_range'] for it in answer['responses'])
    entries, foreign = linked(known, pairs(rows))
    last, head = entries[-1].place if entries else known, (heads.get('kvs') or [{}])[0]
    revision, is_all = int(answer['header']['revision']), value_of(head) == last.text()
    if is_all or rows.get('more') and entries:
        return Found(entries, is_all, foreign, revision)
    return (Found([], False, foreign, revision, doubt=(last, head)) if is_latest
            else Found([], False, [], revision))


class KeptList:
    """The list, by one connection to a member of etcd, which is used by one thread at a time."""

    def __init__(self, member: Member):
        self.member = member

    def change(self, holds: list[dict], then: list[dict]) -> dict:
        return self.member.ask(TXN, transaction(holds, then))

    # ---- reading

    def settled(self, found: Found) -> Found:
        """What a look gave, once it is looked into where it is in doubt."""
        fault = self.fault(*found.doubt) if found.doubt else ''
        return found._replace(foreign=[] if fault else found.foreign, fault=fault)

    def fault(self, last: Place, row: dict) -> str:
        """Why the list doesn't end with its entries, or nothing where its head is foreign, or was
        not moved, and is mended: nothing was put since. A place that is known and not in the list
        is shown."""
        entry, head = self.entry(last.number), head_of(value_of(row))
        if not entry or entry.place != last:
            raise Lost(f'the list went back: it ends at record {head.number if head else 0}, and '
                       f'this room has played {last.number}')
        if not head or head.number < last.number:
            self.change([is_of(HEAD, int(row.get('mod_revision', 0)))], [put(HEAD, last.text())])
            return ''
        if self.entry(head.number, head.digest):
            return (f'record {last.number + 1} of the list is gone: bring a copy of another '
                    'machine, or companion.py mend')
        return (f'the list ends at record {last.number}, and its head names another record '
                f'{head.number}: companion.py mend')

    def read(self, known: Place) -> Found:
        return self.settled(seen(known, self.member.ask(TXN, reading(known, True)), True))

    def entry(self, number: int, digest: str = '') -> Entry | None:
        """The entry that ends with a record, where there is one, of the digest that is given."""
        found = pairs(self.member.ask(RANGE, span(key_of(number))))
        entry = entry_of(found[0][1]) if found else None
        return entry if entry and digest in ('', entry.place.digest) else None

    def values(self, prefix: str) -> Iterator[tuple[str, bytes, int]]:
        """What stands under a prefix: the rest of each key, its value and its revision."""
        asked, is_more = under(prefix) | {'limit': MOST_READ}, True
        while is_more:
            found = self.member.ask(RANGE, asked)
            for row, (key, value) in zip(found.get('kvs', []), pairs(found)):
                yield key.removeprefix(prefix), value, int(row['mod_revision'])
                asked['key'] = coded(f'{key}\0')
            is_more = found.get('more')

    def ends(self) -> tuple[int, int]:
        """The numbers of the first entry and of the head."""
        answer = self.change([], [get(span(HEAD)), get(under(LIST), limit=1, keys_only=True)])
        heads, first = (pairs(it['response_range']) for it in answer['responses'])
        head = head_of(heads[0][1]) if heads else None
        number = first[0][0].removeprefix(LIST) if first else ''
        return int(number) if number.isdigit() else 0, head.number if head else 0

    # ---- writing

    def keep(self, known: Place, moment: int, records: list) -> Found:
        """Puts an entry behind the place that is known; gives what stands there now."""
        found = self.read(known)
        if not found.is_all or found.entries:
            return found
        entry = entry_behind(known, moment, records)
        asked = keeping(known, entry, found.revision)
        return kept(entry, self.member.ask(TXN, asked)) or self.read(known)

    def append(self, record: Record) -> int | None:
        """Puts a record at the list's end; gives its number, or none where there is no list. Where
        etcd is silent it is put again at the same place, so it is not there twice."""
        entry = self.entry(self.ends()[1])
        place = entry and entry.place
        while place:
            found = self.keep(place, 0, [record])
            if found.fault:
                raise Unreached(found.fault)
            for it in found.entries:
                place = it.place
                if it.records == (record,):
                    return it.number
        return None

    def begin(self, first: Entry) -> Entry | None:
        """Makes the first entry where there is no list; gives the one that is there."""
        self.change([is_none(span(HEAD)), is_none(under(LIST))],
                    [put(key_of(0), first.text), put(HEAD, first.place.text())])
        return self.entry(0)

    def drop_before(self, number: int) -> int:
        """Deletes the entries before the one that ends with this record, and outcomes of long
        before; gives the revision."""
        told = f'{OUTCOMES}{max(number - TOLD, 0):012}'
        answer = self.change([], [delete(span(key_of(0), key_of(number))),
                                  delete(span(OUTCOMES, told))])
        return int(answer['header']['revision'])
