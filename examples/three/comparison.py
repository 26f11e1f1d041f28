"""Whether the rooms of three machines are the same: each second each gives the others the digest of
all answers up to its last record, and those of its copies, and compares theirs with its own."""
import time

from said import say

WAITS = 5.0  # seconds that two machines which differ wait for what the third has


class Comparison:
    """What one machine knows of the others' rooms beside its own: of answers and of copies, at
    which record they last were the same, and from which on they are not."""

    def __init__(self, of: int):
        self.of = of
        self.agreed: dict[tuple[int, str], int] = {}
        self.differs: dict[tuple[int, str], int] = {}
        self.since = float('inf')  # when the first that differs was seen
        self.odd = ''  # why this room is not asked any more, where two others say so

    def note(self, other: int, kind: str, number: int, is_same: bool) -> None:
        """Notes whether another machine has the same at a record. Once it has again, it was begun
        anew since."""
        it = other, kind
        if not is_same:
            self.since = min(self.since, time.monotonic())
            self.differs[it] = min(number, self.differs.get(it, number))
        else:
            self.agreed[it] = max(number, self.agreed.get(it, 0))
            if self.differs.get(it, number) <= number:
                self.differs.pop(it, None)

    def first_differing(self) -> dict[int, tuple[int, str]]:
        """The machines that differ, with the record, and in what."""
        found: dict[int, tuple[int, str]] = {}
        for (other, kind), number in [*self.differs.items()]:  # another thread may note one
            found[other] = min((number, kind), found.get(other, (number, kind)))
        return found

    def agreed_on(self, kind: str) -> int:
        """The last record at which another machine had the same."""
        return max((at for (_, it), at in self.agreed.items() if it == kind), default=0)

    def last_agreed(self) -> int:
        """The last record at which this room was as another's: where their answers differ since, or
        where their copies do."""
        rooms = self.agreed_on('rooms')
        if any(kind == 'rooms' for _, kind in self.differs):
            return rooms
        return max(rooms, self.agreed_on('answers'))

    def judge(self, silent: set[int]) -> str:
        """Why this machine takes nothing, or nothing: it is the odd one, which it stays; or it
        differs from one that is not silent, and no third has shown which of both is right."""
        found = self.first_differing()
        if not found:
            self.since = float('inf')
        elif 2 * len(found) > self.of and not self.odd:
            number = min(number for number, _ in found.values())
            self.odd = f'this room differs from those of all others at record {number}'
        undecided = ''
        for other, (number, kind) in found.items() if not self.odd else ():
            same = sum(at >= number for (it, of), at in self.agreed.items()
                       if of == kind and it not in found)
            if 2 * (1 + same) > self.of:
                say(f'the room of machine {other} differs at record {number} from this and another')
            elif other not in silent and time.monotonic() > self.since + WAITS:
                undecided = (f'the room differs at record {number} from that of machine {other}, '
                             'and no third shows which is right')
        return self.odd or undecided
