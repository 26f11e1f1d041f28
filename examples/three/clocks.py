"""The clocks of a machine: time that passes also while it sleeps, the moment that it gives, and the
moments that the other machines report."""
import time
import typing

APART = 60  # seconds that the clocks of two machines may be apart where no third is known
NEAR = 5  # seconds from the middle at which the own clock counts: others' are heard late
RECENT = 10.0  # seconds since a machine gave its clock, which then counts for the middle
LAST_MOMENT = 4_102_444_799  # the end of 2099


def passed() -> float:
    """Seconds of a clock that goes on while the machine is suspended."""
    return time.clock_gettime(time.CLOCK_BOOTTIME)


def moment() -> int:
    """Seconds of UTC since 1970, as this machine has them."""
    return int(time.time())


class Heard(typing.NamedTuple):
    """What a machine gave: by the revision of etcd that has it, its moment, and when it was heard
    first. What stood there already is of unknown age, and shows nothing."""
    revision: int
    moment: int
    at: float
    is_fresh: bool


class OtherClocks:
    """The clocks of the other machines, as far as they were heard of. Each is known to be at least
    what it reported, and what has passed since."""

    def __init__(self, trusts_own: bool = False):
        self.trusts_own = trusts_own
        self.heard: dict[int, Heard] = {}
        self.began = passed()

    def hear(self, machine: int, revision: int, reported: int) -> bool:
        """Hears what a machine gave; whether it is of now."""
        before = self.heard.get(machine)
        if before and before.revision == revision:
            return False
        self.heard[machine] = Heard(revision, reported, passed(), before is not None)
        return before is not None

    def silent_for(self, machine: int) -> float:
        """Seconds since a machine was heard of."""
        heard = self.heard.get(machine)
        return passed() - (heard.at if heard else self.began)

    def known(self, within: float = float('inf')) -> list[int]:
        """The clocks that were heard within so many seconds, as they are now."""
        return [int(it.moment + passed() - it.at) for it in [*self.heard.values()]
                if it.is_fresh and passed() - it.at < within]

    def middle(self) -> int:
        """The moment: this machine's own where it is near to the middle of the clocks of three that
        are there, or fewer are; and else the middle."""
        own = moment()
        clocks = sorted([own, *self.known(RECENT)])
        middle = clocks[len(clocks) // 2]
        is_own = len(clocks) < 3 or abs(own - middle) <= NEAR
        return min(own if is_own else middle, LAST_MOMENT)

    def ahead(self, now: int) -> int | None:
        """By how many seconds a moment of this machine is above the clocks of all others that were
        heard of late, or of all where none was, or below them as a negative number; 0 between them,
        and none where no other was heard."""
        clocks = self.known(RECENT) or self.known()
        return max(now - max(clocks), 0) or min(now - min(clocks), 0) if clocks else None

    def fault(self) -> str:
        """Why there is no moment, or nothing. Of three clocks one may be wrong."""
        ahead = self.ahead(moment())
        if ahead is None:
            return '' if self.trusts_own else 'no other machine tells its clock'
        if abs(ahead) > APART and len(self.known(RECENT)) < 2:
            return f'the clock is {abs(ahead)} s {"ahead of" if ahead > 0 else "behind"} the others'
        return ''
