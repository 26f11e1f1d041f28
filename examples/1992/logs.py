"""A desk's list in the model: a queue of causes, or a log of lines about them. Either may lose what
doesn't fit on the screen. A cause is given as its line, when it begins and when it is over."""
import bisect
import collections

from rooms import Line


class Queue:
    """Each cause once, the most urgent first."""

    def __init__(self, settings, stays: bool):
        self.settings, self.stays = settings, stays
        self.order, self.gone = [], set()  # those that stand, and of them those off the screen

    def __contains__(self, cause: Line) -> bool:
        at = bisect.bisect_left(self.order, cause)
        return cause in self.gone or self.order[at:at + 1] == [cause]

    def begin(self, cause: Line) -> None:
        bisect.insort(self.order, cause)

    def end(self, cause: Line) -> None:
        if cause in self.gone:
            self.gone.remove(cause)
        else:
            self.order.remove(cause)

    def look(self, now: int) -> None:
        """The least urgent go off the screen for good, where they don't stay."""
        if not self.stays:
            self.gone.update(self.order[self.settings.screen:])
            del self.order[self.settings.screen:]

    def on_screen(self) -> list[tuple[Line, bool]]:
        return [(it, True) for it in self.order[:self.settings.screen]]

    @property
    def waiting(self) -> int:
        return len(self.order) + len(self.gone)


class Log:
    """A line for each cause that is new, and another every so often until it is over. Lines stand
    in the order in which they were written, until they are taken off."""

    def __init__(self, settings, stays: bool):
        self.settings, self.stays = settings, stays
        self.shown, self.new = [], []  # lines, and causes that have none yet
        self.again = {}  # of each cause that stands, when it gets another line
        self.due = collections.deque()  # the same: moments, each with its causes
        self.gone, self.lost = collections.Counter(), 0  # lines off the screen of what still stands

    def __contains__(self, cause: Line) -> bool:
        return cause in self.again

    def begin(self, cause: Line) -> None:
        self.again[cause] = None
        self.new.append(cause)

    def end(self, cause: Line) -> None:
        del self.again[cause]
        self.lost -= self.gone.pop(cause, 0)

    def look(self, now: int) -> None:
        """Writes what is due. The oldest lines go off the screen for good, if they don't stay."""
        lines, self.new = {it for it in self.new if it in self.again}, []
        while self.due and self.due[0][0] <= now:
            at, causes = self.due.popleft()
            lines.update(it for it in causes if self.again.get(it) == at)
        if lines:
            self.write(sorted(lines), now + max(1, self.settings.nag))
        if not self.stays and len(self.shown) > self.settings.screen:
            many = len(self.shown) - self.settings.screen
            off = [it for it in self.shown[:many] if it in self.again]
            self.gone.update(off)
            self.lost += len(off)
            del self.shown[:many]

    def write(self, lines: list[Line], again: int) -> None:
        self.shown += lines
        self.again.update(dict.fromkeys(lines, again))
        self.due.append((again, lines))

    def on_screen(self) -> list[tuple[Line, bool]]:
        return [(it, it in self.again) for it in self.shown[:self.settings.screen]]

    def take_off(self, line: Line) -> None:
        self.shown.remove(line)

    @property
    def waiting(self) -> int:
        return len(self.shown) + self.lost
