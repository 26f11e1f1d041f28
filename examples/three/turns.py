"""Whose turn it is to put next. Where several machines have something, all but one of those that
put at the same place do so in vain, so they go by turns. That only has a machine wait: who was
first is etcd's to say."""
import time

ACTIVE = 0.1  # seconds behind a machine's put, in which it is expected to have more
LEAST, MOST = 0.002, 0.02  # seconds that a machine is given for its turn
SMOOTHED = 8  # puts of which the time that one takes is a mean


class Turns:
    """The turns as one machine knows them: the next is that of the machine whose number is behind
    that of the one which put last."""

    def __init__(self, machine: int, of: int):
        self.machine, self.of = machine, of
        self.last, self.at = machine, float('-inf')  # who put last, and when it was known here
        self.put = dict.fromkeys(range(1, of + 1), float('-inf'))  # when each did
        self.takes = LEAST  # seconds that a put takes

    def note(self, machine: int) -> None:
        """Notes that a machine has put an entry."""
        if machine in self.put:
            self.last, self.at = machine, time.monotonic()
            self.put[machine] = self.at

    def note_time(self, seconds: float) -> None:
        """Notes how long a put took."""
        self.takes += (seconds - self.takes) / SMOOTHED

    def others(self) -> int:
        """How many other machines put something at the time."""
        now = time.monotonic()
        return sum(now - at < ACTIVE for it, at in self.put.items() if it != self.machine)

    def wait(self) -> float:
        """Seconds until this machine may put: others that are expected to put have their turns
        before."""
        now, before, nth = time.monotonic(), 0, self.last % self.of + 1
        while nth != self.machine:
            before += now - self.put[nth] < ACTIVE
            nth = nth % self.of + 1
        return self.at + before * min(max(2 * self.takes, LEAST), MOST) - now
