"""The pipe by which a room gives its answers, read in the event loop: those that somebody waits for
soon, and all others when many have come, as each reading has its price."""
import asyncio
from collections.abc import Callable

SOON, LATER = 0.001, 0.005  # seconds until the pipe is read again
LONGEST_LINE = 64  # bytes of the line before an answer


class Answers(asyncio.Protocol):
    """The answers of one run of a room, each taken in turn until it ends, or gives what is none."""

    def __init__(self, take_all: Callable[[list[bytes]], None]):
        self.take_all, self.left = take_all, b''
        self.timer: asyncio.TimerHandle | None = None
        self.ended = asyncio.Event()

    def connection_made(self, transport: asyncio.ReadTransport) -> None:
        self.transport = transport

    def connection_lost(self, _: Exception | None) -> None:
        self.ended.set()
        self.take_all([])  # whoever waits for them looks at once

    def data_received(self, read: bytes) -> None:
        """Takes what is there."""
        try:
            found, self.left = whole_answers(self.left + read)
            self.take_all(found)
        except (ValueError, IndexError):
            self.transport.close()  # what it gave is no answer

    def read_at_once(self) -> None:
        """Reads as soon as there is something."""
        if self.timer:
            self.timer.cancel()
            self.go_on()

    def read_in(self, seconds: float) -> None:
        """Reads nothing for so long."""
        if not self.timer:
            self.transport.pause_reading()
            self.timer = asyncio.get_running_loop().call_later(seconds, self.go_on)

    def go_on(self) -> None:
        self.timer = None
        self.transport.resume_reading()


def whole_answers(read: bytes) -> tuple[list[bytes], bytes]:
    """The answers that came whole, and the rest."""
    found, at = [], 0
    while (end := read.find(b'\n', at)) >= 0:
        word, _, length = read[at:end].split(b' ')
        behind = end + 1 + int(length)
        if word != b'answer':
            raise ValueError
        if len(read) <= behind:
            break
        found.append(read[end + 1:behind])
        at = behind + 1
    if len(read) > at + LONGEST_LINE and end < 0:
        raise ValueError
    return found, read[at:]
