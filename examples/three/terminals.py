"""The connections of terminals: many at once, each with one request after another, and each within
its times."""
import asyncio
import functools
from collections.abc import Callable

from clocks import passed
from messages import LONGEST_HEAD, Refused, Request, next_request

ASKS_WITHIN = 2.0  # seconds that a request may take to come, and its answer to be taken
IDLE = 30.0  # seconds that a connection may be kept with nothing said
LOOKS_EVERY = 0.25  # seconds between two looks at which connections are past their time
MOST_CONNECTIONS = 1000
MOST_WAITING = 1 << 16  # bytes behind a request that is not answered yet
MOST_DRAINED = 1 << 20  # bytes that are thrown away behind the last request

Reply = Callable[[bytes], None]


class Connection(asyncio.Protocol):
    """One connection of a terminal."""

    def __init__(self, among: 'Connections'):
        self.among = among
        self.read = b''
        self.is_asking = self.is_last = self.has_eof = False
        self.is_full = False  # its answers wait to be taken
        self.drained = 0
        self.until = passed() + ASKS_WITHIN

    # ---- the wire

    def connection_made(self, transport: asyncio.Transport) -> None:
        self.transport = transport
        self.among.all.add(self)
        if len(self.among.all) > MOST_CONNECTIONS:
            transport.abort()

    def connection_lost(self, _: Exception | None) -> None:
        self.among.all.discard(self)

    def data_received(self, read: bytes) -> None:
        if self.is_last:
            self.drained += len(read)
            if self.drained > MOST_DRAINED:
                self.transport.abort()
            return
        if not self.read and not self.is_asking:
            self.until = passed() + ASKS_WITHIN
        self.read += read
        if len(self.read) > MOST_WAITING:
            self.transport.pause_reading()
        self.ask_next()

    def eof_received(self) -> bool:
        """The terminal says no more; what it asked is still answered."""
        self.has_eof = True
        if self.is_last:
            self.transport.close()
        self.ask_next()
        return True

    def pause_writing(self) -> None:
        self.is_full = True

    def resume_writing(self) -> None:
        self.is_full = False
        self.ask_next()

    # ---- requests

    def ask_next(self) -> None:
        """Asks what stands at the front of what was read, once what was asked before is answered,
        and the answer taken."""
        while not (self.is_asking or self.is_full or self.is_last
                   or self.transport.is_closing()):
            try:
                found = next_request(self.read)
            except Refused as refused:
                self.give(refused.answer, True)
                return
            if not found:
                if self.has_eof:
                    self.transport.close()  # once all is written
                return
            request, length = found
            self.read = self.read[length:]
            if isinstance(request, Refused):
                self.give(request.answer, request.is_last)
                continue
            self.is_asking, self.until = True, float('inf')
            self.among.answering(request, functools.partial(self.take, request.is_last))

    def take(self, is_last: bool, answer: bytes) -> None:
        """Gives the answer of what was asked, and goes on."""
        self.is_asking = False
        if self.transport.is_closing():
            return
        self.transport.resume_reading()
        self.give(answer, is_last)
        if self.read or self.has_eof:
            asyncio.get_running_loop().call_soon(self.ask_next)

    def give(self, answer: bytes, is_last: bool) -> None:
        """Writes an answer. The last one arrives whole: what still comes is read, and thrown
        away."""
        if is_last and b'\r\nConnection: close' not in answer:
            answer = answer.replace(b'\r\n\r\n', b'\r\nConnection: close\r\n\r\n', 1)
        self.transport.write(answer)
        self.until = passed() + (ASKS_WITHIN if is_last or self.read else IDLE)
        if is_last:
            self.read, self.is_last = b'', True
            if self.has_eof:
                self.transport.close()
            else:
                self.transport.write_eof()


class Connections:
    """All connections of terminals."""

    def __init__(self, answering: Callable[[Request, Reply], None]):
        self.answering = answering
        self.all: set[Connection] = set()

    async def listen(self, host: str, port: int) -> None:
        self.listening = await asyncio.get_running_loop().create_server(
            lambda: Connection(self), host, port, backlog=MOST_CONNECTIONS)
        self.sweeping = asyncio.create_task(self.sweep())

    async def sweep(self) -> None:
        """Closes what is past its time, for good."""
        while True:
            await asyncio.sleep(LOOKS_EVERY)
            now = passed()
            for it in [it for it in self.all if now > it.until]:
                it.transport.abort()

    async def end(self) -> None:
        """Lets all go, none of which waits for an answer any more, once those are written."""
        self.listening.close()
        for it in list(self.all):
            it.transport.close()
        until = passed() + ASKS_WITHIN
        while self.all and passed() < until:
            await asyncio.sleep(0.05)


assert LONGEST_HEAD < MOST_WAITING
