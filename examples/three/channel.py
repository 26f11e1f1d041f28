"""A connection to a machine's member of etcd in an event loop: JSON by HTTP, by TLS with a
certificate and by a user where they are given; kept from one request to the next, and read as its
answers come."""
import asyncio
import dataclasses
import json
import re
from collections.abc import Callable

from certificates import Secured

LENGTH = re.compile(rb'\r\ncontent-length: (\d+)', re.I)
END = b'\r\n\r\n'
CONNECTS_WITHIN = 1.0  # seconds, which the member needs no other one for
TOKEN_WITHIN = 10.0  # seconds
MOST_LINE = 1 << 25  # bytes of one line of a watch, which is at most what etcd takes of one put

TakeLine = Callable[[bytes], None]


class Unreached(Exception):
    """The member gave no answer in its time. What was asked of it may still be done, later too."""


class NoSpace(Unreached):
    """etcd's quota is used up."""


class NoUser(Unreached):
    """etcd wants a token of a user, or another one."""


@dataclasses.dataclass
class Reach:
    """How a member is reached, and the token that its user has at the time."""
    host: str
    port: int
    secured: Secured | None = None
    user: str = ''
    password: str = ''
    token: str = ''


def fault_of(status: int, content: bytes) -> Unreached:
    text = content[:300].decode(errors='replace').strip()
    if 'space exceeded' in text:
        return NoSpace(f'etcd: {text}')
    if re.search('auth token|user name is empty|revision in header is old', text):
        return NoUser(f'etcd: {text}')
    return Unreached(f'etcd: {status} {text}')


class Wire(asyncio.Protocol):
    """What comes by one connection: answers of HTTP with a length, or in chunks. Each is handed on
    whole, but those with 200 line by line where somebody hears them as they come."""

    def __init__(self) -> None:
        self.read = b''
        self.status, self.left = 0, -1  # of what comes: its status, and its bytes where it has said
        self.parts: list[bytes] = []
        self.answered: asyncio.Future = asyncio.get_running_loop().create_future()
        self.take_line: TakeLine | None = None
        self.transport: asyncio.Transport | None = None

    def connection_made(self, transport: asyncio.Transport) -> None:
        self.transport = transport

    def connection_lost(self, _: Exception | None) -> None:
        self.fail('it closed the connection')

    def fail(self, why: str) -> None:
        """Ends it, as what still comes is no answer of the next request."""
        if self.transport:
            self.transport.abort()
        self.transport = None
        if not self.answered.done():
            self.answered.set_exception(Unreached(f'etcd: {why}'))
            self.answered.exception()  # it is known, also where nobody waits for it

    def send(self, request: bytes) -> asyncio.Future:
        """Asks; gives what will have the status and the content."""
        self.answered = asyncio.get_running_loop().create_future()
        self.status, self.left, self.parts = 0, -1, []
        if self.transport:
            self.transport.write(request)
        else:
            self.fail('it closed the connection')
        return self.answered

    def data_received(self, read: bytes) -> None:
        self.read = self.read + read if self.read else read
        try:
            while self.take():
                pass
        except ValueError:
            self.fail('it sent what is no answer')

    def take(self) -> bool:
        """Takes what stands at the front: a head, a content of a known length, or a chunk. Whether
        there was one."""
        if not self.status:
            return self.take_head()
        begin, size, more = 0, self.left, 0
        if size < 0:
            begin, more = self.read.find(b'\r\n') + 2, 2
            if begin < more:
                return False
            size = int(self.read[:begin], 16)
        if len(self.read) < begin + size + more:
            return False
        part, self.read = self.read[begin:begin + size], self.read[begin + size + more:]
        if size:
            self.take_part(part)
        if not size or self.left > 0:
            if not self.answered.done():
                self.answered.set_result((self.status, b''.join(self.parts)))
            self.status = 0
        return True

    def take_head(self) -> bool:
        end = self.read.find(END)
        if end < 0:
            return False
        self.status, found = int(self.read[9:12]), LENGTH.search(self.read, 0, end)
        self.read = self.read[end + 4:]
        self.left = int(found[1]) if found else -1
        return True

    def take_part(self, part: bytes) -> None:
        self.parts.append(part)
        if self.take_line and self.status == 200:
            *lines, rest = b''.join(self.parts).split(b'\n')
            self.parts = [rest]
            if len(rest) > MOST_LINE:
                raise ValueError
            for it in lines:
                self.take_line(it)


class Channel:
    """A connection to the member, for one request at a time, each of which may take so long."""

    def __init__(self, reach: Reach, within: float):
        self.reach, self.within = reach, within
        self.wire: Wire | None = None

    async def ask(self, path: str, asked: dict) -> dict:
        """Asks, with a new token of the user, for all connections, where the last one is over: it
        costs the member a tenth of a second."""
        try:
            return await self.ask_once(path, asked)
        except NoUser:
            if not self.reach.user:
                raise
            self.reach.token = ''
            who = {'name': self.reach.user, 'password': self.reach.password}
            found = await self.ask_once('/v3/auth/authenticate', who, TOKEN_WITHIN)
            self.reach.token = found['token']
            return await self.ask_once(path, asked)

    async def ask_once(self, path: str, asked: dict, within: float = 0) -> dict:
        return json.loads(await self.exchange(path, json.dumps(asked).encode(), within))

    async def exchange(self, path: str, body: bytes = b'', within: float = 0,
                       take_line: TakeLine | None = None) -> bytes:
        """The content of an answer with 200 to a POST, or to a GET where there is no body."""
        if not (self.wire and self.wire.transport):
            await self.connect()
        self.wire.take_line = take_line
        token = f'Authorization: {self.reach.token}\r\n' if self.reach.token else ''
        # Where a request has no Accept, etcd takes its own certificate for the user's.
        head = (f'{"POST" if body else "GET"} {path} HTTP/1.1\r\nHost: {self.reach.host}\r\n'
                f'Accept: application/json\r\n{token}Content-Length: {len(body)}\r\n\r\n')
        answered = self.wire.send(head.encode() + body)
        timer = asyncio.get_running_loop().call_later(within or self.within, self.wire.fail,
                                                      'timed out')
        try:
            status, content = await answered
        finally:
            timer.cancel()
        if status != 200:
            raise fault_of(status, content)
        return content

    async def connect(self) -> None:
        secured, loop = self.reach.secured, asyncio.get_running_loop()
        try:
            async with asyncio.timeout(CONNECTS_WITHIN):
                _, self.wire = await loop.create_connection(
                    Wire, self.reach.host, self.reach.port, ssl=secured and secured.context)
        except OSError as error:
            raise Unreached(f'etcd: {str(error) or type(error).__name__}') from None

    async def hear(self, path: str, asked: dict, take_line: TakeLine) -> None:
        """Hears an answer that has no end, line by line, until the member ends it."""
        await self.exchange(path, json.dumps(asked).encode(), 0, take_line)
