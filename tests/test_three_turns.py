"""The turns by which companions of three machines put, how the connection to a member of etcd is
read, and for how long a room that opens is waited for."""
# needs: python3
import asyncio
import itertools
import os
import sys
import time
import types
import unittest.mock

from room import PATIENCE, TOP, TestCase

sys.path.insert(0, str(TOP / 'examples' / 'three'))
import channel  # noqa: E402
import copies  # noqa: E402
import entries  # noqa: E402
import etcd  # noqa: E402
import played_room  # noqa: E402
import playing  # noqa: E402
import turns  # noqa: E402

WHOLE = b'HTTP/1.1 200 OK\r\nContent-Length: 2\r\n\r\n{}'
CHUNKS = (b'HTTP/1.1 200 OK\r\nTransfer-Encoding: chunked\r\n\r\n'
          b'3\r\n{"a\r\n5\r\n": 1}\r\n0\r\n\r\n')
EMPTY = b'HTTP/1.1 204 No Content\r\nContent-Length: 0\r\n\r\n'
OPENS_WITHIN = 3.0  # seconds
OPENS_LATE = """import sys, time
time.sleep(%d)
print('answer 200 2\\nok\\n', end='', flush=True)
sys.stdin.read()
"""


class Turns(TestCase):
    def setUp(self):
        super().setUp()
        stopped = types.SimpleNamespace(monotonic=lambda: 0.0)  # milliseconds are counted here
        self.enterContext(unittest.mock.patch.object(turns, 'time', stopped))

    def waits(self, last, active):
        """Which of three machines waits how many turns, once one has put and some were active."""
        found = []
        for machine in 1, 2, 3:
            it = turns.Turns(machine, 3)
            for other in *active, last:
                it.note(other)
            found.append(round(it.wait() / (2 * it.takes)))
        return found

    def test_order(self):
        """The next one puts at once, and the others wait for those that come before."""
        self.check('all put', self.waits(1, [1, 2, 3]), [2, 0, 1])
        self.check('all put, behind the last', self.waits(3, [1, 2]), [0, 1, 2])
        self.check('two put', self.waits(1, [3]), [1, 0, 0])
        self.check('one puts', self.waits(2, []), [0, 0, 0])

    def test_alone(self):
        """The only one waits for nobody, nor does one that puts seldom."""
        it = turns.Turns(2, 3)
        self.check('at first', it.wait() <= 0, True)
        it.note(2)
        self.check('behind its own', (it.wait() <= 0, it.others()), (True, 0))
        it.note(1)
        it.put[1] -= turns.ACTIVE
        self.check('behind one of long ago', (it.wait() <= 0, it.others()), (True, 0))
        it.note(9)
        self.check('what is no machine is none', it.last, 1)


class Wires(TestCase):
    def taken(self, sent, size):
        """What a wire makes of bytes that come in pieces."""
        async def take():
            wire = channel.Wire()
            for at in range(0, len(sent), size):
                wire.data_received(sent[at:at + size])
            return wire.answered.result()
        return asyncio.run(take())

    def test_pieces(self):
        """An answer is the same in whatever pieces it comes."""
        for size in 1, 2, 7, 1000:
            self.check(f'with a length, by {size}', self.taken(WHOLE, size), (200, b'{}'))
            self.check(f'in chunks, by {size}', self.taken(CHUNKS, size), (200, b'{"a": 1}'))
            self.check(f'with none, by {size}', self.taken(EMPTY, size), (204, b''))

    def test_lines(self):
        """An answer without an end is taken line by line, as it comes."""
        async def take():
            wire, lines = channel.Wire(), []
            wire.take_line = lines.append
            wire.data_received(CHUNKS[:-5].replace(b'3\r\n{"a', b'4\r\n1\n{"'))
            wire.data_received(b'3\r\n\n3\n\r\n')
            return lines, wire.answered.done()
        self.check('lines', asyncio.run(take()), ([b'1', b'{"": 1}', b'3'], False))

    def test_silence(self):
        """A member that says nothing is given up, and its answer is none of the next request."""
        async def ask():
            async def serve(reader, writer):
                count[0] += 1
                await reader.readuntil(b'}')
                if count[0] > 1:
                    late.set()
                    writer.write(WHOLE)
                else:
                    await late.wait()
                    writer.write(WHOLE.replace(b'{}', b'[]'))
                await writer.drain()
                writer.close()
            count, late = [0], asyncio.Event()
            server = await asyncio.start_server(serve, '127.0.0.1', 0)
            by = channel.Channel(etcd.Reach(*server.sockets[0].getsockname()), 2)
            printed = []
            for by.within in 2, PATIENCE:
                try:
                    printed.append(await by.ask('/', {}))
                except etcd.Unreached as reason:
                    printed.append(str(reason))
            await asyncio.sleep(0.2)
            server.close()
            return printed
        with unittest.mock.patch.object(channel, 'CONNECTS_WITHIN', PATIENCE):
            self.check('what it returns', asyncio.run(ask()), ['etcd: timed out', {}])


class Tails(TestCase):
    def left(self, sent):
        """Which of three entries stay, as a copy behind the second comes, where the room has been
        handed so many."""
        first = entries.first_entry('0' * 64)
        tail = playing.Tail(copies.Copy(self.folder, 0, '', '', ''), first.place)
        for it in range(3):
            tail.add(entries.entry_behind(tail.place, it, [entries.Record(f'a{it}', b'')]))
        tail.begin_at(copies.Copy(self.folder, 2, '', '', ''), sent)
        return list(tail.entries)

    def test_copies(self):
        """A copy may come late, as the room has ended since and begun again from an older one: what
        it is still to be handed stays."""
        for sent, left in (3, [3]), (2, [3]), (1, [2, 3]), (0, [1, 2, 3]):
            self.check(f'handed {sent}', self.left(sent), left)


class Opening(TestCase):
    def opened(self, seconds, worked):
        """What comes of a program that answers after so many seconds, where three are allowed and
        it has worked so much at each look."""
        program, taken = self.folder / 'program', []
        program.write_text(f'#!{sys.executable}\n{OPENS_LATE % seconds}')
        program.chmod(0o700)
        copy = copies.Copy(self.folder / 'copy.db', 0, '', '', 'x')
        copy.file.write_bytes(b'')

        async def play():
            room = played_room.PlayedRoom(str(program), copy, self.folder, taken.extend)
            try:
                await room.start()
                room.send(0, [types.SimpleNamespace(content=b'')], True)
                while not taken:
                    room.look()
                    await asyncio.sleep(0.05)
            except played_room.Ended as reason:
                return str(reason)
            finally:
                await room.drop()
            return 'it answered'
        with (unittest.mock.patch.object(played_room, 'OPENS_WITHIN', OPENS_WITHIN),
              unittest.mock.patch.object(played_room, 'worked', worked)):
            return asyncio.run(play())

    def test_as_long_as_it_goes_on(self):
        count = itertools.count(1)
        self.check('it works', self.opened(2 * OPENS_WITHIN, lambda _: next(count)), 'it answered')
        self.check('it hangs', self.opened(PATIENCE, lambda _: 7), 'the room is silent')

    def test_ended(self):
        """Whoever plays a room that ends looks at it at once."""
        program = self.folder / 'program'
        program.write_text(f'#!{sys.executable}\n')
        program.chmod(0o700)
        copy = copies.Copy(self.folder / 'copy.db', 0, '', '', 'x')
        copy.file.write_bytes(b'')

        async def play():
            taken = asyncio.Queue()
            room = played_room.PlayedRoom(str(program), copy, self.folder, taken.put_nowait)
            await room.start()
            found = await asyncio.wait_for(taken.get(), PATIENCE)
            ended = room.answers.ended.is_set()
            await room.drop()
            return found, ended
        self.check('it looks', asyncio.run(play()), ([], True))

    def test_worked(self):
        """Ticks of the processor are counted."""
        before, until = played_room.worked(os.getpid()), time.process_time() + 0.1
        while time.process_time() < until:
            pass
        self.check('more', played_room.worked(os.getpid()) > before, True)
        self.check('none', played_room.worked(0), 0)
