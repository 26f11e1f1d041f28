"""What a peer does to the others who wait for the room, and what it gets itself: silence, single
bytes, an answer that nobody reads, requests without a pause, and what follows a last request."""
# needs: python3 sqlite3
# builds: dispatch_room
import contextlib
import os
import random
import resource
import signal
import socket
import stat
import subprocess
import threading
import time

from room import (PLAN, PROGRAM, TestCase, ask, call, free_port, made, message, read_answer, run,
                  serving, sql)

LOANS = message('deskone1', 'GET /loans')
NO_LOANS = (200, '{"loans":[]}')
CALLED = (200, '{"division":1,"incident":1,"linked":false}')
TOO_LONG = (413, '{"error":"BodyTooLong","number":32}')
BAD = (400, '{"error":"BadMessage","number":30}')
MANY = 1000
STREAMS = 10_000
PATIENCE = 180  # seconds that a test waits for what has to come, where other work has the machine
IDLE = 0.2  # seconds that a connection may be silent by default, where others wait for it
# Seconds within which one comes next that waits for nobody, on a busy machine, too.
SOON = 25


def connect(port):
    return socket.create_connection(('127.0.0.1', port), timeout=PATIENCE)


def given(peer):
    """What a peer gets until its connection ends or is reset."""
    with contextlib.suppress(ConnectionError):
        return peer.makefile('rb').read()
    return b'reset'


def answers_of(peer):
    """The answers that a peer gets until its connection ends."""
    stream, answers = peer.makefile('rb'), []
    while answer := read_answer(stream):
        answers.append(answer)
    return answers


def sends(peer, byte, pause, most):
    """Sends a byte after each pause; for how many seconds that went well, at most so many."""
    began = time.monotonic()
    with contextlib.suppress(ConnectionError):
        while time.monotonic() - began < most:
            peer.sendall(byte)
            time.sleep(pause)
    return time.monotonic() - began


def took(work):
    """How many seconds it took, and what it gave."""
    began = time.monotonic()
    done = work()
    return time.monotonic() - began, done


def until(holds, what):
    """Waits until something holds that has to come."""
    end = time.monotonic() + PATIENCE
    while not holds():
        assert time.monotonic() < end, f'not within {PATIENCE} s: {what}'
        time.sleep(0.05)


def answers_in_time(port, *messages, idle=IDLE, pause=0):
    """The answers to messages on one connection, with a pause between each two. Who was held up
    longer than a connection may idle is rightly not answered, and begins again."""
    end = time.monotonic() + PATIENCE
    while True:
        began, answers = time.monotonic(), []
        with connect(port) as peer, contextlib.suppress(ConnectionError):
            stream = peer.makefile('rb')
            for sent in messages:
                time.sleep(pause if answers else 0)
                try:
                    peer.sendall(sent)
                finally:
                    seconds = time.monotonic() - began
                answers.append(read_answer(stream))
        is_whole = len(answers) == len(messages) and None not in answers
        if is_whole or seconds < idle or time.monotonic() > end:
            return answers


class ServedTestCase(TestCase):
    def setUp(self):
        super().setUp()
        self.room = made(self.folder / 'room.db')

    def served(self, *words):
        """The room is served by its own times, where no others are given; returns the port."""
        words = words or ['--patience', '2']  # what is served without a word is patient
        port, self.process = self.enterContext(serving(self.room, MANY, *words))
        return port

    def end(self):
        self.process.kill()
        self.process.wait(timeout=PATIENCE)

    def check_wait(self, what, port, least, most, began=None):
        """Someone else asks, is answered, and waits so many seconds, where others began to say
        nothing at a moment before."""
        began = began or time.monotonic()
        answers = answers_in_time(port, LOANS)
        seconds = time.monotonic() - began
        self.check(f'{what}: the next is answered', answers, [NO_LOANS])
        self.check(f'{what}: after {seconds:.2f} s', least <= seconds <= most, True)


class Waits(ServedTestCase):
    def test_silent_peers(self):
        """Each that says nothing takes the idle wait, and no more."""
        port = self.served('--patience', '60')
        with contextlib.ExitStack() as silent:
            began = time.monotonic()
            for _ in range(5):
                silent.enter_context(connect(port))
            self.check_wait('five that say nothing', port, 0.9, 50, began)

    def test_single_bytes(self):
        """A message has its patience from its first byte, however it drips."""
        port = self.served('--patience', '1', '--idle', '20000')
        with connect(port) as peer:
            seconds = sends(peer, b'G', 0.1, 60)
        self.check(f'it is let go after {seconds:.2f} s', 0.9 < seconds < 50, True)
        began = time.monotonic()
        with connect(port) as peer:
            peer.sendall(LOANS[:-1])
            self.check_wait('a message that is not whole', port, 0.9, 50, began)
            self.check('it gets no answer', given(peer), b'')

    def test_second_message(self):
        """A message that begins with the one before has the same patience, from the answer."""
        port = self.served('--patience', '120', '--idle', '5000')
        with connect(port) as peer:
            stream = peer.makefile('rb')
            peer.sendall(LOANS + LOANS[:5])
            self.check('the first', read_answer(stream), NO_LOANS)
            time.sleep(6)
            peer.sendall(LOANS[5:])
            self.check('the second, after six seconds', read_answer(stream), NO_LOANS)
            peer.sendall(LOANS[:5])
            time.sleep(6)
            peer.sendall(LOANS[5:])
            self.check('the third, after six others', read_answer(stream), NO_LOANS)

    def test_idle(self):
        """Between messages a connection is kept as long as it may idle, and is then closed."""
        for words, idle, pause in [((), IDLE, 0), (('--idle', '60000'), 60, 0.6)]:
            port = self.served('--patience', '60', *words)
            answers = answers_in_time(port, LOANS, LOANS, idle=idle, pause=pause)
            self.check(f'{words} and a pause of {pause} s', answers, 2 * [NO_LOANS])
            self.end()
        for words, idle in [((), IDLE), (('--idle', '20'), 0.02), (('--idle', '2000'), 2)]:
            port = self.served('--patience', '60', *words)
            seconds = self.silence(port)
            # (where the host takes the processor, a timer of the system may be some ticks early)
            self.check(f'{words}: it is closed after {seconds:.3f} s',
                       idle - 0.01 < seconds < 50, True)
            self.end()

    def silence(self, port):
        """The seconds from a message that is answered to the end of its connection."""
        end = time.monotonic() + PATIENCE
        while time.monotonic() < end:
            with connect(port) as peer, contextlib.suppress(ConnectionError):
                stream, began = peer.makefile('rb'), time.monotonic()
                peer.sendall(LOANS)  # in time, if this process isn't held up before
                if read_answer(stream) == NO_LOANS:
                    self.check('nothing follows', stream.read(), b'')
                    return time.monotonic() - began
        self.fail('no message was in time')

    def test_answer_that_is_not_read(self):
        """Who does not read is let go, and gets the same answers on another connection."""
        port = self.served('--patience', '1', '--idle', '4000')
        with socket.socket() as peer:
            peer.setsockopt(socket.SOL_SOCKET, socket.SO_RCVBUF, 4096)
            peer.settimeout(PATIENCE)
            began = time.monotonic()
            peer.connect(('127.0.0.1', port))
            with contextlib.suppress(ConnectionError, TimeoutError):
                peer.sendall(call(1) + 100_000 * message('deskone1', 'GET /points'))
            seconds = time.monotonic() - began
            # (until its turn of 25 s ends answers may find room in the system, and then their
            # patience)
            self.check(f'it is let go after {seconds:.2f} s', 0.9 < seconds < 60, True)
        self.check('the call once more', ask(port, call(1)), [CALLED])
        self.check('its row', sql_of(self.room, self.process), '1\n')

    def test_requests_without_a_pause(self):
        """A connection has its turn, and ends between messages."""
        port = self.served('--patience', '1', '--idle', '1000')
        began, asked, answered, pause = time.monotonic(), 0, 0, 0
        with connect(port) as busy, busy.makefile('rb') as stream:
            with contextlib.suppress(ConnectionError):
                last = began
                while time.monotonic() - began < 90:
                    time.sleep(0.001)  # it has 100,000 reads at most, and shall not use them up
                    pause, last = max(pause, time.monotonic() - last), time.monotonic()
                    busy.sendall(LOANS)
                    asked += 1
                    if read_answer(stream) != NO_LOANS:
                        break
                    answered += 1
            seconds, pause = time.monotonic() - began, max(pause, time.monotonic() - last)
        # (who was held up longer than it may idle has no turn of ten seconds)
        self.check(f'its turn ends after {seconds:.2f} s, with pauses up to {pause:.2f} s',
                   pause > 0.9 or 9.9 < seconds, True)
        self.check(f'and no later: {seconds:.2f} s', seconds < 60, True)
        self.check('each but the last is answered', asked - answered, 1)
        self.check_wait('the next', port, 0, SOON)

    def test_requests_that_are_never_all_read(self):
        """Who sends on before it reads has its turn too: a part of a message is always there."""
        port = self.served('--patience', '1', '--idle', '1000')
        began, ended, pause = time.monotonic(), False, 0
        with connect(port) as busy:
            busy.setblocking(False)
            left, last = b'', began
            while not ended and time.monotonic() - began < 90:
                left = left or 100 * LOANS
                with contextlib.suppress(BlockingIOError, InterruptedError):
                    try:
                        left = left[busy.send(left):]
                        ended = busy.recv(65536) == b''
                    except ConnectionError:
                        ended = True
                pause, last = max(pause, time.monotonic() - last), time.monotonic()
            seconds = time.monotonic() - began
        # (who was held up longer than it may idle has no turn of ten seconds)
        self.check(f'its turn ends after {seconds:.2f} s, with pauses up to {pause:.2f} s',
                   pause > 0.9 or 9.9 < seconds, True)
        self.check(f'and no later: {seconds:.2f} s', seconds < 60, True)
        self.check_wait('the next', port, 0, SOON)


def sql_of(room, process):
    """The calls of a room, once its program has ended."""
    process.terminate()
    process.wait(timeout=PATIENCE)
    run('times', room, 1, '2026-03-29')
    return sql(room, 'SELECT count(*) FROM calls')


class EndlessTestCase(ServedTestCase):
    """A room that is served until it is stopped."""

    def start(self, *words):
        """The room is served by its own times, where no others are given; returns the port."""
        self.port = free_port()
        command = [PROGRAM, 'serve', self.room, f'127.0.0.1:{self.port}', *words]
        self.process = self.enterContext(subprocess.Popen(command, stdout=subprocess.PIPE))
        self.addCleanup(self.process.kill)
        self.assertEqual(self.process.stdout.readline(), b'serving\n')
        return self.port


class Dripping(threading.Thread):
    """Sends a request byte by byte, and never all of it, again and again until it is asked to end.
    Notes what it gets."""

    def __init__(self, port):
        super().__init__(daemon=True)
        self.port, self.got, self.is_ending = port, [], False

    def run(self):
        while not self.is_ending:
            with connect(self.port) as peer:
                with contextlib.suppress(ConnectionError):
                    for byte in LOANS[:-1]:
                        if self.is_ending:
                            return
                        peer.sendall(bytes([byte]))
                        time.sleep(0.2)
                self.got.append(given(peer))


class Busy(threading.Thread):
    """Asks without a pause on a connection that it keeps, until it is asked to end. Counts its
    requests, and those that were answered as they should be."""

    def __init__(self, port):
        super().__init__(daemon=True)
        self.peer, self.asked, self.answered, self.is_ending = connect(port), 0, 0, False

    def run(self):
        with self.peer, self.peer.makefile('rb') as stream:
            while not self.is_ending:
                self.asked += 1
                with contextlib.suppress(ConnectionError):
                    self.peer.sendall(LOANS)
                    self.answered += read_answer(stream) == NO_LOANS


class NobodyWaits(EndlessTestCase):
    """Nobody waits for who has not spoken, and who keeps a connection holds nobody."""

    def silent(self, port, count):
        """So many connections that say nothing."""
        return [self.enterContext(connect(port)) for _ in range(count)]

    def threads(self, kind, port, count):
        """So many peers of a kind, which end with the test."""
        peers = [kind(port) for _ in range(count)]
        for peer in peers:
            peer.start()
            self.addCleanup(peer.join, PATIENCE)
            self.addCleanup(setattr, peer, 'is_ending', True)
        return peers

    def ended(self, peers):
        for peer in peers:
            peer.is_ending = True
        for peer in peers:
            peer.join(PATIENCE)
        return peers

    def test_silent(self):
        """Forty that say nothing: the next is answered, and then each of them, when it speaks."""
        port = self.start('--keep', '600', '--patience', '60')
        silent = self.silent(port, 40)
        self.check_wait('beside forty that say nothing', port, 0, SOON)
        for number, peer in enumerate(silent):
            peer.sendall(LOANS)
            self.check(f'number {number} speaks', read_answer(peer.makefile('rb')), NO_LOANS)

    def test_dripping(self):
        """A request that is not whole in its time gets no answer, and others don't wait for it."""
        port = self.start('--patience', '4')
        dripping = self.threads(Dripping, port, 20)
        time.sleep(1)
        self.check_wait('beside twenty that drip', port, 0, SOON)
        until(lambda: all(peer.got for peer in dripping), 'they are let go')
        got = [one for peer in self.ended(dripping) for one in peer.got]
        self.check('and get nothing', {*got} <= {b'', b'reset'}, True)

    def test_busy(self):
        """Ten that ask without a pause: each gets each answer, and so does the next."""
        port = self.start()
        busy = self.threads(Busy, port, 10)
        time.sleep(0.5)
        for _ in range(20):
            self.check_wait('beside ten without a pause', port, 0, SOON)
        until(lambda: all(peer.answered > 10 for peer in busy), 'each of the ten is served')
        for number, peer in enumerate(self.ended(busy)):
            self.check(f'number {number} lost', peer.asked - peer.answered, 0)

    def test_together(self):
        """All of them at once, and a terminal that asks each 100 ms: none of its requests is
        lost."""
        port = self.start('--keep', '600')
        silent = self.silent(port, 40)
        self.threads(Dripping, port, 20)
        busy = self.threads(Busy, port, 10)
        for number in range(30):
            self.check_wait(f'request {number}', port, 0, SOON)
            time.sleep(0.1)
        lost = sum(peer.asked - peer.answered for peer in self.ended(busy))
        self.check('those without a pause lost', lost, 0)
        for peer in silent:
            peer.sendall(LOANS)
            self.check('who was silent', read_answer(peer.makefile('rb')), NO_LOANS)

    def test_order(self):
        """Who is whole first is served first, whenever they came."""
        port, answers = self.start('--patience', '600'), []
        peers = self.silent(port, 5)
        for number, peer in enumerate(peers):
            peer.sendall(call(number + 1, f'TQ{100 + 4 * number}800')[:-1])
        for number in [3, 0, 4, 2, 1]:
            peers[number].sendall(call(1, '')[-1:])
            answers.append(read_answer(peers[number].makefile('rb')))
        expected = [(200, f'{{"division":1,"incident":{it},"linked":false}}') for it in range(1, 6)]
        self.check('each is the next incident', answers, expected)

    def test_pieces(self):
        """However a stream is cut, its messages are answered as those of one that comes whole."""
        places = [f'TQ{100 + 4 * number}800' for number in range(60)]
        stream = b''.join(call(number, place) + LOANS for number, place in enumerate(places, 1))
        expected = [one for number in range(1, 61)
                    for one in [(200, f'{{"division":1,"incident":{number},"linked":false}}'),
                                NO_LOANS]]
        choose, port = random.Random(1), self.start('--patience', '120')
        with connect(port) as peer:
            answers = []
            reads = threading.Thread(target=lambda: answers.extend(answers_of(peer)))
            reads.start()
            while stream:
                size = choose.choice([1, 30, 200, 3000])
                peer.sendall(stream[:size])
                stream = stream[size:]
                time.sleep(choose.choice([0, 0.001, 0.02]))
            peer.shutdown(socket.SHUT_WR)
            reads.join(PATIENCE)
        self.check('its answers', answers, expected)

    def test_keep(self):
        """A connection is kept so long as it may be silent, and is then closed."""
        with connect(self.start()) as peer, connect(self.port) as silent:
            self.check_answer('an answer', peer)
            time.sleep(1.5)
            self.check_answer('after a pause', peer)
            self.check_answer('who said nothing', silent)
        self.end()
        began = time.monotonic()
        with connect(self.start('--keep', '5')) as peer, connect(self.port) as silent:
            self.check_answer('kept for five seconds: an answer', peer)
            last = time.monotonic()
            self.check_answer('another', peer)
            for what, it, since in [('who said nothing', silent, began), ('who did', peer, last)]:
                self.check(f'{what} gets nothing', given(it), b'')
                seconds = time.monotonic() - since
                self.check(f'{what} is closed after {seconds:.2f} s', 4.9 < seconds < 60, True)

    def check_answer(self, what, peer):
        """One who is kept asks, and is answered."""
        peer.sendall(LOANS)
        self.check(what, read_answer(peer.makefile('rb')), NO_LOANS)

    def test_more_than_are_kept(self):
        """More than are kept wait in the system's queue, and are served once others have left."""
        _, most = resource.getrlimit(resource.RLIMIT_NOFILE)
        before = resource.getrlimit(resource.RLIMIT_NOFILE)
        resource.setrlimit(resource.RLIMIT_NOFILE, (min(most, 4096), most))
        self.addCleanup(resource.setrlimit, resource.RLIMIT_NOFILE, before)
        port = self.start('--keep', '3')
        self.silent(port, 1030)
        self.check_wait('behind 1,030 that say nothing', port, 0, 60)

    def test_few_files(self):
        """Where few files may be open fewer connections are kept, and these are served."""
        port = self.start('--keep', '10')
        most = resource.prlimit(self.process.pid, resource.RLIMIT_NOFILE)[1]
        resource.prlimit(self.process.pid, resource.RLIMIT_NOFILE, (40, most))
        silent = self.silent(port, 60)
        time.sleep(0.5)
        silent[0].sendall(LOANS)
        self.check('who is kept', read_answer(silent[0].makefile('rb')), NO_LOANS)
        self.check_wait('behind sixty that say nothing', port, 0, 60)

    def test_does_not_spin(self):
        """A room at which nobody asks takes next to nothing, whoever is connected."""
        port = self.start('--patience', '60')
        silent = self.silent(port, 40)
        for peer in silent[:20]:
            peer.sendall(LOANS[:-1])
        time.sleep(0.5)
        before = seconds_of(self.process)
        time.sleep(2)
        spent = seconds_of(self.process) - before
        self.check(f'{spent} s of a processor', spent < 0.1, True)
        for peer in silent[:20]:
            peer.sendall(LOANS[-1:])
            self.check('who had begun', read_answer(peer.makefile('rb')), NO_LOANS)

    def test_half_and_gone(self):
        """Who sends a part and its end is let go at once."""
        port = self.start('--patience', '60')
        with connect(port) as peer:
            peer.sendall(LOANS[:-1])
            peer.shutdown(socket.SHUT_WR)
            seconds, got = took(lambda: given(peer))
        self.check(f'after {seconds:.2f} s', (got, seconds < 50), (b'', True))


def seconds_of(process):
    """The seconds of a processor that a program took so far."""
    with open(f'/proc/{process.pid}/stat') as it:
        fields = it.read().rsplit(')', 1)[1].split()
    return (int(fields[11]) + int(fields[12])) / os.sysconf('SC_CLK_TCK')


class ClosingAnswers(EndlessTestCase):
    """An answer that closes its connection arrives, whatever its peer still sends."""

    def setUp(self):
        super().setUp()
        self.start('--patience', '60')

    def talk(self, stream, pause=0.0):
        """Sends a stream whole, and then reads."""
        with connect(self.port) as peer:
            with contextlib.suppress(ConnectionError):
                peer.sendall(stream)
            time.sleep(pause)
            return answers_of(peer)

    def test_large_bodies(self):
        for size in [1025, 100_000, 1_000_000, 10_000_000]:
            stream = message('deskone1', 'POST /points/1', size * 'b')
            self.check(f'a body of {size} bytes', self.talk(stream), [TOO_LONG])

    def test_what_follows(self):
        for count in [1, 100, 10_000]:
            self.check(f'{count} messages behind one that is refused',
                       self.talk(b'nonsense\r\n\r\n' + count * LOANS), [BAD])
            self.check(f'{count} behind one that asks to close',
                       self.talk(LOANS.replace(b'Host', b'Connection: close\r\nHost')
                                 + count * LOANS), [NO_LOANS])

    def test_slow_reader(self):
        stream = message('deskone1', 'POST /points/1', 1_000_000 * 'b')
        self.check('who reads later', self.talk(stream, 0.5), [TOO_LONG])

    def test_who_sends_on(self):
        """Bytes that go on without an end are read for a while, and others are served after."""
        self.end()
        with connect(self.start('--patience', '2')) as peer:
            peer.sendall(b'nonsense\r\n\r\n')
            seconds = sends(peer, b'x', 0.05, 60)
        self.check(f'it is let go after {seconds:.2f} s', seconds < 50, True)
        self.check_wait('the next', self.port, 0, SOON)

    def test_many(self):
        """Of many streams no answer is cut."""
        choose, cut = random.Random(1), []
        for number in range(STREAMS):
            stream = b'nonsense\r\n\r\n' + choose.randrange(1, 3000) * b'GET / HTTP/1.1\r\n'
            try:
                answers = self.talk(stream)
            except ConnectionError as error:
                answers = repr(error)
            if answers != [BAD]:
                cut.append((number, answers))
        self.check(f'of {STREAMS} streams', cut, [])


class Descriptors(ServedTestCase):
    """A program that may open no more files."""

    def limit(self, more):
        """It may open so many files more than it has open."""
        names = os.listdir(f'/proc/{self.process.pid}/fd')
        most = resource.prlimit(self.process.pid, resource.RLIMIT_NOFILE)[1]
        resource.prlimit(self.process.pid, resource.RLIMIT_NOFILE,
                         (max(map(int, names)) + 1 + more, most))

    def test_none_for_a_connection(self):
        port = self.served()
        self.limit(0)
        with connect(port):
            time.sleep(0.3)  # a place may have been kept for this one
        with connect(port) as waits:
            waits.sendall(LOANS)
            before = seconds_of(self.process)
            time.sleep(1)
            spent = seconds_of(self.process) - before
            self.check(f'it does not spin: {spent} s of a processor', spent < 0.1, True)
            self.limit(8)
            self.check('who waited is answered', read_answer(waits.makefile('rb')), NO_LOANS)
        self.check('and who comes then', answers_in_time(port, LOANS), [NO_LOANS])

    def test_one_for_a_connection(self):
        port = self.served()
        self.limit(1)
        with connect(port) as peer:
            self.check('it gets no answer', given(peer), b'')
        self.limit(8)
        self.check('the next', answers_in_time(port, LOANS), [NO_LOANS])


class Signals(ServedTestCase):
    def test_held(self):
        """A program that is held and let go on in the middle of a message goes on with it."""
        port = self.served('--idle', '60000', '--patience', '60')
        with connect(port) as peer:
            for cut in [0, 1, 20]:
                peer.sendall(LOANS[:cut])
                time.sleep(0.05)
                self.process.send_signal(signal.SIGSTOP)
                os.waitid(os.P_PID, self.process.pid, os.WSTOPPED)
                self.process.send_signal(signal.SIGCONT)
                time.sleep(0.05)
                peer.sendall(LOANS[cut:])
                self.check(f'held after {cut} bytes', read_answer(peer.makefile('rb')), NO_LOANS)

    def test_ends(self):
        """Either signal ends it at once, and what was answered is there."""
        # What runs in the background may ignore an interrupt, and what it starts ignores it too.
        before = signal.signal(signal.SIGINT, signal.SIG_DFL)
        self.addCleanup(signal.signal, signal.SIGINT, before)
        for number, what in enumerate([signal.SIGTERM, signal.SIGINT], 1):
            port = self.served('--idle', '20000')
            with connect(port) as peer:
                place = f'TQ3{number:02}800'
                peer.sendall(call(number, place))
                self.check(f'{what.name}: a call', read_answer(peer.makefile('rb'))[0], 200)
                self.process.send_signal(what)
                self.check(f'{what.name}: its status', self.process.wait(timeout=PATIENCE), -what)
                self.check(f'{what.name}: who is served gets no more', given(peer), b'')
            run('times', self.room, 1, '2026-03-29')
            self.check(f'{what.name}: the calls', sql(self.room, 'SELECT count(*) FROM calls'),
                       f'{number}\n')


ELSEWHERE = ['0.0.0.0:8080', '[::]:8080', '192.168.1.1:8080', '128.0.0.1:8080', '[::2]:8080',
             '[::ffff:127.0.0.1]:8080', '126.255.255.255:8080', 'localhost:8080', 'nowhere',
             '127.0.0.1', '127.0.0.1:65536', '']


class Addresses(ServedTestCase):
    def test_elsewhere(self):
        """It gets why, and nothing is opened."""
        missing = self.folder / 'no.db'
        for address in ELSEWHERE:
            for room in [self.room, missing]:
                status, out, printed = run('serve', room, address, '--connections', '1')
                self.check(f'{address} of {room.name}', (status, out), (2, ''))
                with self.subTest(address):
                    self.assertIn('an address of this machine only', printed)
                    self.assertIn('proxy with TLS', printed)
        self.check('no file is made', missing.exists(), False)

    def test_here(self):
        for family, host, text in [(socket.AF_INET, '127.0.0.1', '127.0.0.1'),
                                   (socket.AF_INET, '127.1.2.3', '127.1.2.3'),
                                   (socket.AF_INET6, '::1', '[::1]')]:
            port = free_port()
            words = [PROGRAM, 'serve', self.room, f'{text}:{port}']
            with subprocess.Popen(words, stdout=subprocess.PIPE) as process, \
                    socket.socket(family) as peer:
                self.assertEqual(process.stdout.readline(), b'serving\n')
                peer.settimeout(PATIENCE)
                peer.connect((host, port))
                peer.sendall(LOANS)
                self.check(text, read_answer(peer.makefile('rb')), NO_LOANS)
                process.kill()


def mode(file):
    return f'{stat.S_IMODE(os.stat(file).st_mode):o}'


class Modes(TestCase):
    """Who can read a room's file."""

    def setUp(self):
        super().setUp()
        self.addCleanup(os.umask, os.umask(0))
        self.room = self.folder / 'room.db'

    def test_made(self):
        self.check('init', run('init', self.room, PLAN)[2], '')
        self.check('the file', mode(self.room), '600')
        with serving(self.room, 1) as (port, _):
            ask(port, call(1))
            self.check('its log', mode(f'{self.room}-wal'), '600')

    def test_open_to_others(self):
        run('init', self.room, PLAN)
        for bits in [0o640, 0o620, 0o604, 0o602, 0o666]:
            self.room.chmod(bits)
            status, _, printed = run('times', self.room, 1, '2026-03-29')
            self.check(f'{bits:o}: it warns', (status, printed.startswith('warning: ')), (0, True))
            with self.subTest(f'{bits:o}'):
                self.assertIn(f'chmod 600 {self.room}', printed)
        self.room.chmod(0o600)
        self.check('only its owner', run('times', self.room, 1, '2026-03-29')[2], '')
