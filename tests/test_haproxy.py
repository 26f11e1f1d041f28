"""HAProxy by examples/haproxy in front of a served room: who has no certificate is not heard, what
is slow outside does not hold the room, and kept connections are closed ones inside."""
# needs: haproxy openssl
# builds: dispatch_room
import contextlib
import json
import os
import socket
import ssl
import subprocess
import time

from room import PATIENCE, TOP, TestCase, call, free_port, made, message, read_answer, serving

HAPROXY = TOP / 'examples' / 'haproxy'
# Of a room that lets go what isn't quick, and for how long something is slow.
IMPATIENT, SLOW = ('--patience', '2', '--idle', '2000'), 2.5
HEARD_WITHIN = 4.5  # seconds, below those that HAProxy gives a request to come whole
# A vehicle for each of these makes an answer of some 80 kB.
FLEET = [f'V{it},1,1,TQ{300 + it:03}804,crewofv{it:03}' for it in range(600)]


@contextlib.contextmanager
def proxy(room_port, certificates):
    """HAProxy in front of a room; gives its port."""
    port = free_port()
    command = ['haproxy', '-db', '-f', HAPROXY / 'haproxy.cfg']
    settings = {'ROOM': f'127.0.0.1:{room_port}', 'LISTEN': f'127.0.0.1:{port}',
                'CERTIFICATES': str(certificates)}
    process = subprocess.Popen(command, stdin=subprocess.DEVNULL, stdout=subprocess.DEVNULL,
                               stderr=subprocess.PIPE, env=os.environ | settings)
    try:
        yield port
    finally:
        process.kill()
        process.communicate()


class Proxied(TestCase):
    def setUp(self):
        super().setUp()
        self.certificates = self.folder / 'certificates'
        subprocess.run([HAPROXY / 'certificates.sh', self.certificates, 'localhost', 'desk1'],
                       check=True, capture_output=True)
        self.file = made(self.folder / 'room.db', *FLEET)

    def served(self, connections, *words):
        """A room of so many connections with HAProxy in front of it."""
        stack = contextlib.ExitStack()
        room_port, self.room = stack.enter_context(serving(self.file, connections, *words))
        self.port = stack.enter_context(proxy(room_port, self.certificates))
        return stack

    def connect(self, certificate='desk1.pem', receives=None):
        """A connection by TLS, once HAProxy listens."""
        context = ssl.create_default_context(cafile=self.certificates / 'authority.crt')
        if certificate:
            context.load_cert_chain(self.certificates / certificate)
        plain = socket.socket()
        plain.settimeout(PATIENCE)
        if receives:
            plain.setsockopt(socket.SOL_SOCKET, socket.SO_RCVBUF, receives)
        end = time.monotonic() + PATIENCE
        while plain.connect_ex(('127.0.0.1', self.port)):
            assert time.monotonic() < end, 'HAProxy does not listen'
            time.sleep(0.05)
        return context.wrap_socket(plain, server_hostname='localhost')

    def answer(self, connection, sent):
        connection.sendall(sent)
        return read_answer(connection.makefile('rb'))

    def check_beside(self, what):
        """Another terminal is answered, while what is slow still lasts."""
        with self.connect() as it:
            self.check(what, self.answer(it, message('deskone1', 'GET /queue'))[0], 200)

    def test_certificates(self):
        with self.served(9):
            with self.connect() as it:
                self.check('with a certificate', self.answer(it, call(1)),
                           (200, '{"division":1,"incident":1,"linked":false}'))
            with self.assertRaises(OSError), self.connect(None) as it:
                self.assertNotEqual(self.answer(it, call(2)), None)
            other = self.folder / 'other'
            subprocess.run([HAPROXY / 'certificates.sh', other, 'localhost', 'desk1'], check=True,
                           capture_output=True)
            with self.assertRaises(OSError), self.connect(other / 'desk1.pem') as it:
                self.assertNotEqual(self.answer(it, call(3)), None)
            with socket.create_connection(('127.0.0.1', self.port)) as it:
                it.sendall(call(4))
                self.check('without TLS', b'200' in it.recv(100), False)
            with self.connect() as it:
                _, answered = self.answer(it, message('deskone1', 'GET /incidents'))
                self.check('the one call was heard', len(json.loads(answered)['incidents']), 1)

    def test_slow_request(self):
        """(Were the room to hear of it before it is whole, it would let it go unanswered.) It's sent
        anew where a busy machine took longer than HAProxy waits for a request."""
        end = time.monotonic() + PATIENCE
        while not self.is_heard_slowly():
            self.assertLess(time.monotonic(), end, 'no request was sent in time')

    def is_heard_slowly(self):
        sent = call(1)
        with self.served(9, *IMPATIENT), self.connect() as slow:
            end = time.monotonic() + HEARD_WITHIN
            for piece in sent[:1], sent[1:2], sent[2:3], sent[3:-1]:
                slow.sendall(piece)
                self.check_beside('beside a request that drips')
                if time.monotonic() > end - SLOW:
                    return False
            time.sleep(SLOW)
            self.check_beside('beside a request that lacks a byte')
            if time.monotonic() > end:
                return False
            slow.sendall(sent[-1:])
            self.check('once it is whole', read_answer(slow.makefile('rb'))[0], 200)
        return True

    def test_slow_reader(self):
        """(Were the room to wait for it, it would let it go, and its answer were cut.)"""
        with self.served(9, *IMPATIENT), self.connect(receives=2048) as slow:
            slow.sendall(message('deskone1', 'GET /vehicles'))
            time.sleep(SLOW)
            self.check_beside('beside an answer that is not read')
            status, answered = read_answer(slow.makefile('rb'))
            count = len(json.loads(answered)['vehicles'])
            self.check('the answer is whole', (status, count), (200, 600))

    def test_kept_connections(self):
        """Forty terminals that keep their connections: each request is one connection inside."""
        sent, kept = message('deskone1', 'GET /points'), []
        with self.served(120), contextlib.ExitStack() as stack:
            for _ in range(40):  # each asks at once, as HAProxy waits for seconds only
                kept.append(stack.enter_context(self.connect()))
                self.check('at first', self.answer(kept[-1], sent), (200, '{"points":[]}'))
            for nth in range(2):
                for it in kept:
                    it.sendall(sent)
                answered = {read_answer(it.makefile('rb')) for it in kept}
                self.check(f'round {nth}', answered, {(200, '{"points":[]}')})
            self.check('the room had 120 connections', self.room.wait(PATIENCE), 0)

    def test_room_that_is_gone(self):
        with self.served(9):
            self.room.kill()
            self.room.wait()
            with self.connect() as it:
                it.sendall(message('deskone1', 'GET /points'))
                self.check('503', it.recv(12), b'HTTP/1.1 503')
