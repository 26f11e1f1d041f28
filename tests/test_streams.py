"""Streams of messages from outside, by bytes: the rules of a message one by one, a stream cut at
each byte and given byte by byte, a read or a write that fails at each place, and an answer that is
lost."""
# needs: python3 sqlite3
# builds: dispatch_room
import resource
import socket
import struct
import threading

from room import (CLOSE, CUT, FAULT, WELL, TestCase, answer, ask, call, dry_run, made, message,
                  refusal, serving, sql)

CALLED = '{"division":1,"incident":1,"linked":false}'
QUEUE = '{"queue":[]}'

# ---- the rules of a message, each by a stream that breaks just this one or just not

ROOM = 'Host: room'
DESK = 'X-Terminal: deskone1'
EXPECTS = 'Expect: 100-continue'
OK = ('200 OK', QUEUE)
BAD_MESSAGE = ('400 Bad Request', refusal('BadMessage', 30))
HEAD_TOO_LONG = ('431 Request Header Fields Too Large', refusal('HeadTooLong', 31))
BODY_TOO_LONG = ('413 Payload Too Large', refusal('BodyTooLong', 32))
EXPECTATION = ('417 Expectation Failed', refusal('Expectation', 33))
CODING = ('501 Not Implemented', refusal('Coding', 34))
NO_PATH = ('404 Not Found', refusal('NoPath', 36))
NO_TERMINAL = ('403 Forbidden', refusal('NoTerminal', 38))
BAD_BODY = ('400 Bad Request', refusal('BadBody', 40))
CLOSES, STAYS = True, False


def sent(line, *fields, body=''):
    return '\r\n'.join([line, *fields, '', body])


def get(*fields, version='1.1', body=''):
    return sent(f'GET /queue HTTP/{version}', *fields, body=body)


def post(*fields, path='/call', version='1.1', body=''):
    return sent(f'POST {path} HTTP/{version}', *fields, body=body)


# What is sent, its answer, and whether the connection closes after it.
RULES = [
    ('a coding beside a length',
     post(ROOM, 'Content-Length: 5', 'Transfer-Encoding: chunked'), CODING, CLOSES),
    ('an expectation in 1.1',
     post(ROOM, 'Content-Length: 2000', EXPECTS), EXPECTATION, CLOSES),
    ('an expectation in 1.0, and a long body',
     post(ROOM, 'Content-Length: 2000', EXPECTS, version='1.0'), BODY_TOO_LONG, CLOSES),
    ('an expectation in 1.0',
     get(DESK, 'Content-Length: 2', EXPECTS, version='1.0', body='{}'), OK, CLOSES),
    ('a length with a sign', post(ROOM, 'Content-Length: +5'), BAD_MESSAGE, CLOSES),
    ('equal lengths',
     post(ROOM, 'Content-Length: 5', 'Content-Length: 5', body='abcde'), BAD_MESSAGE, CLOSES),
    ('two hosts in 1.0', get(ROOM, ROOM, DESK, version='1.0'), BAD_MESSAGE, CLOSES),
    ('no host in 1.0', get(DESK, version='1.0'), OK, CLOSES),
    ('no host in 1.1', get(DESK), BAD_MESSAGE, CLOSES),
    ('32 fields', get(ROOM, DESK, *30 * ['A: b']), OK, STAYS),
    ('33 fields', get(ROOM, DESK, *31 * ['A: b']), BAD_MESSAGE, CLOSES),
    ('a head of 8192 bytes', get(ROOM, DESK, f'A: {"b" * 8130}'), OK, STAYS),
    ('a head of 8193 bytes', get(ROOM, DESK, f'A: {"b" * 8131}'), HEAD_TOO_LONG, CLOSES),
    ('a body of 1024 bytes that is no JSON',
     post(ROOM, DESK, 'Content-Length: 1024', path='/points/1', body='b' * 1024), BAD_BODY, STAYS),
    ('a body of 1025 bytes',
     post(ROOM, DESK, 'Content-Length: 1025', path='/points/1', body='b' * 1025),
     BODY_TOO_LONG, CLOSES),
    ('a leading zero', post(ROOM, DESK, path='/incidents/01/close'), NO_PATH, STAYS),
    ('a point above 99', post(ROOM, DESK, path='/points/100'), NO_PATH, STAYS),
    ('close in capitals', get(ROOM, DESK, 'Connection: Close'), OK, CLOSES),
    ('two terminals', get(ROOM, DESK, DESK), NO_TERMINAL, STAYS),
]


class Rules(TestCase):
    def test_rules(self):
        for what, stream, (status, content), closes in RULES:
            wanted = answer(status, content, CLOSE) if closes else 2 * answer(status, content)
            self.check(what, dry_run(2 * stream.encode()), (wanted, WELL))

    def test_no_method_of_the_path(self):
        brew = sent('BREW /queue HTTP/1.1', ROOM, DESK).encode()
        allowed = 'Allow: GET, HEAD\r\n'
        wanted = answer('405 Method Not Allowed', refusal('WrongMethod', 37), allowed)
        self.assertEqual(dry_run(brew), (wanted, WELL))


# ---- one stream, in pieces and with faults

MESSAGES = [call(1), message('deskone1', 'HEAD /queue'), message('deskone1', 'GET /queue')]
ANSWERS = [answer('200 OK', CALLED), answer('200 OK', QUEUE, sent=''), answer('200 OK', QUEUE)]
STREAM = b''.join(MESSAGES)
TALK = b''.join(ANSWERS)


def answered_by(size):
    """The answers to the messages that are whole within so many bytes, and whether the last of
    them ends there."""
    talk, ends = b'', [0]
    for message_sent, answered in zip(MESSAGES, ANSWERS):
        ends.append(ends[-1] + len(message_sent))
        if ends[-1] <= size:
            talk += answered
    return talk, size in ends


def forget(connection):
    """Closes a connection so that its peer reads what was sent, and then fails."""
    connection.setsockopt(socket.SOL_SOCKET, socket.SO_LINGER, struct.pack('ii', 1, 0))
    connection.close()


class Pieces(TestCase):
    def test_prefixes(self):
        for size in range(len(STREAM) + 1):
            talk, is_between = answered_by(size)
            self.check(f'the first {size} bytes', dry_run(STREAM[:size]),
                       (talk, WELL if is_between else CUT))

    def test_reads_of_one_byte(self):
        """Over a socket of packets each read gives one of them."""
        ours, theirs = socket.socketpair(socket.AF_UNIX, socket.SOCK_SEQPACKET)

        def send():
            with ours:
                for byte in STREAM:
                    ours.send(bytes([byte]))

        sender = threading.Thread(target=send, daemon=True)
        sender.start()
        with theirs:
            self.assertEqual(dry_run(theirs), (TALK, WELL))
        sender.join(180)


class Faults(TestCase):
    def test_failing_reads(self):
        with socket.create_server(('127.0.0.1', 0)) as server:
            for size in range(len(STREAM)):
                ours = socket.create_connection(server.getsockname())
                theirs, _ = server.accept()
                with theirs:
                    ours.sendall(STREAM[:size])
                    forget(ours)
                    self.check(f'the read after {size} bytes fails', dry_run(theirs),
                               (answered_by(size)[0], FAULT))

    def test_failing_writes(self):
        """A file that may not grow past a size takes a part of a write, and then fails."""
        answered = self.folder / 'answered'
        for size in range(len(TALK)):

            def limit():
                resource.setrlimit(resource.RLIMIT_FSIZE, (size, size))

            with answered.open('wb') as out:
                _, end = dry_run(STREAM, out, restore_signals=False, preexec_fn=limit)
            self.check(f'the write after {size} bytes fails', (answered.read_bytes(), end),
                       (TALK[:size], FAULT))

    def test_lost_answer(self):
        """The peer is gone before its call is answered. The call stands, and gets its answer when
        it is sent again."""
        room = made(self.folder / 'lost.db')
        with serving(room, 3) as (port, process):
            # It is served while the next one is sent and forgotten.
            with socket.create_connection(('127.0.0.1', port)):
                lost = socket.create_connection(('127.0.0.1', port))
                lost.sendall(call(1))
                forget(lost)
            self.check('another call, and the lost one again',
                       ask(port, call(2, 'TQ310800'), call(1)),
                       [(200, '{"division":1,"incident":2,"linked":false}'), (200, CALLED)])
            self.check('it ends by itself', process.wait(timeout=180), 0)
        self.check('the calls of the file',
                   sql(room, 'SELECT serial, incident FROM calls ORDER BY serial'), '1|1\n2|2\n')
