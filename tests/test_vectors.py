"""Vectors from outside: messages, bodies, paths and days that just fit their rules or just miss
them, the examples of the RFCs among them, and each request of a desk by the rows that it changes.
What is wanted is said by the RFCs and by docs/; none of it was taken from the program."""
# needs: python3 gcc libc6-dev sqlite3
# builds: dispatch_room
import collections
import contextlib
import itertools
import json
import re
import resource
import shutil
import socket
import subprocess
import threading

from preloaded import PreloadedTestCase, clock
from room import (CLOSE, CUT, PATIENT, PROGRAM, TOP, WELL, TestCase, answer, ask, call, dry_run,
                  dump, free_port, made, message, refusal, run, serving, sql, talk)

LAST_MOMENT = 4102444799

NO_INCIDENT = ('404 Not Found', 'NoSuchIncident', 1)
BAD_MESSAGE = ('400 Bad Request', 'BadMessage', 30)
NO_PATH = ('404 Not Found', 'NoPath', 36)
WRONG_METHOD = ('405 Method Not Allowed', 'WrongMethod', 37)
NO_TERMINAL = ('403 Forbidden', 'NoTerminal', 38)
WRONG_ROLE = ('403 Forbidden', 'WrongRole', 39)
BAD_BODY = ('400 Bad Request', 'BadBody', 40)

GET_HEAD, POST = 'Allow: GET, HEAD\r\n', 'Allow: POST\r\n'


def refused(status, name, number, more=''):
    """The answer of the dry run that refuses a request."""
    return answer(status, refusal(name, number), more)


def called(incident, linked='false'):
    """The answer of the dry run to a call."""
    content = f'{{"division":1,"incident":{incident},"linked":{linked}}}'
    return answer('200 OK', content)


DONE = answer('200 OK', '{"done":true}')
DUTY = '{"place":"TQ300800","until":50000}'


def posted(token, path, body):
    """A POST with a body of any characters."""
    sent = body.encode()
    head = f'POST {path} HTTP/1.1\r\nHost: room\r\nX-Terminal: {token}\r\n'
    return f'{head}Content-Length: {len(sent)}\r\n\r\n'.encode() + sent


def joined(pairs):
    """The messages of a talk as one stream, and the answers to them."""
    sent, answered = zip(*pairs)
    return b''.join(sent), b''.join(answered)


# ---- messages

# Messages that leave the connection open, and what they are refused for: none shows a terminal.
OPEN = [
    # RFC 9110, section 3.9; RFC 9112, sections 3.2.1, 3.2.2 and 3.2.4.
    (NO_PATH, b'GET /hello.txt HTTP/1.1\r\nUser-Agent: curl/7.64.1\r\n'
              b'Host: www.example.com\r\nAccept-Language: en, mi\r\n\r\n'),
    (NO_PATH, b'GET /where?q=now HTTP/1.1\r\nHost: www.example.org\r\n\r\n'),
    (NO_PATH, b'GET http://www.example.org/pub/WWW/TheProject.html HTTP/1.1\r\n'
              b'Host: www.example.org\r\n\r\n'),
    (NO_PATH, b'OPTIONS * HTTP/1.1\r\nHost: www.example.org:8001\r\n\r\n'),
    # RFC 9112, section 2.2: an empty line before a message, and lines that end without a CR.
    (NO_TERMINAL, b'\r\nGET /queue HTTP/1.1\nHost: room\n\n'),
    # RFC 9110, sections 7.2, 8.6 and 7.6.1: an empty host, a long length, and other options.
    (NO_TERMINAL, b'GET /queue HTTP/1.1\r\nHost:\r\n\r\n'),
    (NO_TERMINAL, b'POST /call HTTP/1.1\r\nHost: room\r\n'
                  b'content-LENGTH: \t00000000000000000000005 \r\n\r\nabcde'),
    (NO_TERMINAL, b'GET /queue HTTP/1.1\r\nHost: room\r\nConnection: closed, not close\r\n\r\n'),
]

# Messages that close it: RFC 9110, section 7.6.1, and version 1.0.
CLOSING = [
    b'GET /queue HTTP/1.1\r\nHost: room\r\nconnection: keep-alive,\t CLOSE ,x\r\n\r\n',
    b'GET /queue HTTP/1.1\r\nHost: room\r\nConnection: upgrade\r\nConnection: close\r\n\r\n',
    b'GET /queue HTTP/1.0\r\nConnection: keep-alive\r\n\r\n',
]

# Messages that are refused, and close it too.
REFUSED = [
    # RFC 9112, sections 5.1 and 5.2: a space before the colon, and a line that goes on.
    (BAD_MESSAGE, b'GET /queue HTTP/1.1\r\nHost : room\r\n\r\n'),
    (BAD_MESSAGE, b'GET /queue HTTP/1.1\r\nHost: room\r\nNote: a\r\n b\r\n\r\n'),
    # RFC 9112, section 3.2: two hosts. Other versions than those that are spoken.
    (BAD_MESSAGE, b'GET /queue HTTP/1.1\r\nHost: room\r\nhOST: room\r\n\r\n'),
    (BAD_MESSAGE, b'GET /queue HTTP/1.2\r\nHost: room\r\n\r\n'),
    (BAD_MESSAGE, b'GET /queue HTTP/2.0\r\nHost: room\r\n\r\n'),
    # RFC 9112, section 3: a target with a byte that is of no text.
    (BAD_MESSAGE, b'GET /vehicles/\xff/off HTTP/1.1\r\nHost: room\r\n\r\n'),
    # RFC 9110, section 8.6: lengths that aren't only digits, and one of 2^64 + 5.
    (BAD_MESSAGE, b'POST /call HTTP/1.1\r\nHost: room\r\nContent-Length: 5, 5\r\n\r\nabcde'),
    (BAD_MESSAGE, b'POST /call HTTP/1.1\r\nHost: room\r\nContent-Length: 0x5\r\n\r\nabcde'),
    (BAD_MESSAGE, b'POST /call HTTP/1.1\r\nHost: room\r\nContent-Length:\r\n\r\n'),
    (('413 Payload Too Large', 'BodyTooLong', 32),
     b'POST /call HTTP/1.1\r\nHost: room\r\nContent-Length: 18446744073709551621\r\n\r\nabcde'),
    (('501 Not Implemented', 'Coding', 34),
     b'GET /queue HTTP/1.1\r\nHost: room\r\nTransfer-Encoding: identity\r\n\r\n'),
]

# RFC 9110, sections 5.1 and 5.5: the name of a field has no case, and white space around its value
# is none of it. A token has its case.
SHOWN = ['X-TERMINAL:  deskone1 ', 'x-terminal:deskone1', 'X-Terminal:\t deskone1\t ']
NOT_SHOWN = ['X-Terminal: DESKONE1', 'X-Terminal: desk one1', 'X-Terminal:',
             'X-Terminals: deskone1']

# Each message has all the faults of those after it, and is refused for its first one.
STEPS = [
    (message('-', 'BREW /order/', '?'), refused(*NO_PATH)),
    (message('-', 'BREW /incidents/9/merge', '?'), refused(*WRONG_METHOD, POST)),
    (message('-', 'POST /incidents/9/merge', '?'), refused(*NO_TERMINAL)),
    (message('takerone', 'POST /incidents/9/merge', '?'), refused(*WRONG_ROLE)),
    (message('deskone1', 'POST /incidents/9/merge', '?'), refused(*BAD_BODY)),
    (message('deskone1', 'POST /incidents/9/merge', '{"into":9}'), refused(*NO_INCIDENT)),
    (message('deskone1', 'GET /order'), refused(*WRONG_ROLE)),
    (message('crewofa1', 'POST /call'), refused(*WRONG_ROLE)),
    (b'BREW /order/ HTTP/1.1\r\n\r\n', refused(*BAD_MESSAGE, CLOSE)),
]


class Messages(TestCase):
    """Each message is sent twice: so it is seen where the first one ends, and whether the
    connection is open after it."""

    def test_open(self):
        for answered, sent in OPEN:
            with self.subTest(sent):
                self.assertEqual(dry_run(sent * 2), (refused(*answered) * 2, WELL))

    def test_closing(self):
        for sent in CLOSING:
            with self.subTest(sent):
                self.assertEqual(dry_run(sent * 2), (refused(*NO_TERMINAL, CLOSE), WELL))

    def test_refused(self):
        for answered, sent in REFUSED:
            with self.subTest(sent):
                self.assertEqual(dry_run(sent * 2), (refused(*answered, CLOSE), WELL))

    def test_terminals(self):
        queue = answer('200 OK', '{"queue":[]}')
        rows = [(it, queue) for it in SHOWN] + [(it, refused(*NO_TERMINAL)) for it in NOT_SHOWN]
        for field, answered in rows:
            sent = f'GET /queue HTTP/1.1\r\nHost: room\r\n{field}\r\n\r\n'.encode()
            with self.subTest(field):
                self.assertEqual(dry_run(sent * 2), (answered * 2, WELL))

    def test_first_fault(self):
        sent, answered = joined(STEPS)
        self.assertEqual(dry_run(sent), (answered, WELL))


# ---- bodies

# The note is the example of RFC 8259, section 7: the clef U+1D11E, escaped.
CALL = (' { "serial" : 2147483647, "class":3, "needs":[0,9,0],\r\n'
        '"note":"\\uD834\\uDD1E",\t"place":"TQ 300 800" } ')
PLAIN = '{{"class":3,"needs":[0,9,0],"note":"{}","place":"TQ300800","serial":2147483647}}'
LINE = ('{"calls":1,"class":3,"lack":[0,9,0],"needs":[0,9,0],"number":1,"opened":1000,'
        '"place":[530000,180000]}')
CALL_TALK = [
    (posted('takerone', '/call', CALL), called(1)),
    (message('deskone1', 'GET /incidents'), answer('200 OK', f'{{"incidents":[{LINE}]}}')),
    # It is one call with this one, and not with the next.
    (posted('takerone', '/call', PLAIN.format('\U0001d11e')), called(1)),
    (posted('takerone', '/call', PLAIN.format('')), refused('409 Conflict', 'SerialReused', 17)),
]

# What goes before each body: incident 1 is active, and A1 is available.
BEFORE = [
    (call(1), called(1)),
    (message('deskone1', 'POST /vehicles/A1/duty', DUTY), DONE),
]

# A terminal, a path, the answer to bodies that it takes, these, and bodies that it refuses. A
# number is seen to be read as 1 where incident 1 isn't merged into itself.
BODIES = [
    ('deskone1', '/incidents/1/merge', refused('409 Conflict', 'SameIncident', 10),
     ['{"into":1}', '{"into":0,"into":1}', '{"\\u0069nto":1}'],
     ['{"into":2147483648}', '{"into":0}', '{"into":-0}', '{"into":1.0}', '{"into":1e0}',
      '{"into":01}', '{"into":"1"}', '{"into":null}', '{"into":6,"into":0}', '{"into":6,"more":0}',
      '{"Into":6}']),
    ('deskone1', '/incidents/1/merge', refused(*NO_INCIDENT), ['{"into":2147483647}'], []),
    ('deskone1', '/incidents/1/needs', DONE,
     ['{"needs":[9,9,9]}'],
     ['{"needs":[0,0,0]}', '{"needs":[10,0,0]}', '{"needs":[1,0]}', '{"needs":[1,0,0,0]}']),
    ('deskone1', '/incidents/1/close', DONE,
     ['', '{}'],
     [' ', '[]', 'null', '{} {}', '{},', '\ufeff{}']),
    ('deskone1', '/points/1', DONE,
     ['{"cover":9,"place":"TQ300800"}'],
     ['{"cover":10,"place":"TQ300800"}', '{"cover":9,"place":"NT300800"}']),
    ('deskone1', '/vehicles/A1/standby', DONE,
     ['{"point":null}'],
     ['{"point":100}', '{"point":0}']),
    ('deskone1', '/vehicles/A1/lend', refused('404 Not Found', 'NoSuchDivision', 13),
     ['{"to":9,"until":4102444799}'],
     ['{"to":9,"until":4102444800}', '{"to":10,"until":0}']),
    ('crewofa1', '/report', answer('200 OK', '{"number":1,"outcome":"wrong","status":1}'),
     ['{"button":"hospital","number":1,"order":0,"place":"TQ300800"}'],
     ['{"button":"Home","number":1,"order":0,"place":"TQ300800"}']),
]


class Bodies(TestCase):
    def test_a_call_is_read(self):
        sent, answered = joined(CALL_TALK)
        self.assertEqual(dry_run(sent), (answered, WELL))

    def test_bodies(self):
        before, answers = joined(BEFORE)
        for token, path, answered, taken, not_taken in BODIES:
            rows = [(it, answered) for it in taken] + [(it, refused(*BAD_BODY)) for it in not_taken]
            for body, wanted in rows:
                with self.subTest(f'{path} {body}'):
                    got = dry_run(before + posted(token, path, body))
                    self.assertEqual(got, (answers + wanted, WELL))


# ---- paths


def no_incidents(begin, end):
    """What a desk is shown of a day on which nothing was opened."""
    return f'{{"activated":0,"from":{begin},"incidents":[],"to":{end},"within":0}}'


FOUND = [
    (message('crewofa1', 'GET /order'),
     answer('200 OK', '{"order":null,"post":null,"status":0}')),
    (message('deskone1', 'HEAD /times/2028-02-29'),
     answer('200 OK', no_incidents(1835395200, 1835481600), sent='')),
    (message('deskone1', 'POST /points/99', '{"cover":0,"place":"TQ300800"}'), DONE),
    (message('deskone1', 'POST /queue/ABCDEFG9/2147483647/clear'),
     refused('404 Not Found', 'NoSuchException', 15)),
    # Methods have their case.
    (message('crewofa1', 'get /order'), refused(*WRONG_METHOD, GET_HEAD)),
    (message('takerone', 'HEAD /call'),
     answer('405 Method Not Allowed', refusal('WrongMethod', 37), POST, sent='')),
]

MISSED = [
    '*', '/order/', '/order?', '//order', '/%6frder', '/incidents/0/close', '/incidents//close',
    '/incidents/2147483648/close', '/incidents/99999999999999999999/close',
    '/vehicles/ABCDEFGH9/off', '/vehicles/a1/off', '/vehicles/\xff/off', '/points/100',
    '/times/2026-02-29', '/times/2100-01-01', '/times/2026-2-03',
]


class Paths(TestCase):
    def test_found(self):
        for sent, answered in FOUND:
            with self.subTest(sent):
                self.assertEqual(dry_run(sent * 2), (answered * 2, WELL))

    def test_missed(self):
        for path in MISSED:
            sent = f'BREW {path} HTTP/1.1\r\nHost: room\r\n\r\n'.encode()
            with self.subTest(path):
                self.assertEqual(dry_run(sent), (refused(*NO_PATH), WELL))


# ---- days

LONDON = 'GMT0BST,M3.5.0/1,M10.5.0'
# The same in 64 bytes, which are the most.
LONGEST = 'WINTERS00:00:00SUMMERS-01:00:00,M3.5.0/01:00:00,M10.5.0/02:00:00'

# Of a rule, days and the seconds at which these and the next ones begin, worked out elsewhere.
DAYS = {
    # 23 and 25 hours.
    LONDON: {'2026-03-29': (1774742400, 1774825200), '2026-10-25': (1792882800, 1792972800)},
    LONGEST: {'2026-03-29': (1774742400, 1774825200), '2026-10-25': (1792882800, 1792972800)},
    # The first and the last day; an hour to the east the first began before 1970 in UTC.
    'UTC0': {'1970-01-01': (0, 86400), '2099-12-31': (4102358400, 4102444800),
             '2028-02-29': (1835395200, 1835481600)},
    'CET-1': {'1970-01-01': (-3600, 82800)},
    # 00:00 is skipped, so the offset before the change counts; or it comes twice.
    'XST0XDT,M3.5.0/0,M10.5.0/0': {'2026-03-29': (1774742400, 1774825200)},
    'XST0XDT,M3.5.0/0,M10.5.0/1': {'2026-10-25': (1792882800, 1792972800)},
}

NO_DAYS = ['2026-02-29', '2100-01-01', '1969-12-31', '2026-00-01', '2026-13-01', '2026-01-00',
           '2026-99-99']
NO_RULES = ['', 'Europe/London', 'GMT', 'GMT0BST,M3.5.0/1', f'A{LONGEST}']

AREA = 'area,1,500000,100000,549999,199999\n'
AREA_OF_A_POINT = 'area,9,599999,100000,599999,100000\n'


class Days(TestCase):
    def setUp(self):
        super().setUp()
        self.names = itertools.count()

    def init(self, rule, areas=AREA):
        """A new room's file with this zone, and what comes of creating it."""
        room = self.folder / f'{next(self.names)}.db'
        plan = room.with_suffix('.csv')
        plan.write_text(f'what,number,a,b,c,d\nzone,0,"{rule}",,,\n{areas}desk,1,deskone1,,,\n')
        return room, run('init', room, plan)

    def times(self, rule, days):
        """What the desk of a room with this zone is shown of days."""
        room, _ = self.init(rule)
        with serving(room, 1) as (port, _):
            return ask(port, *[message('deskone1', f'GET /times/{day}') for day in days])

    def test_days(self):
        for rule, days in DAYS.items():
            wanted = [(200, no_incidents(*it)) for it in days.values()]
            with self.subTest(rule):
                self.assertEqual(self.times(rule, days), wanted)

    def test_no_days(self):
        no_path = (404, refusal('NoPath', 36))
        self.assertEqual(self.times('UTC0', NO_DAYS), [no_path] * len(NO_DAYS))

    def test_no_rules(self):
        for rule in NO_RULES:
            with self.subTest(rule):
                room, end = self.init(rule)
                self.assertEqual((room.exists(), *end), (False, 1, '', 'refused: plan row 1\n'))

    def test_bounds_of_a_plan(self):
        """64 areas, and a zone of 64 bytes."""
        _, end = self.init(LONGEST, AREA + AREA_OF_A_POINT * 63)
        self.assertEqual(end, (0, 'created: divisions 2, areas 64, terminals 1\n', ''))


# ---- moments

# What the clock gives, one moment a message, and the dates of the answers to two messages. The
# first is the example of RFC 9110, section 5.6.7, and the next the last moment of the room.
MOMENTS = {
    '784111777 4102444799': ['Sun, 06 Nov 1994 08:49:37 GMT', 'Thu, 31 Dec 2099 23:59:59 GMT'],
    '1000 4102444800': ['Thu, 01 Jan 1970 00:16:40 GMT'],
    '1000 -1': ['Thu, 01 Jan 1970 00:16:40 GMT'],
    '1000': ['Thu, 01 Jan 1970 00:16:40 GMT'],
}


class Moments(PreloadedTestCase):
    def test_moments(self):
        """Where the clock gives no moment of the room, nothing is answered and the connection
        ends."""
        answered = answer('200 OK', '{"queue":[]}').decode()
        for moments, dates in MOMENTS.items():
            wanted = ''.join(re.sub('Date: .*?\r', f'Date: {date}\r', answered) for date in dates)
            with self.subTest(moments):
                room = made(self.fresh())
                got = self.program.serve(clock(moments.split()), room,
                                         message('deskone1', 'GET /queue') * 2, ask=talk)
                self.assertEqual(got, (wanted.encode(), 0, b''))


# ---- reads

MOST_READS = 10_000
LONG_QUERY = b'GET /queue HTTP/1.1\r\nHost: room\r\nX-Terminal: deskone1\r\nNote: '.ljust(96, b'a')
LONG_QUERY += b'\r\n\r\n'


class Reads(TestCase):
    def test_most_reads(self):
        """A connection of the dry run has so many reads; over a socket of packets each gives one
        packet."""
        ours, theirs = socket.socketpair(socket.AF_UNIX, socket.SOCK_SEQPACKET)
        count = MOST_READS // len(LONG_QUERY)

        def send():
            with ours, contextlib.suppress(OSError):
                for byte in LONG_QUERY * (count + 1):
                    ours.send(bytes([byte]))

        sender = threading.Thread(target=send, daemon=True)
        sender.start()
        with theirs:
            answered = answer('200 OK', '{"queue":[]}') * count
            self.assertEqual(dry_run(theirs), (answered, CUT))
        sender.join(180)


# ---- talks

ORDER = '{"class":2,"division":1,"incident":1,"order":1,"place":[530000,180000]}'
LEND = '{"to":2,"until":9000}'

TALKS = {
    'what is sent to a crew': [
        (message('deskone1', 'POST /vehicles/A1/duty', DUTY), DONE),
        (message('deskone1', 'POST /vehicles/A2/duty', DUTY), DONE),
        (message('deskone1', 'POST /points/4', '{"cover":1,"place":"TQ300800"}'), DONE),
        (message('deskone1', 'POST /vehicles/A2/standby', '{"point":4}'), DONE),
        (call(1), called(1)),
        (message('deskone1', 'POST /incidents/1/mobilise', '{"vehicle":"A1"}'),
         answer('200 OK', '{"order":1,"vehicle":"A1"}')),
        (message('crewofa1', 'GET /order'),
         answer('200 OK', f'{{"order":{ORDER},"post":null,"status":2}}')),
        (message('crewofa2', 'GET /order'),
         answer('200 OK', '{"order":null,"post":4,"status":1}')),
        (message('deskone1', 'POST /vehicles/A2/lend', LEND), DONE),
        (message('crewofa2', 'GET /order'),
         answer('200 OK', '{"order":null,"post":null,"status":7}')),
    ],
    'a vehicle on loan is lent on': [
        (message('desktwo2', 'POST /vehicles/B1/duty', DUTY), DONE),
        (message('desktwo2', 'POST /vehicles/B1/lend', '{"to":1,"until":9000}'), DONE),
        (message('deskone1', 'POST /vehicles/B1/accept'), DONE),
        (message('deskone1', 'POST /vehicles/B1/lend', LEND),
         refused('409 Conflict', 'NotHome', 12)),
    ],
    # Incidents 1 and 2 are 202 m apart; the calls are 101 m from both, and 102 and 100 m.
    'calls are linked to the nearest incident, of equally near ones to the first': [
        (call(1, 'TQ3000080000'), called(1)),
        (call(2, 'TQ3020280000'), called(2)),
        (call(3, 'TQ3010180000'), called(1, 'true')),
        (call(4, 'TQ3010280000'), called(2, 'true')),
    ],
    'points come out by their numbers, to their division': [
        *[(message('deskone1', f'POST /points/{number}', '{"cover":0,"place":"TQ300800"}'), DONE)
          for number in range(99, 0, -1)],
        (message('deskone1', 'GET /points'), answer('200 OK', '{{"points":[{}]}}'.format(','.join(
            f'{{"cover":0,"held":0,"number":{number},"place":[530000,180000]}}'
            for number in range(1, 100))))),
        (message('desktwo2', 'GET /points'), answer('200 OK', '{"points":[]}')),
    ],
}


class Talks(TestCase):
    def test_talks(self):
        for what, pairs in TALKS.items():
            sent, answered = joined(pairs)
            with self.subTest(what):
                self.assertEqual(dry_run(sent), (answered, WELL))


# ---- refusals

# Number, status and name, and a file of tests with a request that is refused so.
REFUSALS = [
    (1, 404, 'NoSuchIncident', 'refused_streams.py'),
    (2, 409, 'IncidentNotOpen', 'refused_streams.py'),
    (3, 404, 'NoSuchVehicle', 'refused_streams.py'),
    (4, 409, 'VehicleLent', 'rows/loan-and-recall.rows'),
    (5, 409, 'WrongStatus', 'rows/shifts.rows'),
    (6, 409, 'ShiftOver', 'rows/shifts.rows'),
    (7, 409, 'NotNeeded', 'rows/orders-and-reports.rows'),
    (8, 409, 'BelowServed', 'rows/orders-and-reports.rows'),
    (9, 409, 'StillAssigned', 'rows/orders-and-reports.rows'),
    (10, 409, 'SameIncident', 'refused_streams.py'),
    (11, 404, 'NoSuchPoint', 'rows/standby-cover.rows'),
    (12, 409, 'NotHome', 'test_vectors.py'),
    (13, 404, 'NoSuchDivision', 'rows/loan-and-recall.rows'),
    (14, 404, 'NoSuchLoan', 'rows/loan-and-recall.rows'),
    (15, 404, 'NoSuchException', 'refused_streams.py'),
    (16, 409, 'OutsideArea', 'refused_streams.py'),
    (17, 409, 'SerialReused', 'refused_streams.py'),
    (18, 409, 'NumberReused', 'rows/shifts.rows'),
    (19, 409, 'NumbersUsedUp', 'test_vectors.py'),
    (20, 409, 'CallsignTaken', 'test_program.py'),
    (21, 409, 'TokenTaken', 'test_program.py'),
    (22, 404, 'NoSuchOffer', 'refused_streams.py'),
    (30, 400, 'BadMessage', 'refused_streams.py'),
    (31, 431, 'HeadTooLong', 'refused_streams.py'),
    (32, 413, 'BodyTooLong', 'refused_streams.py'),
    (33, 417, 'Expectation', 'refused_streams.py'),
    (34, 501, 'Coding', 'refused_streams.py'),
    (36, 404, 'NoPath', 'refused_streams.py'),
    (37, 405, 'WrongMethod', 'refused_streams.py'),
    (38, 403, 'NoTerminal', 'refused_streams.py'),
    (39, 403, 'WrongRole', 'refused_streams.py'),
    (40, 400, 'BadBody', 'refused_streams.py'),
    (41, 503, 'Memory', 'test_memory.py'),
    (42, 503, 'Storage', 'test_vectors.py'),
]

# No request is refused so, but rows of a fleet are.
OF_A_FLEET = (20, 21)

STORAGE = (b'HTTP/1.1 503 Service Unavailable\r\nContent-Type: application/json\r\n'
           b'Content-Length: 31\r\nConnection: close\r\n\r\n{"error":"Storage","number":42}')


def listed_in(page):
    """The refusals that a page of docs/ has in its tables: number, status and name."""
    text = (TOP / 'docs' / page).read_text()
    found = re.findall(r'\| (\d+) \| (\w+) \| (\d{3}) (?=\|)', text)
    return sorted((int(number), int(status), name) for number, name, status in found)


@contextlib.contextmanager
def listening(process):
    """A process that has begun to serve. It is killed in the end, whatever comes."""
    try:
        line = process.stdout.readline()
        assert line == b'serving\n', f'not served: {line}'
        yield
    finally:
        process.kill()
        process.communicate()


def grow_to(process, size):
    """Lets the files of a process grow to this size, by default without bound."""
    _, most = resource.prlimit(process.pid, resource.RLIMIT_FSIZE)
    limits = (most if size is None else size, most)
    resource.prlimit(process.pid, resource.RLIMIT_FSIZE, limits)


class Refusals(TestCase):
    def test_documents(self):
        """HTTP.md has those that are sent in its table, RULES.md names those of a fleet, and no
        number that is none."""
        rows = [it[:3] for it in REFUSALS]
        self.assertEqual(listed_in('HTTP.md'), [it for it in rows if it[0] not in OF_A_FLEET])
        rules = (TOP / 'docs' / 'RULES.md').read_text()
        named = re.findall(r'\b(\d+)\s+([A-Z][a-z]+[A-Z]\w+)', rules)
        self.assertEqual(named, [(str(it[0]), it[2]) for it in rows if it[0] in OF_A_FLEET])
        numbers = {int(it) for several in re.findall(r'\(((?:\d+(?:, )?)+)\)', rules)
                   for it in several.split(', ') if len(it) < 3}
        self.assertLessEqual(numbers, {it[0] for it in rows})
        self.assertGreaterEqual(numbers, {it[0] for it in rows if it[0] < 23})

    def test_each_is_met(self):
        for number, _, name, file in REFUSALS:
            forms = [f"'{name}', {number}\\b", f"\\b{number}, '{name}'",
                     f'"{name}","number":{number}\\b', f'refused {number}\\b']
            with self.subTest(f'{number} {name} in {file}'):
                self.assertRegex((TOP / 'tests' / file).read_text(), '|'.join(forms))

    def test_numbers_of_incidents(self):
        """The last number is given out, and then no more."""
        room = made(self.folder / 'incidents.db')
        sql(room, 'UPDATE divisions SET last_incident = 2147483646')
        with serving(room, 1) as (port, _):
            self.assertEqual(ask(port, call(1), call(2, 'TQ400900')), [
                (200, '{"division":1,"incident":2147483647,"linked":false}'),
                (409, refusal('NumbersUsedUp', 19))])

    def test_numbers_of_orders(self):
        room = made(self.folder / 'orders.db', 'A1,1,1,TQ300800,crewofa1')
        sql(room, f'UPDATE vehicles SET status = 1, shift_end = {LAST_MOMENT}, '
                  'last_order = 2147483646')
        mobilise = message('deskone1', 'POST /incidents/1/mobilise', '{"vehicle":"A1"}')
        stand_down = message('deskone1', 'POST /vehicles/A1/standdown')
        with serving(room, 1) as (port, _):
            self.assertEqual(ask(port, call(1), mobilise, stand_down, mobilise)[1:], [
                (200, '{"order":2147483647,"vehicle":"A1"}'), (200, '{"done":true}'),
                (409, refusal('NumbersUsedUp', 19))])

    def test_storage(self):
        """The disk is full, and a call is refused; it has changed nothing, and is sent again."""
        self.assertTrue(STORAGE.endswith(refusal('Storage', 42).encode()))
        room, port = made(self.folder / 'full.db'), free_port()
        words = [PROGRAM, 'serve', room, f'127.0.0.1:{port}', '--connections', '2', *PATIENT]
        # A write past the limit fails, and sends no signal that the program would end by.
        process = subprocess.Popen(words, restore_signals=False, stdin=subprocess.DEVNULL,
                                   stdout=subprocess.PIPE)
        with listening(process):
            grow_to(process, 0)
            self.assertEqual(talk(port, call(1)), STORAGE)
            grow_to(process, None)
            self.assertEqual(ask(port, call(1)),
                             [(200, '{"division":1,"incident":1,"linked":false}')])
            self.assertEqual(process.wait(timeout=180), 0)


# ---- vehicles of each kind

KINDS = {'A1': 1, 'C1': 2, 'S1': 3}


class Kinds(TestCase):
    def test_kinds(self):
        """A vehicle of each kind, where one of each is needed: they are proposed by kind."""
        rows = [f'{name},1,{kind},TQ300800,crewof{name}' for name, kind in KINDS.items()]
        room = made(self.folder / 'kinds.db', *rows)
        sql(room, f'UPDATE vehicles SET status = 1, shift_end = {LAST_MOMENT}')
        needs = '{"class":2,"needs":[1,1,1],"note":"","place":"TQ300800","serial":1}'
        proposals = ','.join(f'{{"breaks":false,"distance":0,"kind":{kind},"vehicle":"{name}"}}'
                             for name, kind in KINDS.items())
        with serving(room, 1) as (port, _):
            got = ask(port, message('takerone', 'POST /call', needs),
                      message('deskone1', 'GET /incidents/1/propose'))
        self.assertEqual(got, [(200, '{"division":1,"incident":1,"linked":false}'),
                               (200, f'{{"proposals":[{proposals}]}}')])


# ---- a small room of two divisions


def call_row(serial, incident, moment):
    """A call at position 1, of an incident of division 1."""
    return (f'(1, {serial}, 1, {incident}, {incident}, 0, 530000, 180000, 2, 1, 0, 0, '
            f"x'', {moment})")


def turn_row(vehicle, order, ended):
    """A turn of an ambulance for incident 1 of division 1."""
    return f"('{vehicle}', {order}, 1, 1, 1, 1060, NULL, NULL, NULL, NULL, {ended}, 0)"


HOMES = {'A1': 1, 'A2': 1, 'A3': 1, 'A4': 2, 'A5': 1, 'B1': 1, 'B2': 2}

# Incident 2 was merged into 1. A1 is on its way, and its skipped report isn't cleared. A2 waits at
# a point, A3 is offered and B1 is lent to division 2, A4 is lent and B2 is offered by it, and A5
# is off duty.
SMALL_ROOM = f"""
UPDATE divisions SET last_incident = 3 WHERE number = 1;
INSERT INTO incidents VALUES (1, 1, 530000, 180000, 2, 1, 0, 0, 1000, NULL, 0, NULL),
  (1, 2, 530000, 180000, 2, 1, 0, 0, 1000, NULL, 2, 1),
  (1, 3, 530000, 180000, 1, 1, 0, 0, 1000, NULL, 0, NULL);
INSERT INTO calls VALUES {call_row(1, 1, 1000)}, {call_row(2, 1, 1010)}, {call_row(3, 3, 1000)};
UPDATE vehicles SET shift_end = {LAST_MOMENT};
UPDATE vehicles SET status = 2, last_order = 1, last_report = 1 WHERE callsign = 'A1';
UPDATE vehicles SET status = 1, last_order = 2, post = 1 WHERE callsign = 'A2';
UPDATE vehicles SET status = 7 WHERE callsign IN ('A3', 'B2');
UPDATE vehicles SET status = 1, holder = 1 WHERE callsign = 'A4';
UPDATE vehicles SET status = 1, holder = 2 WHERE callsign = 'B1';
INSERT INTO turns VALUES {turn_row('A1', 1, 'NULL')}, {turn_row('A2', 2, 1100)};
INSERT INTO assignments VALUES ('A1', 1, 1, 1, 530000, 180000, 2);
INSERT INTO points VALUES (1, 1, 530000, 180000, 1);
INSERT INTO loans VALUES ('A4', 2, 1, 900, {LAST_MOMENT}, 0), ('B1', 1, 2, 900, {LAST_MOMENT}, 0);
INSERT INTO offers VALUES ('A3', 1, 2, 900, {LAST_MOMENT}), ('B2', 2, 1, 900, {LAST_MOMENT});
INSERT INTO reports VALUES ('A1', 1, 3, 1, 530000, 180000, 1070, 1, 1, 4, 0);
"""

UNTIL = f'"until":{LAST_MOMENT}'

# Each request of a desk: with its body, how many lines it is shown, and the tables of the rows
# that change, each as often as rows in it do.
REQUESTS = [
    ('GET /incidents', '', 2, ''),
    ('GET /incidents/3/propose', '', 1, ''),
    ('POST /incidents/3/mobilise', '{"vehicle":"A2"}', 0, 'assignments incidents turns vehicles'),
    ('POST /incidents/1/needs', '{"needs":[2,1,0]}', 0, 'incidents'),
    ('POST /incidents/3/merge', '{"into":1}', 0, 'calls incidents incidents'),
    ('POST /incidents/3/close', '', 0, 'incidents'),
    ('GET /vehicles', '', 5, ''),
    ('POST /vehicles/A1/standdown', '', 0, 'assignments turns vehicles'),
    ('POST /vehicles/A4/standby', '{"point":1}', 0, 'vehicles'),
    ('POST /vehicles/A2/standby', '{"point":null}', 0, 'vehicles'),
    ('POST /vehicles/A5/duty', f'{{"place":"TQ300800",{UNTIL}}}', 0, 'vehicles'),
    ('POST /vehicles/A2/off', '', 0, 'vehicles'),
    ('POST /vehicles/A2/lend', f'{{"to":2,{UNTIL}}}', 0, 'offers vehicles'),
    ('POST /vehicles/A3/withdraw', '', 0, 'offers vehicles'),
    ('POST /vehicles/B2/decline', '', 0, 'offers vehicles'),
    ('POST /vehicles/B2/accept', '', 0, 'loans offers vehicles'),
    ('POST /vehicles/B1/recall', '', 0, 'loans'),
    ('POST /vehicles/A4/giveback', '', 0, 'loans vehicles'),
    ('GET /queue', '', 6, ''),
    ('POST /queue/A1/1/clear', '', 0, 'reports'),
    ('GET /points', '', 1, ''),
    ('POST /points/2', '{"cover":1,"place":"TQ300800"}', 0, 'points'),
    ('GET /loans', '', 2, ''),
    ('GET /offers', '', 2, ''),
    ('GET /times/1970-01-01', '', 2, ''),
]

SOUND = {
    'nothing': '',
    'a further call': f'INSERT INTO calls VALUES {call_row(4, 1, 1000)}',
    'an earlier turn': f"INSERT INTO turns VALUES {turn_row('A2', 1, 1100)}",
    'the last position': "INSERT INTO terminals VALUES ('taker099', 1, 99, NULL)",
    'a second desk': "INSERT INTO terminals VALUES ('desktwo9', 0, 2, NULL)",
}

# Agreements of the rows, each broken by one row.
BROKEN = {
    'a point of a division outside the plan':
        'INSERT INTO points VALUES (3, 1, 530000, 180000, 1)',
    'a vehicle of a division outside the plan':
        "UPDATE vehicles SET home = 3, holder = 3 WHERE callsign = 'A5'",
    'a turn of a division outside the plan': "UPDATE turns SET division = 3 WHERE callsign = 'A2'",
    'a report of a division outside the plan': 'UPDATE reports SET division = 3',
    'a loan of no vehicle': f"INSERT INTO loans VALUES ('C1', 1, 2, 900, {LAST_MOMENT}, 0)",
    'an offer of no vehicle': f"INSERT INTO offers VALUES ('C1', 1, 2, 900, {LAST_MOMENT})",
    'an offer of a vehicle that waits':
        f"INSERT INTO offers VALUES ('A2', 1, 2, 900, {LAST_MOMENT})",
    'a post of a vehicle on its way': "UPDATE vehicles SET post = 1 WHERE callsign = 'A1'",
    'an assignment of no vehicle':
        "INSERT INTO assignments VALUES ('C1', 1, 1, 1, 530000, 180000, 2)",
    'an assignment of a vehicle that waits':
        "INSERT INTO assignments VALUES ('A2', 1, 1, 2, 530000, 180000, 2)",
    'an open turn of a vehicle that waits': "UPDATE turns SET ended = NULL WHERE callsign = 'A2'",
    'an open turn before the last': f"INSERT INTO turns VALUES {turn_row('A2', 1, 'NULL')}",
    'a turn past the last order': f"INSERT INTO turns VALUES {turn_row('A2', 3, 1100)}",
    'a turn of no vehicle': f"INSERT INTO turns VALUES {turn_row('C1', 1, 1100)}",
    'an open turn for another incident': "UPDATE turns SET incident = 3 WHERE callsign = 'A1'",
    'a call of a merged incident': f'INSERT INTO calls VALUES {call_row(4, 2, 1000)}',
    'a call before the opening': f'INSERT INTO calls VALUES {call_row(4, 1, 999)}',
}


def lines_in(content):
    """How many lines an answer shows."""
    lists = [it for it in json.loads(content).values() if isinstance(it, list)]
    return len(lists[0]) if lists else 0


def changed(before, after):
    """The tables in which rows were put or dropped, each as often as rows in it were."""
    old, new = (set(it.splitlines()) for it in (before, after))
    put, dropped = (collections.Counter(line.split()[2] for line in lines
                                        if line.startswith('INSERT INTO'))
                    for lines in (new - old, old - new))
    return ' '.join(sorted((put | dropped).elements()))


class SmallRoom(TestCase):
    def setUp(self):
        super().setUp()
        self.names = itertools.count()
        rows = [f'{name},{home},1,TQ300800,crewof{name}' for name, home in HOMES.items()]
        self.room = made(self.folder / 'small.db', *rows)
        self.assertEqual(sql(self.room, SMALL_ROOM), '')

    def copied(self):
        return shutil.copy(self.room, self.folder / f'{next(self.names)}.db')

    def opened_after(self, change):
        """What comes of opening the room after a change of its file."""
        file = self.copied()
        self.assertEqual(sql(file, change), '')
        status, _, printed = run('times', file, 1, '2026-03-29')
        return status, printed

    def test_requests(self):
        before = dump(self.room)
        for line, body, lines, tables in REQUESTS:
            with self.subTest(line):
                file = self.copied()
                with serving(file, 1) as (port, process):
                    (status, content), = ask(port, message('deskone1', line, body))
                    process.wait(timeout=180)
                got = status, lines_in(content), changed(before, dump(file))
                self.assertEqual(got, (200, lines, tables))

    def test_sound(self):
        for what, change in SOUND.items():
            with self.subTest(what):
                self.assertEqual(self.opened_after(change), (0, ''))

    def test_broken(self):
        for what, change in BROKEN.items():
            with self.subTest(what):
                self.assertEqual(self.opened_after(change), (1, 'refused: file\n'))
