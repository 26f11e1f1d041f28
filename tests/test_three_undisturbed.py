"""Three machines as terminals, boards and their keepers find them: what is sent again to another
machine, what is refused, a majority that is missing, a companion that was held, connections that
are kept, the board, and how a machine is."""
# needs: etcd-server sqlite3 curl
# builds: dispatch_room
import contextlib
import http.client
import json
import re
import shutil
import signal
import socket
import subprocess
import time

from listed import ThreeTestCase
from machines import PATIENCE
from many_terminals import exchange
from refused_streams import REFUSALS
from room import ask, message, run, serving

TAKER, DESK, OTHER_DESK, CREW = 'takerat01', 'deskof02', 'deskof01', 'crewof06'
UNTIL = int(time.time()) + 7200
NO_ANSWER = '{"error":"NoAnswer","kept":"%s"}'


def posted(token, path, content=None):
    return message(token, f'POST {path}', '' if content is None else json.dumps(content))


def call_at(serial, place):
    return posted(TAKER, '/call', {'class': 2, 'needs': [1, 0, 0], 'note': '', 'place': place,
                                   'serial': serial})


def report_of(number, button, order):
    return posted(CREW, '/report', {'button': button, 'number': number, 'order': order,
                                    'place': 'TQ300800'})


LEND = posted(DESK, '/vehicles/V6/lend', {'to': 2, 'until': UNTIL})
# What is sent to one machine and done, and what the same gets when it is sent to another: a
# refusal's number, or none where it is done again.
SENT_TWICE = [
    (posted(DESK, '/vehicles/V6/duty', {'place': 'TQ300800', 'until': UNTIL}), 5),
    (call_at(1, 'TQ300800'), None),
    (posted(DESK, '/incidents/1/mobilise', {'vehicle': 'V6'}), 5),
    (report_of(1, 'mobile', 1), None),
    (posted(DESK, '/incidents/1/needs', {'needs': [2, 0, 0]}), None),
    (posted(DESK, '/vehicles/V6/standdown'), 5),
    (posted(DESK, '/points/1', {'cover': 1, 'place': 'TQ300800'}), None),
    (posted(DESK, '/vehicles/V6/standby', {'point': 1}), None),
    (LEND, 5),
    (posted(DESK, '/vehicles/V6/withdraw'), 22),
    (LEND, 5),
    (posted(OTHER_DESK, '/vehicles/V6/decline'), 22),
    (LEND, 5),
    (posted(OTHER_DESK, '/vehicles/V6/accept'), 22),
    (posted(DESK, '/vehicles/V6/recall'), None),
    (posted(OTHER_DESK, '/vehicles/V6/giveback'), 3),
    (call_at(2, 'TQ320820'), None),
    (posted(DESK, '/incidents/2/merge', {'into': 1}), 2),
    (posted(DESK, '/incidents/1/close'), 2),
    (posted(DESK, '/vehicles/V6/off'), 5),
    (report_of(2, 'scene', 0), None),
    (posted(DESK, '/queue/V6/2/clear'), 15),
]
# Requests that are refused before they come to the list, beside those of refused_streams.
OTHERS = [
    b'GET /%71ueue HTTP/1.1\r\nHost: room\r\nX-Terminal: deskof01\r\n\r\n',
    b'GET /queue HTTP/1.1\r\nHost: room\r\nX-Terminal: a\r\n\r\n',
    b'GET /queue HTTP/1.1\r\nHost: a\r\nX-Terminal: deskof01\r\nX-Terminal: deskof01\r\n\r\n',
    b'GET /queue HTTP/1.1\r\nHost: a\r\nHost: b\r\nX-Terminal: deskof01\r\n\r\n',
    b'GET /queue HTTP/1.1\r\nHost: a\r\nContent-Length: +1\r\n\r\n',
    b'GET /queue HTTP/1.1\r\nHost: a\r\n' + b'A: b\r\n' * 32 + b'\r\n',
    b'GET  /queue HTTP/1.1\r\nHost: a\r\n\r\n', b'GET /queue HTTP/2.0\r\n\r\n']


def talk(address, sent):
    """What comes until the connection ends."""
    with socket.create_connection(address, timeout=PATIENCE) as it:
        it.sendall(sent)
        return it.makefile('rb').read()


def five_by_one(address):
    """What is answered to one request after another on one connection."""
    with contextlib.closing(http.client.HTTPConnection(*address, timeout=PATIENCE)) as connection:
        got = []
        for _ in range(5):
            connection.request('GET', '/points', headers={'X-Terminal': DESK})
            with connection.getresponse() as answer:
                got.append((answer.status, answer.read(), answer.headers['Connection']))
        return got


def by_curl(address):
    done = subprocess.run(['curl', '-s', '-H', f'X-Terminal: {DESK}', '-w', '%{num_connects}',
                           *[f'http://127.0.0.1:{address[1]}/points'] * 3],
                          capture_output=True, text=True, timeout=PATIENCE)
    return done.stdout


def unless_silent(asks):
    """What is answered, asked again where a busy machine gives no answer."""
    until = time.monotonic() + PATIENCE
    while (found := asks()) and re.search('NoAnswer|HTTP/1.1 503', repr(found)):
        assert time.monotonic() < until, f'no answer: {found}'
        time.sleep(0.2)
    return found


def without_moments(answer):
    """An answer's status and body, whose moments are of another second each time."""
    return answer[0], re.sub(r'\b\d{10}\b', '-', answer[1])


class Undisturbed(ThreeTestCase):
    def test_sent_twice(self):
        """What examples/three/README.md says of what is sent again to another machine."""
        self.machines.start_all()
        for sent, number in SENT_TWICE:
            line = sent.split(b' HTTP')[0].decode()
            first, again = self.answered(1, sent), self.answered(2, sent)
            self.check(line, first[1], 200)
            if number is None:
                self.check(f'{line}, again', again[1:], first[1:])
            else:
                self.check(f'{line}, again', json.loads(again[2]).get('number'), number)

    def test_history(self):
        """The paths that pages ask of a room with history are there, as one room answers them."""
        self.machines.start_all()
        asked = [call_at(1, 'TQ300800'), message(TAKER, 'GET /last'),
                 message(DESK, 'GET /incidents/1'), message(DESK, 'GET /incidents/9')]
        plain = self.folder / 'plain.db'
        shutil.copy(self.first, plain)
        with serving(plain, len(asked), '--history') as (port, _):
            for sent in asked:
                one, three = exchange(('127.0.0.1', port), sent, PATIENCE), self.answered(1, sent)
                self.check(f'{sent[:30]}', without_moments(three[1:]), without_moments(one[1:]))
                self.check('it is a path', '"NoPath"' in three[2], False)

    def test_majority(self):
        """With one member of three there is no answer, and all goes on with two."""
        self.machines.deadline = 3
        self.machines.start_all()
        one, two, _ = self.addresses()
        for it in 2, 3:
            self.machines.kill('member', it)
        sent, queue = call_at(1, 'TQ300800'), message(DESK, 'GET /incidents')
        number, status, got = exchange(one, sent, PATIENCE)
        self.check('a call', (number, status, got in (NO_ANSWER % 'perhaps', NO_ANSWER % 'no')),
                   (None, 503, True))
        for it, why in (1, 'most members of etcd are silent'), (2, 'etcd is silent'):
            self.machines.until(lambda: self.machines.health(it).get('refuses') == why, why)
        self.check('where no member is', exchange(two, sent, PATIENCE)[1:],
                   (503, NO_ANSWER % 'no'))
        self.machines.start('member', 2)
        self.check('the call again', self.answered(1, sent)[1:],
                   (200, '{"division":1,"incident":1,"linked":false}'))
        got = json.loads(self.answered(2, queue)[2])
        self.check('it is one call', [it['calls'] for it in got['incidents']], [1])

    def test_held(self):
        """What a terminal sent to a companion that was held, and gave up, is not kept later."""
        self.machines.start_all()
        last = self.addresses()[2]
        self.machines.signal('companion', 3, signal.SIGSTOP)
        for it in range(3):
            self.check('no answer', exchange(last, call_at(1 + it, 'TQ300800'), 0.2), None)
        self.check('another', self.answered(1, message(DESK, 'GET /points'))[1], 200)
        time.sleep(1.5)
        self.machines.signal('companion', 3, signal.SIGCONT)
        self.check('it goes on', self.answered(3, message(DESK, 'GET /points'))[1], 200)
        number = self.answered(3, posted(DESK, '/vehicles/V6/off'))[0]
        self.check('no call is kept', number, 1)

    def test_refusals(self):
        """What is refused before it comes to the list is refused as the room does."""
        self.machines.start_all()
        plain = self.folder / 'plain.db'
        shutil.copy(self.first, plain)
        refused = [sent for number, _, _, _, sent in REFUSALS if number >= 30]
        with serving(plain, len(refused + OTHERS)) as (port, _):
            for sent in refused + OTHERS:
                wanted = exchange(('127.0.0.1', port), sent, PATIENCE)
                self.check(f'{sent[:80]}', self.answered(1, sent)[1:], wanted[1:])
        sent = b'\r\nGET /queue HTTP/1.0\r\nx-terminal:deskof01\r\n\r\n'
        self.check('HTTP/1.0', self.answered(1, sent)[1:], (200, '{"queue":[]}'))
        head = message('deskof01', 'HEAD /queue').replace(b'room', b'room\r\nConnection: close')
        address = self.addresses()[0]
        got = unless_silent(lambda: talk(address, head))
        self.check('HEAD', (got[:15], got[-4:]), (b'HTTP/1.1 200 OK', b'\r\n\r\n'))
        self.check('one that does not come whole is let go', talk(address, sent[:-1]), b'')


class Connections(ThreeTestCase):
    def test_kept(self):
        """A connection is kept for the next request, and many may be sent at once."""
        self.machines.start_all()
        address = self.addresses()[0]
        self.check('five by one', unless_silent(lambda: five_by_one(address)),
                   [(200, b'{"points":[]}', None)] * 5)
        sent = [message(DESK, 'GET /points')] * 20
        self.check('twenty at once', unless_silent(lambda: ask(address[1], *sent)),
                   [(200, '{"points":[]}')] * 20)
        last = message(DESK, 'GET /points').replace(b'room', b'room\r\nConnection: close')
        got = unless_silent(lambda: talk(address, last + last))
        self.check('none behind the last', got.count(b'HTTP/1.1 200 OK'), 1)
        self.check('which says so', got.count(b'\r\nConnection: close\r\n'), 1)
        sent = message(DESK, 'GET /points') + b'\0\0\r\n\r\n' * 3
        got = unless_silent(lambda: talk(address, sent))
        self.check('what can not be read ends it', (got.count(b'200 OK'), got.count(b'"BadMess')),
                   (1, 1))
        self.check('curl keeps it', unless_silent(lambda: by_curl(address)),
                   '{"points":[]}1{"points":[]}0{"points":[]}0')

    def test_board(self):
        """The board shows of three machines what it shows of one."""
        self.machines.start_all()
        for sent, _ in SENT_TWICE[:5]:
            self.answered(1, sent)  # one that is asked again is refused, and was done
        plain = self.folder / 'plain.db'
        shutil.copy(self.first, plain)
        with serving(plain, 1000) as (port, _):
            for sent, _ in SENT_TWICE[:5]:
                exchange(('127.0.0.1', port), sent, PATIENCE)
            wanted = self.board(('127.0.0.1', port))
        self.check('of one', (wanted[0], 'V6' in wanted[1]), (0, True))
        for it in self.addresses():
            self.check(f'of {it}', self.board(it), wanted)

    def board(self, address):
        """A board's status and text, without the moments; again where not all was reached, as of a
        busy machine that gives no answer."""
        until = time.monotonic() + PATIENCE
        while True:
            status, got, _ = run('board', '%s:%d' % address, DESK, '--patience', '60')
            if status != 4 or time.monotonic() > until:
                return status, re.sub(r'Room at .*|\d+:\d\d:\d\d|\d+ *$', '-', got, flags=re.M)


class Health(ThreeTestCase):
    def test_health(self):
        """How a machine is: its number, how far it is behind, its copy, and of the others."""
        self.machines.words = {it: ['--log'] for it in self.machines.machines}
        self.machines.start_all()
        self.check('a call', self.answered(2, call_at(1, 'TQ300800'))[1], 200)
        self.level()
        names = 'machine', 'record', 'behind', 'copy', 'foreign'
        self.check_comes('it is well', lambda: [self.machines.health(1).get(it) for it in names],
                         [1, 1, 0, 0, 0])
        self.check_comes('the others', lambda: sorted(self.machines.health(1).get('others', ())),
                         ['2', '3'])
        self.check_comes('the quota', lambda: self.machines.health(1).get('etcd', {}).get('quota'),
                         2 << 30)
        words = ['curl', '-s', '-o', self.folder / 'health', '-w', '%{http_code}',
                 'http://%s:%d/health' % self.addresses()[0]]
        self.check_comes('to curl', lambda: subprocess.run(words, capture_output=True).stdout,
                         b'200')
        line = r'^\d{4}-\d\d-\d\dT\d\d:\d\d:\d\dZ position 1 POST /call 200 \d+ ms$'
        self.check_comes('its log', lambda: bool(re.search(line, self.machines.said(), re.M)), True)
        self.machines.kill('member', 1)
        self.machines.until(lambda: self.machines.health(1).get('refuses') == 'etcd is silent',
                            'it says so')

    def test_metrics(self):
        """Each line is one of Prometheus' text, and counts what was answered."""
        self.machines.start_all()
        for _ in range(7):
            self.answered(3, message(DESK, 'GET /points'))
        self.answered(3, message('nobodyhas1', 'GET /points'))
        lines = self.metrics()
        form = re.compile(r'# TYPE \w+ (gauge|counter|histogram)|\w+(\{\w+="[^"]*"\})? -?[\d.]+')
        self.check('its form', [it for it in lines if not form.fullmatch(it)], [])
        found = dict(it.rsplit(' ', 1) for it in lines if not it.startswith('#'))
        self.check('answers', [found[f'dispatch_room_answers_total{{status="{it}"}}']
                               for it in (200, 403)], ['7', '1'])
        self.check('a histogram', found['dispatch_room_answer_seconds_bucket{le="+Inf"}'],
                   found['dispatch_room_answer_seconds_count'])
        self.check_comes('it serves', lambda: 'dispatch_room_serving 1' in self.metrics(), True)

    def metrics(self):
        connection = http.client.HTTPConnection(*self.addresses()[2], timeout=PATIENCE)
        with contextlib.closing(connection):
            connection.request('GET', '/metrics')
            return connection.getresponse().read().decode().splitlines()
