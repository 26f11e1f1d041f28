"""What serves the pages of examples/desks: the companion on loopback, and nginx with TLS, each over
a served room."""
# needs: curl nginx-light openssl
# builds: dispatch_room
import contextlib
import http.client
import json
import re
import socket
import ssl
import subprocess
import sys
import threading
import time

import nginx
from pages import DESKS, PLACES, companion
from room import PATIENCE, PLAN, TOP, TestCase, free_port, made, serving

sys.path.append(str(DESKS))
import desks  # noqa: E402

CALL = '{"class":2,"needs":[1,0,0],"note":"","place":"TQ300800","serial":1}'
CALLED = '{"division":1,"incident":1,"linked":false}'
UNANSWERED = '{"error":"Unanswered","number":0}'
TOKENS = 'deskone1', 'desktwo2', 'takerone'
TAKER = {'X-Terminal': 'takerone'}
DESK = {'X-Terminal': 'deskone1'}
# The wall's modules that the pages share.
SHARED = '/wall/ground.js', '/wall/nodes.js', '/wall/ranks.js', '/wall/words.js'
# Files of the folder that are no page, and ways out of it.
NO_PAGES = ['/desks/desks.py', '/desks/README.md', '/desks/nginx.conf', '/desks/places.csv',
            '/desks/', '/desks', '/plan.csv', '/wall/wall.py', '/wall/map.js', '/desks/../plan.csv',
            '/desks/%2e%2e/plan.csv', '/desks/..%2fplan.csv', '//etc/passwd', '/data/plan.csv',
            '/data/../areas.json.x', '/desks/taker.html?x', '/.git/config']


class Asked(TestCase):
    """Asks a server by whatever connection `connect` gives."""

    def ask(self, method, path, body=None, **fields):
        """The status, the fields and the content of an answer."""
        connection = self.connect()
        try:
            connection.request(method, path, body, {it.replace('_', '-'): value
                                                    for it, value in fields.items()})
            answer = connection.getresponse()
            return answer.status, dict(answer.getheaders()), answer.read().decode()
        finally:
            connection.close()

    def asks(self, method, path, body=None, **fields):
        status, _, content = self.ask(method, path, body, **fields)
        return status, content

    def heard(self, *words, **fields):
        """What the room says, asked again where a busy one gave no answer in time."""
        end = time.monotonic() + PATIENCE
        while (found := self.asks(*words, **fields))[1] == UNANSWERED and time.monotonic() < end:
            time.sleep(0.2)
        return found

    def check_pages(self):
        """Each page and what it asks for is there, of its type and with its fields."""
        pages = [f'/desks/{it.name}' for it in DESKS.iterdir()
                 if it.suffix in ('.html', '.css', '.js')]
        asked = [*SHARED, '/data/areas.json', '/data/places.json', *pages]
        contents = {it: self.check_file(it) for it in asked}
        wanted = r"""(?:from|href=|src=)\s*['"]([^'"#]+\.(?:js|css|html))"""
        named = {re.sub(r'^/desks/\.\./', '/', f'/desks/{it.removeprefix("./")}')
                 for content in contents.values() for it in re.findall(wanted, content)}
        shared = {it.replace('/wall/', '/desks/') for it in SHARED}  # which name each other so
        self.check('its modules are there', sorted(named - set(asked) - shared), [])

    def check_file(self, path):
        """A file is there, of its type and with its fields; gives its content."""
        kinds = {'html': 'text/html', 'css': 'text/css', 'js': 'javascript', 'json': 'json'}
        status, fields, content = self.ask('GET', path)
        policy = fields.get('Content-Security-Policy', '')
        self.check(path, [status, kinds[path.rsplit('.')[-1]] in fields.get('Content-Type', ''),
                          bool(content)], [200, True, True])
        self.check(f'{path}: its fields', [
            fields.get('Cache-Control'), fields.get('X-Content-Type-Options'),
            policy.startswith("default-src 'none'; script-src 'self';")],
            ['no-store', 'nosniff', True])
        self.check(f'{path}: no token', [it for it in TOKENS if it in content], [])
        return content

    def check_room(self):
        """What the room is asked and says comes through as it is."""
        self.check('a call', self.heard('POST', '/room/call', CALL, **TAKER), (200, CALLED))
        self.check('again', self.heard('POST', '/room/call', CALL, **TAKER), (200, CALLED))
        self.check('a refusal', self.heard('GET', '/room/queue', **TAKER),
                   (403, '{"error":"WrongRole","number":39}'))
        self.check('without a terminal', self.heard('GET', '/room/queue'),
                   (403, '{"error":"NoTerminal","number":38}'))
        self.check('another method', self.heard('PUT', '/room/queue', **DESK),
                   (405, '{"error":"WrongMethod","number":37}'))
        self.check('no path of the room', self.heard('GET', '/room/nothing', **DESK),
                   (404, '{"error":"NoPath","number":36}'))
        self.check('without a body', self.heard('POST', '/room/incidents/1/close', **DESK),
                   (200, '{"done":true}'))
        status, fields, _ = self.ask('GET', '/room/queue', **DESK)
        self.check('its Date', [status, bool(re.fullmatch(r'\w{3}, .* GMT', fields['Date']))],
                   [200, True])
        self.check('a body too long', self.heard('POST', '/room/call', 100_000 * 'x', **TAKER),
                   (413, '{"error":"BodyTooLong","number":32}'))


class Companion(Asked):
    def connect(self):
        return http.client.HTTPConnection('127.0.0.1', self.port, timeout=60)

    def over(self, room_port):
        """A companion over a port; gives what ends it."""
        stack = contextlib.ExitStack()
        address = stack.enter_context(companion(room_port))
        self.port = int(address.rstrip('/').split(':')[-1])
        return stack

    def test_served(self):
        with serving(made(self.folder / 'room.db'), 99) as (port, _), self.over(port):
            self.check_pages()
            self.check_room()
            status, fields, _ = self.ask('GET', '/')
            self.check('to the pages', [status, fields['Location']], [302, '/desks/index.html'])
            for path in NO_PAGES:
                self.check(f'no page: {path}', self.ask('GET', path)[0], 404)
            self.check('a file is only read', self.ask('POST', '/desks/index.html', 'x')[0], 405)
            self.check('HEAD', self.asks('HEAD', '/desks/index.html'), (200, ''))
            self.check_strangers()

    def check_strangers(self):
        for what, fields in [('another name', {'Host': 'room.example'}),
                             ('a name that is turned here', {'Host': f'evil.example:{self.port}'}),
                             ("another site's page", {'Origin': 'http://evil.example'}),
                             ('another port', {'Origin': 'http://127.0.0.1:1'}),
                             ('another site', {'Sec-Fetch-Site': 'cross-site'})]:
            for path in ('/desks/index.html', '/room/queue'):
                self.check(f'{what} is refused: {path}',
                           self.ask('GET', path, None, **DESK, **fields)[0], 403)
        own = {'Origin': f'http://127.0.0.1:{self.port}', 'Sec-Fetch-Site': 'same-origin'}
        self.check('its own page is not',
                   self.ask('GET', '/room/queue', None, **DESK, **own)[0], 200)

    def test_no_answer(self):
        with socket.create_server(('127.0.0.1', 0)) as silent:
            with self.over(silent.getsockname()[1]):
                self.check('a room that is silent', self.asks('POST', '/room/call', CALL, **TAKER),
                           (504, UNANSWERED))
        with self.over(free_port()):
            self.check('a room that is not there', self.asks('GET', '/room/queue', **DESK),
                       (502, UNANSWERED))

    def test_data(self):
        """What nginx serves is what the companion serves."""
        command = [sys.executable, DESKS / 'desks.py', '127.0.0.1:9', '--plan', PLAN, '--places',
                   PLACES, '--write', self.folder / 'data']
        done = subprocess.run(command, capture_output=True, timeout=60)
        self.check('written', done.returncode, 0)
        with self.over(9):
            for name in ('areas.json', 'places.json'):
                self.check(name, (self.folder / 'data' / name).read_text(),
                           self.asks('GET', f'/data/{name}')[1])
        areas = json.loads((self.folder / 'data' / 'areas.json').read_text())['areas']
        self.check('the areas of the plan', areas[0], {'division': 1, 'west': 500000,
                   'south': 100000, 'east': 549999, 'north': 199999})

    def test_words(self):
        bad = self.folder / 'bad.csv'
        bad.write_text('name\nTown Hall\n')
        for what, words in [('elsewhere', ['127.0.0.1:9', '--listen', '0.0.0.0:0']),
                            ('a room elsewhere', ['192.0.2.1:80']),
                            ('no plan', ['127.0.0.1:9', '--plan', self.folder / 'none']),
                            ('no places', ['127.0.0.1:9', '--places', bad])]:
            done = subprocess.run([sys.executable, DESKS / 'desks.py', *words],
                                  stdin=subprocess.DEVNULL, capture_output=True, timeout=60)
            self.check(f'{what} is refused', done.returncode, 2)
        self.check('it says where', f'{bad}:2: wanted name,place' in done.stderr.decode(), True)


class Machine(threading.Thread):
    """One of the machines that are one room, which gives the same answer to all, or breaks off."""

    def __init__(self, answer):
        super().__init__(daemon=True)
        self.answer, self.asked = answer, 0
        self.listening = socket.create_server(('127.0.0.1', 0))
        self.address = self.listening.getsockname()
        self.start()

    def run(self):
        while True:
            connection, _ = self.listening.accept()
            with connection:
                connection.recv(65536)
                self.asked += 1
                connection.sendall(self.answer)


def answer(status, content):
    return b'HTTP/1.1 %d X\r\nContent-Length: %d\r\n\r\n%b' % (status, len(content), content)


class Machines(TestCase):
    def check_asked(self, what, line, first, wanted):
        """Whether the second machine is asked where the first gives such an answer."""
        one, two = Machine(first), Machine(answer(200, b'{}'))
        rooms = [one.address, two.address]
        found = desks.ask(rooms, *line.split(), 'deskone1', b'{}')
        self.check(f'{what}: {line}', (found[0], two.asked), wanted)
        self.check('the second is asked first from then on', rooms[0] == two.address,
                   first != answer(409, b'{}'))

    def test_next(self):
        no, perhaps = (answer(503, b'{"error":"NoAnswer","kept":"%b"}' % it)
                       for it in (b'no', b'perhaps'))
        calls, deed = ('GET /queue', 'POST /call', 'POST /report'), 'POST /vehicles/A1/recall'
        for what, first, status in [('not kept', no, 200), ('perhaps kept', perhaps, 503),
                                    ('it breaks off', b'', 504)]:
            for line in calls:
                self.check_asked(what, line, first, (200, 1))
            self.check_asked(what, deed, first, (status, int(status == 200)))
        self.check_asked('a refusal', deed, answer(409, b'{}'), (409, 0))

    def test_none(self):
        gone = '127.0.0.1', free_port()
        there = Machine(answer(200, b'{}'))
        for rooms, wanted in ([gone], 502), ([gone, gone], 502), ([gone, there.address], 200):
            found = desks.ask(rooms, 'POST', '/vehicles/A1/recall', 'deskone1', None)
            self.check(f'{len(rooms)} machines', found[0], wanted)


class Nginx(Asked):
    """nginx by the example's file, whose ports and folders are the test's."""

    def setUp(self):
        super().setUp()
        self.certificates = self.folder / 'certificates'
        subprocess.run([TOP / 'examples' / 'haproxy' / 'certificates.sh', self.certificates,
                        'room.example', 'desk1'], check=True, capture_output=True)
        subprocess.run([sys.executable, DESKS / 'desks.py', '127.0.0.1:9', '--plan', PLAN,
                        '--places', PLACES, '--write', self.folder / 'state' / 'data'], check=True,
                       capture_output=True)
        self.port = free_port()

    @contextlib.contextmanager
    def over(self, room_port):
        """The example's file for this test, tried and run."""
        site = self.folder / 'site'
        site.write_text(nginx.replaced((DESKS / 'nginx.conf').read_text(), [
            ('8443', f'127.0.0.1:{self.port}'), ('127.0.0.1:8080', f'127.0.0.1:{room_port}'),
            ('/etc/dispatch-room/certificates', self.certificates),
            ('/usr/share/doc/dispatch-room/examples', TOP / 'examples'),
            ('/var/lib/dispatch-desks', self.folder / 'state')]))
        words = nginx.command(self.folder, site)
        tried = subprocess.run([*words, '-t'], capture_output=True, timeout=60)
        self.check('nginx -t', [tried.returncode, b'warn' in tried.stderr], [0, False])
        with nginx.running(words):
            yield

    def context(self, certificate='desk1.pem'):
        context = ssl.create_default_context(cafile=self.certificates / 'authority.crt')
        if certificate:
            context.load_cert_chain(self.certificates / certificate)
        return context

    def connect(self, name='room.example', certificate='desk1.pem'):
        """A connection by TLS to a name, once nginx listens."""
        plain = socket.socket()
        plain.settimeout(60)
        end = time.monotonic() + PATIENCE
        while plain.connect_ex(('127.0.0.1', self.port)) and time.monotonic() < end:
            time.sleep(0.05)
        connection = http.client.HTTPConnection(name, self.port)
        connection.sock = self.context(certificate).wrap_socket(plain, server_hostname=name)
        return connection

    def test_served(self):
        with serving(made(self.folder / 'room.db'), 99) as (port, _), self.over(port):
            self.check_pages()
            self.check_room()
            for path in NO_PAGES:
                status = self.ask('GET', path)[0]
                self.check(f'no page: {path}', status in (400, 404) or path.endswith('?x'), True)
            self.check_strangers()

    def check_strangers(self):
        with self.assertRaises(OSError):
            self.connect('other.example')
        connection = self.connect(certificate=None)
        connection.request('GET', '/room/queue', headers=DESK)
        self.check('without a certificate', connection.getresponse().status, 400)
        with socket.create_connection(('127.0.0.1', self.port), timeout=60) as it:
            it.sendall(b'GET / HTTP/1.1\r\nHost: room.example\r\n\r\n')
            self.check('without TLS', b'400' in it.recv(100), True)

    def test_no_answer(self):
        with socket.create_server(('127.0.0.1', 0)) as silent:
            with self.over(silent.getsockname()[1]):
                self.check('a room that is silent', self.asks('POST', '/room/call', CALL, **TAKER),
                           (504, UNANSWERED))
        self.port = free_port()
        with self.over(free_port()):
            self.check('a room that is not there', self.asks('GET', '/room/queue', **DESK),
                       (504, UNANSWERED))
