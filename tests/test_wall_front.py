"""The wall on other machines, by HAProxy with examples/wall/wall.cfg: who has no certificate sees
nothing, and who has one the wall."""
# needs: haproxy openssl
import contextlib
import http.client
import json
import os
import socket
import ssl
import subprocess

from room import PATIENCE, TOP, TestCase, free_port
from walls import plan_of, played, wall

HAPROXY = TOP / 'examples' / 'haproxy'
WALL = TOP / 'examples' / 'wall'


def is_heard(port):
    with socket.socket() as it:
        return it.connect_ex(('127.0.0.1', port)) == 0


class Fronted(TestCase):
    def setUp(self):
        super().setUp()
        self.certificates = self.folder / 'certificates'
        self.certify(self.certificates)
        room = played(self, lambda token, what: [])
        self.wall = self.enterContext(wall(room.port, plan_of(self.folder, 1)))
        self.port = self.enterContext(self.front())

    def certify(self, folder):
        subprocess.run([HAPROXY / 'certificates.sh', folder, 'localhost', 'screen1'], check=True,
                       capture_output=True)

    @contextlib.contextmanager
    def front(self):
        """HAProxy in front of the wall; gives the port at which browsers come."""
        port = free_port()
        settings = {'WALL': self.wall.removeprefix('http://').strip('/'),
                    'SCREENS': f'127.0.0.1:{port}', 'LISTEN': f'127.0.0.1:{free_port()}',
                    'CERTIFICATES': str(self.certificates)}
        command = ['haproxy', '-db', '-f', HAPROXY / 'haproxy.cfg', '-f', WALL / 'wall.cfg']
        process = subprocess.Popen(command, stdin=subprocess.DEVNULL, stdout=subprocess.DEVNULL,
                                   stderr=subprocess.PIPE, env=os.environ | settings)
        try:
            self.check_comes('it listens', lambda: is_heard(port), True)
            yield port
        finally:
            process.kill()
            process.communicate()

    def ask(self, method, path, certificate):
        """The status and the content of an answer, by a browser that has a certificate or none."""
        context = ssl.create_default_context(cafile=self.certificates / 'authority.crt')
        if certificate:
            context.load_cert_chain(certificate)
        connection = http.client.HTTPSConnection('localhost', self.port, timeout=PATIENCE,
                                                 context=context)
        try:
            connection.request(method, path)
            answer = connection.getresponse()
            return answer.status, answer.read().decode()
        finally:
            connection.close()

    def test_front(self):
        own = self.certificates / 'screen1.pem'
        files = ['/', *(f'/{it.name}' for it in WALL.glob('*.*')
                        if it.suffix in ('.html', '.css', '.js'))]
        for path in files:
            self.check(path, self.ask('GET', path, own)[0], 200)
        self.check_comes('a picture', lambda: self.divisions(own), [200, [1]])
        _, answered = self.ask('GET', '/picture', own)
        self.check('only looks', self.ask('POST', '/picture', own)[0], 403)
        self.check('no token', 'desknumber1' in answered, False)
        other = self.folder / 'other'
        self.certify(other)
        for certificate in (None, other / 'screen1.pem'):
            with self.subTest(f'a browser with {certificate}'), self.assertRaises(OSError):
                self.ask('GET', '/', certificate)

    def divisions(self, own):
        """The divisions of a picture, none before the room was read."""
        status, answered = self.ask('GET', '/picture', own)
        return [status, [it['division'] for it in json.loads(answered)['desks'] or ()]]

    def test_recipe(self):
        """The commands of the README are those that are tried here."""
        text = (WALL / 'README.md').read_text()
        command = 'cat examples/haproxy/haproxy.cfg examples/wall/wall.cfg |'
        self.check('the command', command in text, True)
        check = ['haproxy', '-c', '-f', HAPROXY / 'haproxy.cfg', '-f', WALL / 'wall.cfg']
        both = self.folder / 'haproxy.cfg'
        both.write_text(''.join(it.read_text() for it in check[3::2]))
        for command in (check, ['haproxy', '-c', '-f', both]):
            done = subprocess.run(command, capture_output=True, timeout=PATIENCE,
                                  env=os.environ | {'CERTIFICATES': str(self.certificates)})
            self.check(f'{len(command)} words', done.returncode, 0)
