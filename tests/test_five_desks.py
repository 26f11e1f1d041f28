"""A room of five desks from nothing, by the commands of docs/OPERATING.md as they stand there: in
folders of the test's own, and what systemd would start is started by its units' lines."""
# needs: curl nginx-light openssl
# builds: dispatch_room
import contextlib
import json
import os
import re
import shlex
import shutil
import socket
import subprocess
import sys
import time

import nginx
from browser import until
from pages import DESKS
from room import PATIENCE, PROGRAM, TOP, TestCase, free_port

UNITS = {'dispatch-room': TOP / 'examples' / 'dispatch_room.service',
         'dispatch-desks': DESKS / 'dispatch_desks.service'}
DESK_TOKENS = ['deskcentral', 'desknorthwest', 'desknortheast', 'desksouthwest', 'desksoutheast']
# A call in each division, by the names of the document's map: middle, and the four corners.
PLACES = ['TQ300800', 'TQ100900', 'TQ500900', 'TQ100600', 'TQ500600']
NOTED = '#!/bin/sh\necho "${0##*/} $*" >>"$NOTES"\n'


def section():
    """The commands of the section, a text for each of its blocks."""
    text = (TOP / 'docs' / 'OPERATING.md').read_text()
    section = text.partition('\n## A room of five desks in ten minutes\n')[2].partition('\n## ')[0]
    blocks = re.findall(r'(?:^    .*\n)+', section, re.M)
    return [re.sub('^    ', '', it, flags=re.M) for it in blocks]


class FiveDesks(TestCase):
    def setUp(self):
        super().setUp()
        self.room, self.pages, self.tls = free_port(), free_port(), free_port()
        self.paths = [('/var/lib', self.folder / 'state'),
                      ('/usr/share/doc/dispatch-room', self.folder / 'package'),
                      ('/etc/', f'{self.folder}/etc/')]
        self.ports = [('127.0.0.1:8080', f'127.0.0.1:{self.room}'),
                      ('127.0.0.1:8082', f'127.0.0.1:{self.pages}')]
        (self.folder / 'etc' / 'nginx' / 'sites-enabled').mkdir(parents=True)
        self.install()
        self.put_commands()

    def here(self, text):
        """A text with the folders and the ports of this test."""
        for one, other in [*self.paths, *self.ports]:
            text = text.replace(one, str(other))
        return text

    def install(self):
        """The examples as the package has them, with a site of nginx for this test."""
        examples = self.folder / 'package' / 'examples'
        for name in ('desks', 'haproxy', 'wall'):
            shutil.copytree(TOP / 'examples' / name, examples / name)
        site = examples / 'desks' / 'nginx.conf'
        site.write_text(self.here(site.read_text()).replace('8443', f'127.0.0.1:{self.tls}'))

    def put_commands(self):
        """Commands in front of those of the machine: what needs root is done without, or noted."""
        commands = self.folder / 'bin'
        commands.mkdir()
        self.nginx = nginx.command(self.folder, self.folder / 'etc' / 'nginx' / 'sites-enabled'
                                   / 'dispatch-desks')
        of_nginx = shlex.join([shutil.which('nginx'), *self.nginx[1:]])
        for name, text in [('sudo', '#!/bin/sh\nexec "$@"\n'), ('apt', NOTED), ('systemctl', NOTED),
                           ('nginx', f'#!/bin/sh\nexec {of_nginx} "$@"\n')]:
            (commands / name).write_text(text)
            (commands / name).chmod(0o755)
        (commands / 'dispatch_room').symlink_to(PROGRAM)
        self.notes = self.folder / 'notes'
        self.environment = os.environ | {'NOTES': str(self.notes),
                                         'PATH': f'{commands}:{os.environ["PATH"]}'}

    def type(self, block):
        """Types a block of commands; gives what it printed and what was asked of the system."""
        self.notes.write_text('')
        done = subprocess.run(['bash', '-e', '-c', self.here(block)], cwd=self.folder,
                              stdin=subprocess.DEVNULL, capture_output=True, timeout=PATIENCE,
                              env=self.environment)
        self.check(f'{block.partition(chr(10))[0]}: done', [done.returncode, done.stderr.decode()
                   if done.returncode else ''], [0, ''])
        return done.stdout.decode(), self.notes.read_text().splitlines()

    @contextlib.contextmanager
    def started(self, unit):
        """What a unit starts, with the files that it is given."""
        text = UNITS[unit].read_text().replace('\\\n', '')
        line = re.search('^ExecStart=(.*)$', text, re.M)[1].replace(
            '${ROOM_ADDRESS}', '127.0.0.1:8080').replace('/usr/bin/dispatch_room', str(PROGRAM))
        for name, path in re.findall('^LoadCredential=(.*):(.*)$', text, re.M):
            line = line.replace(f'%d/{name}', path)
        words = shlex.split(self.here(line))
        if unit == 'dispatch-desks':
            words = [sys.executable, *words, '--listen', f'127.0.0.1:{self.pages}']
        process = subprocess.Popen(words, stdin=subprocess.DEVNULL, stdout=subprocess.PIPE,
                                   stderr=subprocess.DEVNULL)
        try:
            self.check(f'{unit} is started', bool(process.stdout.readline()), True)
            yield
        finally:
            process.kill()
            process.communicate()

    def test_five_desks(self):
        files, room, look, front = section()
        self.check('the files', self.type(files), ('', []))
        printed, asked = self.type(room)
        self.check('the fleet', [it for it in printed.splitlines() if 'bad' in it
                                 or 'refused' in it], [])
        self.check('what is started', asked,
                   ['systemctl enable --now dispatch-room dispatch-desks'])
        with contextlib.ExitStack() as stack:
            for unit in asked[0].split()[3:]:
                stack.enter_context(self.started(unit))
            printed, _ = self.type(look)
            self.check('two vehicles', [it['vehicle'] for it in json.loads(printed)['vehicles']],
                       ['C1', 'C2'])
            _, asked = self.type(front)
            self.check('nginx', asked, ['apt install nginx-light openssl',
                                        'systemctl reload nginx'])
            stack.enter_context(nginx.running(self.nginx))
            self.check('nginx listens', until(self.is_there), True)
            self.check_day()

    def is_there(self):
        with socket.socket() as it:
            return it.connect_ex(('127.0.0.1', self.tls)) == 0

    def ask(self, machine, token, path, body=None):
        """The answer to what a terminal asks by curl, from a machine with its certificate."""
        folder = self.folder / 'etc' / 'dispatch-room' / 'certificates'
        words = ['curl', '--silent', '--show-error', '--cacert', folder / 'authority.crt',
                 '--cert', folder / f'{machine}.pem', '--resolve',
                 f'room.example:{self.tls}:127.0.0.1', '--header', f'X-Terminal: {token}',
                 *(['--data', body] if body is not None else []),
                 f'https://room.example:{self.tls}{path}']
        done = subprocess.run(words, capture_output=True, timeout=PATIENCE)
        return done.stdout.decode() or done.stderr.decode()

    def asks(self, *words):
        return json.loads(self.ask(*words))

    def check_day(self):
        """Each desk sends a vehicle to a call of its division, and its crew has the order."""
        self.check('the pages', '<html' in self.ask('desk1', 'nobody', '/desks/index.html'), True)
        self.check('names of places', self.asks('taker1', 'nobody', '/data/places.json')['places'],
                   [['Town Hall', 'TQ 300 800'], ['North Station', 'TQ 344 850']])
        until_then = int(time.time()) + 3600
        vehicles = ['C1', 'NW1', 'NE1', 'SW1', 'SE1']
        for nth, (token, vehicle, place) in enumerate(zip(DESK_TOKENS, vehicles, PLACES), 1):
            desk, taker = (f'desk{nth}', token), f'taker{nth % 2 + 1}'
            duty = f'{{"place":"{place}","until":{until_then}}}'
            self.check(f'{vehicle} on duty', self.asks(
                *desk, f'/room/vehicles/{vehicle}/duty', duty), {'done': True})
            call = (f'{{"class":2,"needs":[1,0,0],"note":"","place":"{place}","serial":{nth}}}')
            self.check(f'a call in division {nth}', self.asks(
                taker, ['takerone', 'takertwo'][nth % 2], '/room/call', call),
                {'division': nth, 'incident': 1, 'linked': False})
            self.check(f'{vehicle} is sent', self.asks(
                *desk, '/room/incidents/1/mobilise', f'{{"vehicle":"{vehicle}"}}'),
                {'order': 1, 'vehicle': vehicle})
            order = self.asks('crew', f'crewof{vehicle.lower()}', '/room/order')
            self.check(f'the order of {vehicle}', [order['status'], order['order']['incident']],
                       [2, 1])
