"""Three machines as a stranger sets them up: what prepare.py makes for three addresses, and what
the units of systemd are given, played in three network namespaces with certificates and a user of
etcd."""
# needs: etcd-server sqlite3 iproute2 openssl curl systemd
# builds: dispatch_room
import json
import os
import pathlib
import re
import shlex
import shutil
import signal
import subprocess
import sys
import time
import unittest

from machines import PATIENCE, THREE, end_all
from many_terminals import FLEET, PLAN
from namespaces import ADDRESSES, NUMBERS, Namespaces, done
from room import PROGRAM, TestCase, dump, run

import copies

README = (THREE / 'README.md').read_text()
CALL = json.dumps({'class': 2, 'needs': [1, 0, 0], 'note': '', 'place': 'TQ300800', 'serial': 1})


class Units(unittest.TestCase):
    def test_units(self):
        """systemd finds nothing wrong with the units."""
        for it in sorted(THREE.glob('*.service')):
            with self.subTest(it.name):
                output = done('systemd-analyze', 'verify', it)
                missing = [line for line in output.stderr.splitlines()
                           if line and 'is not executable' not in line]
                self.assertEqual(missing, [])


class Network(TestCase):
    def setUp(self):
        super().setUp()
        self.spaces, self.processes = Namespaces(), {}
        self.of_units = {'start': self.start, 'stop': self.stop}
        self.addCleanup(self.spaces.close)
        self.addCleanup(self.end)
        self.spaces.make()
        self.output = self.enterContext((self.folder / 'output').open('wb'))
        self.first = self.folder / 'first.db'
        (self.folder / 'plan.csv').write_text(PLAN)
        (self.folder / 'fleet.csv').write_text(FLEET)
        run('init', self.first, self.folder / 'plan.csv')
        run('import', self.first, self.folder / 'fleet.csv')
        os.symlink(PROGRAM, self.folder / 'dispatch_room')
        prepared = done(sys.executable, THREE / 'prepare.py', self.folder / 'prepared', *ADDRESSES)
        self.check('prepared', (prepared.returncode, prepared.stderr), (0, ''))
        self.check('nobody else reads it', [it for it in (self.folder / 'prepared').rglob('*')
                                            if it.stat().st_mode & 0o077], [])

    def end(self):
        for it in self.processes.values():
            it.kill()
            it.wait()

    def here(self, number, text):
        """A text of the units in the folders of this test in place of the machine's own."""
        state = self.folder / f'state{number}'
        return (text.replace('/etc/dispatch-room-three', f'{self.folder}/prepared/{number}')
                .replace('/var/lib/dispatch-room-three', str(state))
                .replace('/run/dispatch-room-three', f'{state}/run')
                .replace('/usr/share/doc/dispatch-room/examples/three', str(THREE))
                .replace('/usr/bin/python3', sys.executable))

    def environment(self, number, name):
        text = self.here(number, (self.folder / 'prepared' / str(number) / name).read_text())
        return dict(it.replace('"', '').split('=', 1) for it in text.splitlines())

    def unit(self, number, name):
        """The command of a unit, and its environment."""
        text = self.here(number, (THREE / f'dispatch-room-{name}.service').read_text())
        command = re.search(r'^ExecStart=((?:.*\\\n)*.*)$', text, re.M)[1].replace('\\\n', ' ')
        environment = self.environment(number, f'{name}.env')
        for it, value in environment.items():
            command = command.replace(f'${it}', value)
        return shlex.split(command), environment

    def start(self, number, name):
        command, environment = self.unit(number, name)
        path = f'{self.folder}:{os.environ["PATH"]}'
        self.processes[number, name] = subprocess.Popen(
            self.spaces.inside(number, *command), env=os.environ | environment | {'PATH': path},
            stdin=subprocess.DEVNULL, stdout=self.output, stderr=self.output)

    def does(self, number, line):
        """What comes of a line that an administrator types on a machine, by the words of its
        REACH. What it says of the units is done by this test."""
        words = line.split()
        if words[:2] == ['sudo', 'systemctl']:
            for it in words[3:]:
                self.of_units[words[2]](number, it.removeprefix('dispatch-room-'))
            return None
        line = self.here(number, line).replace('sudo ', '').replace('room.db', str(self.first))
        path = self.folder / f'here{number}'
        path.write_text(f'REACH="{self.environment(number, "companion.env")["REACH"]}"\n{line}\n')
        return done(*self.spaces.inside(number, 'sh', '-e', path),
                    env=os.environ | {'PATH': f'{THREE}:{os.environ["PATH"]}'})

    def does_recipe(self, number, name):
        """Does what the one line of the README says that has the companion's command of a name."""
        [line] = re.findall(f'^    (companion\\.py {name} .*?)(?:   .*)?$', README, re.M)
        return self.does(number, line)

    def stop(self, number, name):
        process = self.processes.pop((number, name), None)
        if process:
            process.terminate()
            process.wait(PATIENCE)

    def until(self, what, holds):
        until = time.monotonic() + PATIENCE
        while not holds():
            output = pathlib.Path(self.output.name).read_text(errors='replace')[-3000:]
            assert time.monotonic() < until, f'not within {PATIENCE} s: {what}\n{output}'
            time.sleep(0.5)

    def curl(self, number, path, *words):
        """What curl gets on a machine: the body, and the status."""
        output = done(*self.spaces.inside(number, 'curl', '-s', '-m', '30', '-w', ' %{http_code}',
                                          f'http://127.0.0.1:8080{path}', *words))
        return output.stdout

    def serves(self, number):
        return self.curl(number, '/health').endswith(' 200')

    def start_all(self):
        for it in NUMBERS:
            self.start(it, 'member')
        self.until('a user', lambda: self.does_recipe(1, 'user').returncode == 0)
        for it in NUMBERS:
            room = self.folder / f'state{it}' / 'room'
            self.until(f'{it} begins', lambda: copies.copies_in(room)
                       or self.does_recipe(it, 'begin').returncode == 0)
            self.start(it, 'companion')
        for it in NUMBERS:
            self.until(f'{it} serves', lambda: self.serves(it))

    def answered(self, number, path, *words):
        found = ['']

        def asks():
            found[0] = self.curl(number, path, *words)
            return found[0][-3:] not in ('503', '000')
        self.until(f'{number} answers', asks)
        return found[0]

    def test_machines(self):
        """One room: what one machine takes another shows; one that is cut off answers nothing, and
        is level with the others afterwards. Who has no certificate or password reads nothing."""
        self.start_all()
        post = '-H', 'X-Terminal: takerat01', '-d', CALL
        ask = '-H', 'X-Terminal: deskof02'
        output = self.answered(1, '/call', *post)
        self.check('a call', output[-3:], '200')
        asked = self.answered(2, '/incidents', *ask)
        self.check('a question to another', asked, self.answered(3, '/incidents', *ask))
        self.strangers()
        self.spaces.cut(3, True)
        self.until('3 answers nothing', lambda: self.curl(3, '/incidents', *ask)[-3:] == '503')
        self.check('the others go on', self.answered(2, '/call', *post)[-3:], '200')
        self.spaces.cut(3, False)
        self.until('3 is back', lambda: self.serves(3))
        self.check('it is level', self.answered(3, '/incidents', *ask),
                   self.answered(1, '/incidents', *ask))
        self.replace()
        self.check('a new one is level', self.answered(3, '/incidents', *ask),
                   self.answered(1, '/incidents', *ask))
        for it in NUMBERS:
            self.processes[it, 'companion'].send_signal(signal.SIGTERM)
        self.check('all end well', [self.processes[it, 'companion'].wait(PATIENCE)
                                    for it in NUMBERS], [0, 0, 0])
        newest = [copies.copies_in(self.folder / f'state{it}' / 'room')[0] for it in NUMBERS]
        self.check('three equal rooms', len({dump(it.file) for it in newest}), 1)

    def replace(self):
        """Machine 3 has a new disk, and comes back by what the README and its command say."""
        for it in 'companion', 'member':
            process = self.processes.pop((3, it))
            end_all(process.pid)
            process.wait()
        state = self.folder / 'state3'
        shutil.rmtree(state)
        found = []
        self.until('a new member', lambda: found.append(self.does_recipe(1, 'replace'))
                   or found[-1].returncode == 0)
        copy = copies.copies_in(self.folder / 'state1' / 'room')[0].file
        (state / 'room').mkdir(mode=0o700, parents=True)
        shutil.copy(copy, state / 'room' / copy.name)
        lines = re.findall('^(?:sudo|echo) .*', found[-1].stdout, re.M)
        self.check('four lines to type', len(lines), 4)
        for it in lines:
            output = self.does(3, it)
            self.check(it, output and output.returncode, output and 0)
        self.until('3 is back', lambda: self.serves(3))

    def strangers(self):
        """etcd without a certificate, with one and no password, and from another machine. (What is
        asked of the member only needs no majority.)"""
        folder = self.folder / 'prepared' / '1'
        url = 'https://127.0.0.1:2379/v3/kv/range'
        body = '-d', '{"key":"cm9vbQ==","serializable":true}'
        with_authority = '--cacert', folder / 'authority.pem'
        secured = (*with_authority, '--cert', folder / 'companion.pem', '--key',
                   folder / 'companion.key')
        found = [done(*self.spaces.inside(1, 'curl', '-s', '-m', '120', url, *body, *words))
                 for words in (with_authority, secured)]
        self.check('without a certificate', found[0].returncode != 0, True)
        self.check('without a password', 'user name is empty' in found[1].stdout, True)
        away = done(*self.spaces.inside(2, 'curl', '-s', '-m', '120', '-o', '/dev/null',
                                        f'https://{ADDRESSES[0]}:2379/version', *secured))
        self.check('from another machine', away.returncode, 7)
