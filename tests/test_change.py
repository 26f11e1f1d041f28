"""The script that changes a room that is served, as its unit serves it: a vehicle, a token and a
plan come to it, kept in its list where there is one; and the room is served again whatever fails,
with a word for how long it stood still."""
# needs: python3
# builds: dispatch_room
import os
import re
import subprocess

from room import FLEET, PLAN, PROGRAM, TOP, TestCase, ask, fleet_of, message, run
from services import Systemctl
from test_unit import Machine

CHANGE = TOP / 'examples' / 'change.sh'
USAGE = 'usage: change.sh import|terminals|replan WORD ..\n'


class Changes(TestCase):
    def setUp(self):
        super().setUp()
        self.machine = Machine(self.folder)
        self.addCleanup(self.machine.stop)
        self.state = self.machine.state
        self.room, self.list = self.state / 'room.db', self.state / 'room.list'
        self.state.mkdir(parents=True)
        run('init', self.room, PLAN)
        run('import', self.room, FLEET)
        self.systemctl = Systemctl(self.folder / 'asked', self.machine.start, self.stop)
        self.assertEqual(self.machine.start(), True)

    def stop(self):
        self.machine.stop()
        return True

    def change(self, *words):
        path = f'{self.systemctl.folder}:{PROGRAM.parent}:{os.environ["PATH"]}'
        done = subprocess.run([CHANGE, *map(str, words)], stdin=subprocess.DEVNULL,
                              capture_output=True, text=True, timeout=180,
                              env=os.environ | {'PATH': path, 'FOLDER': str(self.state)})
        return done.returncode, done.stdout, done.stderr

    def status(self, token, line='GET /order'):
        port = int(self.machine.address.rpartition(':')[2])
        return ask(port, message(token, line))[0][0]

    def fleet(self, *rows):
        file = self.folder / 'next.csv'
        file.write_text(fleet_of(*rows))
        return file

    def test_changes(self):
        status, out, err = self.change('import', self.fleet('D1,1,1,TQ303804,crewofd1'))
        self.check('a vehicle', (status, out.split()[:2], err), (0, ['D1', 'added'], ''))
        self.check('its crew', self.status('crewofd1'), 200)
        status, out, err = self.change('terminals', '--new', 'crew:A1')
        self.check('a token', (status, err), (0, ''))
        self.check('the lost one, and the new one',
                   [self.status(it) for it in ('crewofa1', out.split()[0])], [403, 200])
        plan = self.folder / 'next-plan.csv'
        plan.write_text(PLAN.read_text().replace('deskone1', 'newone11'))
        self.check('a plan', self.change('replan', plan)[0], 0)
        self.check('its desk', self.status('newone11', 'GET /queue'), 200)
        self.check('no list is begun', self.list.exists(), False)
        self.check('each once', self.systemctl.asked, 3 * ['stop', 'start'])

    def test_kept(self):
        """The change stands in the list where there is one, also where a rotation has just moved it
        away."""
        for name in 'room.list', 'room.list.1':
            self.list.unlink(missing_ok=True)
            (self.state / name).touch()
            self.assertEqual(self.change('terminals', '--new', 'desk:1')[0], 0)
            self.check(f'beside {name}', b'\nrow desk:1,' in self.list.read_bytes(), True)

    def test_fails(self):
        """The room is served again, and the status is the change's."""
        for what, words, wanted in [
                ('a bad row', ('import', self.fleet('D1,1,9,TQ303804,crewofd1')), 1),
                ('no file', ('import', self.folder / 'none.csv'), 1),
                ('a wrong word', ('terminals', '--knew', 'crew:A1'), 2),
                ('no such vehicle', ('terminals', '--new', 'crew:Z9'), 1)]:
            status, out, _ = self.change(*words)
            self.check(what, (status, re.search(r'stood still for \d+ ms\n$', out) is not None),
                       (wanted, True))
            self.check(f'{what}: served', self.status('crewofa1'), 200)
        self.systemctl.asked.clear()
        for words in [(), ('serve',), ('init', 'plan.csv')]:
            self.check(f'{words}', self.change(*words), (2, '', USAGE))
        self.check('nothing is stopped', self.systemctl.asked, [])
