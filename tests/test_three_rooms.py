"""Rooms of three machines that differ, by a bit or by a version of the program: the odd one takes
no more, and the others go on."""
# needs: etcd-server sqlite3
# builds: dispatch_room
import pathlib
import signal
import sys

from listed import ThreeTestCase, call
from machines import PATIENCE
from many_terminals import exchange
from room import PROGRAM, dump

OTHER = pathlib.Path(__file__).resolve().parent / 'other_version.py'


class Rooms(ThreeTestCase):
    def setUp(self):
        super().setUp()
        self.machines.copy_every = 10
        self.serial = 0

    def calls(self, count, number=1):
        """Makes calls by a machine; gives the answers' statuses."""
        found = []
        for _ in range(count):
            self.serial += 1
            found.append(self.answered(number, call(self.serial))[1])
        return found

    def until_odd(self, number):
        """Waits until a machine stops by itself, as it differs; the others go on."""
        text = 'this room differs from those of all others at record '
        self.machines.until(lambda: text in self.machines.health(number).get('refuses', ''),
                            f'machine {number} is stopped')
        self.check('it takes no more', exchange(self.machines.address(number), call(99), PATIENCE)
                   [1:], (503, '{"error":"NoAnswer","kept":"no"}'))
        others = [it for it in self.machines.machines if it != number]
        for it in others:
            self.check('another goes on', self.calls(3, it), [200] * 3)
            self.machines.until(lambda: self.machines.health(it).get('others', {}).get(
                str(number), {}).get('differs'), 'it names the odd one')

    def flip(self, file):
        """Changes a bit of a file, past the program that has it open."""
        content = file.read_bytes()
        self.check('the zone stands there', b'GMT0' in content, True)
        with file.open('r+b') as it:
            it.seek(content.index(b'GMT0') + 3)
            it.write(b'1')

    def test_copy(self):
        """A copy that changed on the disk is not played: the one before is."""
        self.machines.start_all()
        self.check('calls', self.calls(30), [200] * 30)
        self.copied(30)
        self.machines.kill('companion', 2)
        self.flip(self.newest(2).file)
        self.machines.start('companion', 2)
        self.check('it ends', self.machines.ended(2), 3)
        self.machines.start('companion', 2)
        self.machines.wait_for(2)
        self.check('it is set aside', 'not the room of the list any more' in self.machines.said(),
                   True)
        self.check('more calls', self.calls(30, 2), [200] * 30)
        self.copied(60)

    def start_again(self, number, how):
        """Ends the companion of a machine that was the odd one, and starts it."""
        how(number)
        self.machines.start('companion', number)
        self.machines.wait_for(number)
        self.check('its copies since are set aside',
                   'not the room of the list any more' in self.machines.said(), True)
        self.check('it goes on', self.calls(30, number), [200] * 30)

    def test_bit(self):
        """A bit of one room's file changes: its next copy of a record of which all have one
        differs, it takes no more, and plays anew from a copy on which all agree."""
        self.machines.start_all()
        self.check('calls', self.calls(30), [200] * 30)
        self.copied(30)
        self.flip(next((self.machines.machines[2].folder / 'room' / 'work').glob('run.*/room.db')))
        self.check('more calls', self.calls(30), [200] * 30)
        self.until_odd(2)
        copied = self.machines.state(2)['copy']
        self.check('many more calls', self.calls(60), [200] * 60)
        self.machines.until(lambda: self.machines.health(2).get('behind') == 0, 'it plays on')
        self.check('it makes no copy', self.machines.state(2)['copy'], copied)
        self.start_again(2, self.machines.stop_companions)
        self.copied(150)
        self.level()
        self.check('the companions end well', self.machines.stop_companions(), [0, 0, 0])
        self.check('the three are equal', len({dump(self.newest(it).file)
                                               for it in self.machines.machines}), 1)

    def other_version(self, number):
        """One machine has another version of the program, which answers one message of seven
        otherwise."""
        other = self.folder / 'other'
        other.write_text(f'#!/bin/sh\nexec {sys.executable} {OTHER} {PROGRAM} 7 "$@"\n')
        other.chmod(0o700)
        self.machines.programs[number] = other

    def test_version(self):
        """A machine with another version is the odd one, long before a copy shows it."""
        self.machines.copy_every = 100_000
        self.other_version(3)
        self.machines.start_all()
        self.check('calls', self.calls(10), [200] * 10)
        self.until_odd(3)
        del self.machines.programs[3]
        self.machines.kill('companion', 3)
        self.machines.start('companion', 3)
        self.machines.wait_for(3)
        self.check('it goes on', self.calls(10, 3), [200] * 10)

    def test_two(self):
        """Of two that differ neither is known to be right, so both take nothing, until a third
        shows it, or one is ended."""
        self.other_version(2)
        self.machines.start_all()
        self.machines.kill('companion', 3)
        self.check('calls', self.calls(10), [200] * 10)
        for it in 1, 2:
            self.machines.until(lambda: 'and no third shows which is right'
                                in self.machines.health(it).get('refuses', ''), f'{it} waits')
        self.machines.kill('companion', 2)
        self.machines.wait_for(1)
        self.machines.start('companion', 2)
        self.machines.start('companion', 3)
        self.machines.wait_for(3)
        self.check('two go on', self.calls(10, 3), [200] * 10)
        self.until_odd(2)

    def test_upgrade(self):
        """The same version, machine by machine: the others go on meanwhile."""
        self.machines.start_all()
        for it in self.machines.machines:
            self.machines.signal('companion', it, signal.SIGTERM)
            self.check('it ends well', self.machines.ended(it), 0)
            self.check('the next answers', self.calls(3, it % 3 + 1), [200] * 3)
            self.machines.start('companion', it)
            self.machines.wait_for(it)
            self.check('it answers', self.calls(1, it), [200])
