"""Three machines that are repaired: a member of etcd whose folder is destroyed, or is that of a
backup, and a list that is given up for the newest room."""
# needs: etcd-server sqlite3
# builds: dispatch_room
import shutil
import time

from listed import ThreeTestCase, call
from room import PATIENCE, dump, message, sql

QUESTION = message('deskof01', 'GET /queue')
EXISTING = ['--initial-cluster-state=existing']


class Repair(ThreeTestCase):
    def setUp(self):
        super().setUp()
        self.machines.copy_every, self.serial = 4, 0

    def calls(self, count, number=1):
        """Makes calls by a machine; gives the last record's number."""
        for self.serial in range(self.serial + 1, self.serial + 1 + count):
            last, status, _ = self.answered(number, call(self.serial))
            self.check('a call', status, 200)
        return last

    def etcd_folder(self, number):
        return self.machines.machines[number].folder / 'etcd'

    def back_up(self, number):
        """Copies the folder of a member that is ended meanwhile."""
        self.machines.kill('member', number)
        shutil.copytree(self.etcd_folder(number), self.folder / f'saved{number}')
        self.machines.start('member', number)
        self.machines.wait_for(number)

    def put_back(self, number):
        shutil.rmtree(self.etcd_folder(number))
        shutil.copytree(self.folder / f'saved{number}', self.etcd_folder(number))

    def does(self, *words, by=1):
        """A command of a companion, again where it is refused, as while a machine still counts."""
        until = time.monotonic() + PATIENCE
        while (done := self.machines.companion_does(by, *words))[0] and time.monotonic() < until:
            time.sleep(1)
        return done

    def replace(self, number, by=1):
        """Makes a machine's member anew, by what the command says."""
        status, said = self.does('replace', str(number), by=by)
        self.check('it is replaced', (status, said.splitlines()[0]), (
            0, f'm{number} is a new member of etcd. On machine {number}, with what prepare.py made '
            'for it:'))
        shutil.rmtree(self.etcd_folder(number), ignore_errors=True)
        self.machines.member_words = EXISTING
        self.machines.start('member', number)

    def end_all(self, number):
        """Ends, of a machine, all that runs."""
        for it in 'companion', 'member':
            self.machines.end(it, number)

    def test_destroyed(self):
        """A machine that is there is not replaced; one that lost its disk is, with a copy."""
        self.machines.start_all()
        self.calls(5)
        self.check_comes('one that is there', lambda: self.machines.companion_does(
            1, 'replace', '3'), (1, 'companion: machine 3 is not away\n'))
        self.end_all(3)
        folder = self.machines.machines[3].folder
        shutil.rmtree(folder)
        last = self.calls(5)
        self.replace(3)
        copy = self.newest(1).file
        (folder / 'room').mkdir(mode=0o700, parents=True)
        shutil.copy(copy, folder / 'room' / copy.name)
        self.machines.start('companion', 3)
        self.machines.wait_for(3)
        self.check('it has what was answered', self.answered(3, QUESTION)[0], last)
        self.machines.kill('member', 1)
        self.check('and counts', self.calls(1, 3), last + 1)
        self.machines.start('member', 1)
        self.machines.wait_for(1)
        self.check('they are one room', self.one_room(), 1)

    def one_room(self):
        self.level()
        self.check('the companions end well', self.machines.stop_companions(), [0, 0, 0])
        return len({dump(self.newest(it).file) for it in self.machines.machines})

    def test_rolled_back(self):
        """A member whose folder is that of yesterday does not come back; a new one does."""
        self.machines.start_all()
        self.calls(2)
        self.back_up(3)
        last = self.calls(40)
        self.end_all(3)
        self.put_back(3)
        self.replace(3)
        self.machines.start('companion', 3)
        self.machines.wait_for(3)
        self.check('it has what was answered', self.answered(3, QUESTION)[0], last)
        self.check('they are one room', self.one_room(), 1)

    def test_two_rolled_back(self):
        """Where two of three members have the folders of yesterday, the list went back. Each
        companion says so, and leaves a copy of all that it has played; the third member, which has
        more than both, is silent. Another list begins with that copy, and nothing is lost."""
        self.machines.start_all()
        old = self.calls(2)
        for it in 2, 3:
            self.back_up(it)
        last = self.calls(9)
        self.level()
        for it in self.machines.machines:
            self.machines.kill('member', it)
        for it in 2, 3:
            self.put_back(it)
            self.machines.start('member', it)
        self.check('they end', [self.machines.ended(it) for it in (2, 3)], [3, 3])
        self.check('and say so', f'the list went back: it ends at record {old}, and this room has '
                   f'played {last}\n' in self.machines.said(), True)
        self.machines.start('member', 1)
        self.machines.until(lambda: self.machines.health(1).get('refuses') in (
            'etcd is silent', 'most members of etcd are silent'), 'the third says so')
        self.check('its companion ends well', self.machines.stop_companions(1), [0])
        self.check('each has all', [self.newest(it).number for it in self.machines.machines],
                   [last] * 3)
        newest = self.folder / 'newest.db'
        shutil.copy(self.newest(2).file, newest)
        self.check('which was answered', sql(newest, 'SELECT count(*) FROM calls'), f'{last}\n')
        self.machines.kill('member', 1)
        self.replace(1, by=2)
        self.check('the list ends', self.does('drop-list', by=2)[0], 0)
        self.begin_with(newest)

    def begin_with(self, room):
        """Begins another list with a room."""
        wanted = dump(room)
        for it, machine in self.machines.machines.items():
            folder = machine.folder / 'room'
            begin = 'begin', room, folder
            self.check(f'{it} begins', self.machines.companion_does(it, *begin)[0], 0)
            self.check('with that room', dump(self.newest(it).file), wanted)
            self.check('others are kept', len(list(folder.glob('lost.*'))) > 0, True)
            self.check('not twice', self.machines.companion_does(it, *begin)[0], 1)
            self.machines.start('companion', it)
        self.machines.wait_for_all()
        self.check('it goes on from there', self.calls(1), 1)

    def test_another_list(self):
        """Where the list is gone, or of less worth than the newest copy, another one begins with
        that."""
        self.machines.start_all()
        self.calls(9)
        status, said = self.machines.companion_does(1, 'drop-list')
        self.check('not while it is served', (status, 'is not away' in said), (1, True))
        self.level()
        self.check('the companions end well', self.machines.stop_companions(), [0, 0, 0])
        newest = self.folder / 'newest.db'
        shutil.copy(self.newest(2).file, newest)
        self.check('the list ends', self.does('drop-list'), (0, 'there is no list any more\n'))
        self.begin_with(newest)
