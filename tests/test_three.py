"""One room on three machines by examples/three, as a stranger tries it: machines in networks of
their own, with small disks, to which faults come at random while forty terminals ask. What was
answered makes one list that fits real time, each word on what was not is true, and the three rooms
are one: that of a replay of the list. For a minute, with --all for ten; the variables SEED and
SECONDS choose others."""
# needs: etcd-server sqlite3 iproute2 mount
# builds: dispatch_room
import os
import random
import socket

from disturbed import FOLDERS, Faults, small
from listed import ThreeTestCase
from machines import SEEN
from many_terminals import asked_while
from namespaces import Apart, Relay
from preloaded import EVERY

SEED = int(os.environ.get('SEED', 1992))
LASTS = float(os.environ.get('SECONDS', 600 if EVERY else 60))
AWAY = 4.0  # seconds at most until a fault has a second beside it, and until it ends
PAUSE = 0.25  # seconds of a terminal between an answer and its next request
COPY_EVERY = 1000
LOST = 20  # answers of each member
ROOM = int(max(LASTS / 600, 1) * (64 << 20))  # three copies of a room fit, which grows
SIZES = {'room': ROOM, 'work': ROOM, 'etcd': 400 << 20}  # bytes of file systems


class Disturbed(ThreeTestCase):
    def setUp(self):
        super().setUp()
        self.machines.close()
        self.machines = Apart(self.folder, self.first)
        self.addCleanup(self.machines.close)
        for number in self.machines.machines:
            of = self.folder / str(number)
            for it in FOLDERS:
                self.addCleanup(*small(of / it, SIZES[it]))
            self.machines.words[number] = [*SEEN, '--work', of / 'work']
        self.machines.copy_every, self.machines.deadline = COPY_EVERY, 10
        self.faults = Faults(self.machines, AWAY, random.Random(SEED))
        self.faults.can_part()
        self.faults.can_fill()

    def foreign(self):
        return self.faults.put

    def test_faults(self):
        self.machines.start_all()
        witness = self.witness()
        asking = asked_while(lambda: self.faults.all(LASTS), self.addresses(), PAUSE, self.chance)
        self.check('all were answered', sum(it.unanswered for it in asking), 0)
        self.end(asking, witness)
        self.check('nothing was missed', witness.fault, '')
        print(f'{self.faults.count} faults, {sum(len(it.answered) for it in asking)} answers, '
              f'{sum(len(it.given_up) for it in asking)} requests without one')


class Forgetful(Relay):
    """Stands before a member of etcd, and now and then ends a connection in place of an answer:
    what was asked is done, and the companion does not know it."""

    def __init__(self, reach, chance):
        self.chance, self.forgotten = chance, 0
        super().__init__(lambda: socket.create_connection((reach.host, reach.port)))

    def is_handed_on(self, is_answer):
        if is_answer and self.chance.random() < 0.05:
            self.forgotten += 1
            return False
        return True


class Forgotten(ThreeTestCase):
    def forget(self, machines, pause):
        """Has terminals ask some of the machines while answers of etcd are lost. What was done and
        not reported is not done again."""
        before = [Forgetful(self.machines.reach(it), random.Random(it))
                  for it in self.machines.machines]
        for number, it in enumerate(before, 1):
            self.machines.words[number] = ['--etcd', it.address, *SEEN]
        self.machines.start_all()
        witness = self.witness()

        def until_lost():
            for count in range(LOST):
                self.machines.until(lambda: min(it.forgotten for it in before) > count,
                                    f'more than {count} answers are lost')
        asking = asked_while(until_lost, self.addresses()[:machines], pause, self.chance)
        self.check('all were answered', sum(it.unanswered for it in asking), 0)
        self.end(asking, witness)

    def test_answers_of_etcd_that_are_lost(self):
        self.forget(3, PAUSE)

    def test_entries_on_their_way_together(self):
        """A machine that is the only one to put has two entries on their way, one behind the
        other."""
        self.forget(1, 0)
