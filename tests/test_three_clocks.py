"""Clocks of three machines: one that is wrong, one that nobody else confirms, and a machine that
slept."""
# needs: etcd-server sqlite3
# builds: dispatch_room
import signal
import time
import unittest.mock

from listed import ThreeTestCase, call
from machines import PATIENCE
from many_terminals import dated_exchange, exchange
from room import message

import clocks

QUESTION = message('deskof01', 'GET /queue')
TEN_YEARS, TO_2099 = 10 * 365 * 86400, 73 * 365 * 86400  # seconds
NONE = (503, '{"error":"NoAnswer","kept":"no"}')


class Clocks(ThreeTestCase):
    serial = 0

    def refuses(self, number, text):
        self.machines.until(lambda: text in self.machines.health(number).get('refuses', ''),
                            f'machine {number} refuses: {text}')

    def check_moment(self, number):
        moment = self.machines.list().entry(number).moment
        self.check('at a moment of today', abs(moment - time.time()) < PATIENCE, True)

    def is_of_today(self, number):
        found = dated_exchange(self.machines.address(number), QUESTION, PATIENCE)
        return bool(found) and found[1] == 200 and abs(found[3] - time.time()) < PATIENCE

    def test_wrong(self):
        """A machine whose clock is ahead or behind, or jumps, by a minute, an hour, a day or years,
        says so and serves on: whatever it was set to, moments are those of the others."""
        self.machines.start_all()
        for number, wall in ((1, -3600), (2, -TEN_YEARS), (3, 65), (1, 86400), (2, -65),
                             (3, TO_2099)):
            self.machines.shift(number, wall=wall)
            self.machines.until(lambda: abs(self.machines.health(number).get('ahead') or 0) > 50,
                                f'machine {number} says so')
            for it in self.machines.machines:
                self.serial += 1
                self.check_moment(self.answered(it, call(self.serial))[0])
                self.check_comes('a question too', lambda: self.is_of_today(it), True)
            self.machines.set_right(number)
            self.machines.wait_for(number)
        for wall in [-3600, 3600, -TEN_YEARS, 86400] * 3:
            self.machines.shift(2, wall=wall)
            self.serial += 1
            self.check_moment(self.answered(2, call(self.serial))[0])

    def test_two(self):
        """Of two machines whose clocks are apart, where no third is there, neither takes any."""
        self.machines.start_all()
        self.machines.kill('companion', 3)
        self.machines.shift(1, wall=-3600)
        for it, text in (1, 's behind the others'), (2, 's ahead of the others'):
            self.refuses(it, text)
            self.check('it takes none', exchange(self.machines.address(it), call(1), PATIENCE)[1:],
                       NONE)
        self.machines.start('companion', 3)
        self.machines.wait_for_all()
        self.check_moment(self.answered(1, call(1))[0])

    def test_start(self):
        """A machine that starts where no other tells its clock takes nothing, but where its own is
        trusted by a word."""
        self.machines.start_all()
        for it in self.machines.machines:
            self.machines.kill('companion', it)
        self.machines.start('companion', 3)
        self.refuses(3, 'no other machine tells its clock')
        self.machines.kill('companion', 3)
        self.machines.words[3] = ['--trust-clock']
        self.machines.start('companion', 3)
        self.machines.wait_for(3)
        self.check('it answers', self.answered(3, call(1))[1], 200)

    def test_middle(self):
        """The moment is the middle of three clocks that were heard of late, and else the machine's
        own, which is then to be near to the others."""
        passed = 1000.0
        self.enterContext(unittest.mock.patch.object(clocks, 'passed', lambda: passed))
        self.enterContext(unittest.mock.patch.object(clocks, 'moment', lambda: own))
        others, own = clocks.OtherClocks(), 5000
        self.check('none is heard', (others.ahead(own), others.middle()), (None, 5000))
        self.check('it takes none', others.fault(), 'no other machine tells its clock')
        others.hear(2, 5, 4939)
        self.check('what stood there is of unknown age', others.ahead(own), None)
        others.hear(2, 6, 4939)
        self.check('ahead of one', (others.ahead(own), others.middle()), (61, 5000))
        self.check('by too much', others.fault(), 'the clock is 61 s ahead of the others')
        others.hear(3, 7, 0)
        others.hear(3, 8, 5005)
        for own, wanted in (5000, 5000), (5010, 5010), (5011, 5005), (5066, 5005), (4878, 4939):
            self.check(f'at {own}', (others.middle(), others.fault()), (wanted, ''))
        passed += clocks.RECENT - 1
        others.hear(2, 7, 4939)
        passed += 1
        own = 5005
        self.check('the third is away', (others.ahead(own), others.fault()),
                   (65, 'the clock is 65 s ahead of the others'))
        passed += clocks.RECENT
        own = 5100
        self.check('of long ago', (others.middle(), others.fault()),
                   (5100, 'the clock is 75 s ahead of the others'))

    def test_slept(self):
        """A machine that slept for a minute keeps nothing of what was asked before: it knows by the
        clock that goes on in sleep."""
        self.machines.start_all()
        three = self.addresses()[2]
        self.machines.signal('companion', 3, signal.SIGSTOP)
        for it in range(3):
            self.check('no answer', exchange(three, call(1 + it), 0.2), None)
        self.machines.shift(3, slept=60)
        self.machines.signal('companion', 3, signal.SIGCONT)
        self.machines.until(lambda: 'held for a while' in self.machines.said(), 'it knows')
        self.machines.wait_for(3)
        self.check('it goes on, and no call was kept', self.answered(3, QUESTION)[:2], (0, 200))
