"""etcd's quota on three machines: a list that is kept short by itself, a machine that is away for
long, and an alarm that is raised nevertheless."""
# needs: etcd-server sqlite3
# builds: dispatch_room
import re

from listed import AT_END, ThreeTestCase, call
from machines import PATIENCE
from many_terminals import asked_while, exchange
from room import message

import etcd
import kept_list

QUOTA = 16 << 20  # bytes
SIZE, AT_ONCE = 1 << 14, 32  # bytes of what fills it, and how many are put at once
QUESTION = message('deskof01', 'GET /queue')


class Quota(ThreeTestCase):
    def setUp(self):
        super().setUp()
        self.machines.member_words = [f'--quota-backend-bytes={QUOTA}']
        for it in self.machines.machines:
            self.machines.words[it] = ['--revisions', '10', '--away-after', '2']

    def fill(self, part, prefix='stray'):
        """Puts what is no entry, and is of nobody, until so much of the quota is used. (What is put
        twice, where an answer was lost, would take its space twice.)"""
        kept = self.machines.list()
        for it in range(int(part * QUOTA / SIZE / AT_ONCE)):
            keys = [f'{prefix}/{it}/{nth}' for nth in range(AT_ONCE)]
            kept.change([kept_list.is_none(kept_list.span(keys[0]))],
                        [kept_list.put(key, bytes(SIZE)) for key in keys])

    def used(self, number=1):
        return self.machines.health(number).get('etcd', {}).get('used', 0)

    def test_questions(self):
        """Questions take no place in the list."""
        self.machines.start_all()
        number = self.answered(1, call(1))[0]
        before = self.machines.list().ends()
        for it in self.machines.machines:
            self.check('a question', [self.answered(it, QUESTION)[:2] for _ in range(20)],
                       [(number, 200)] * 20)
        self.check('the list is as it was', self.machines.list().ends(), before)

    def test_short(self):
        """Records go once each machine has them in copies, and their space is given back."""
        self.machines.copy_every = 100
        self.machines.start_all()

        def until_a_thousand():
            for count in range(0, 1001, 100):
                self.machines.until(lambda: self.machines.health(1).get('record', 0) > count,
                                    f'more than {count} records')
        asked_while(until_a_thousand, self.addresses(), 0, self.chance)
        last = self.level()

        def are_gone():
            self.answered(1, AT_END)  # where a copy could not be reported, the next ones are
            return self.machines.list().ends()[0] >= last - 300
        self.machines.until(are_gone, 'records go')
        self.machines.until(lambda: 0 < self.used() < QUOTA // 2, 'little is used')

    def test_warned(self):
        """At half of the quota it is warned, and near its end no more is taken, so that space is
        left for what makes space; then it goes on by itself."""
        self.machines.start_all()
        self.check('a call', self.answered(1, call(1))[1], 200)
        self.fill(0.6)
        self.machines.until(lambda: self.machines.health(1).get('etcd', {}).get('warned'),
                            'a warning')
        self.machines.until(lambda: re.search(r'etcd has \d+ bytes in use and a quota of',
                                              self.machines.said()), 'the words of the warning')
        self.check('a call', self.answered(1, call(2))[1], 200)
        self.fill(0.25, 'other')
        for it in self.machines.machines:
            self.machines.until(lambda: self.machines.health(it).get('refuses')
                                == 'etcd is nearly full', 'no more is taken')
        self.check('no call', exchange(self.machines.address(2), call(3), PATIENCE)[1], 503)
        self.empty()
        self.machines.wait_for_all()
        self.check('it goes on', self.answered(2, call(4))[1], 200)

    def empty(self):
        """Deletes what was put to fill etcd, as its administrator would."""
        self.machines.list().change([], [kept_list.delete(kept_list.under(it))
                                         for it in ('stray/', 'other/')])

    def test_alarm(self):
        """Where something else fills etcd to the end, its alarm goes by itself once that is
        deleted: the companions compact, give space back and disarm."""
        self.machines.start_all()
        self.check('a call', self.answered(1, call(1))[1], 200)
        with self.assertRaises(etcd.NoSpace):
            self.fill(1.5)
        with self.assertRaises(etcd.NoSpace):
            self.machines.list().change([], [kept_list.put('stray/0/0', b'')])
        self.empty()
        self.machines.until(lambda: not self.machines.list().member.alarms(), 'no alarm is left')
        self.machines.wait_for_all()
        self.check('it goes on', self.answered(1, call(2))[1], 200)

    def test_away(self):
        """A machine that is away keeps records in the list, which is shown; once it's left out they
        go, and it comes back only with a copy of another."""
        self.machines.copy_every = 20
        self.machines.start_all()
        does = self.machines.companion_does
        self.check_comes('one that is there', lambda: does(1, 'leave-out', '2'),
                         (1, 'companion: machine 2 is not away\n'))
        self.machines.kill('companion', 3)
        for it in range(1, 62):
            self.answered(1, call(it))
        self.machines.until(lambda: 'machine 3 is away for long' in self.machines.said(),
                            'reported')
        self.check('records are kept', self.machines.list().ends()[0], 0)
        self.check_comes('left out', lambda: does(1, 'leave-out', '3')[0], 0)
        for it in range(62, 123):
            self.answered(1, call(it))
        self.machines.until(lambda: self.machines.list().ends()[0] >= 60, 'records go')
        self.machines.start('companion', 3)
        self.machines.until(lambda: 'bring a copy of another machine'
                            in self.machines.health(3).get('refuses', ''), 'it says so')
        copy, folder = self.newest(1).file, self.machines.machines[3].folder / 'room'
        (folder / 'brought').write_bytes(copy.read_bytes())
        (folder / 'brought').rename(folder / copy.name)
        self.machines.wait_for(3)
        self.check('it answers', self.answered(3, call(200))[1], 200)
        out = list(self.machines.list().values(f'{kept_list.ROOM}out/'))
        self.check('it counts again', out, [])
