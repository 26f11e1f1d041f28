"""A vehicle of each kind is sent through each order: duty, standby, mobilise, stand-down, lend,
withdraw, decline, accept, recall, give-back, off, with its crew's reports; and its incidents go
through needs, merge and close. All is done, and nothing is refused."""
# needs: python3
# builds: dispatch_room
import json
import pathlib
import tempfile

from room import TestCase, ask, made, message, serving

DESK, LENT_TO, TAKER, CREW = 'deskone1', 'desktwo2', 'takerone', 'crewofx1'
KINDS = {1: 'ambulance', 2: 'car', 3: 'support'}
DONE = {'done': True}


def needs(kind, count):
    return [count if it == kind else 0 for it in KINDS]


def call(kind, serial, place):
    body = {'class': 2, 'needs': needs(kind, 1), 'note': '', 'place': place, 'serial': serial}
    return TAKER, 'POST /call', body, {'division': 1, 'incident': serial, 'linked': False}


def order(token, path, body=None):
    return token, f'POST /vehicles/X1/{path}', body, DONE


def mobilise(number, last):
    wanted = {'order': last, 'vehicle': 'X1'}
    return DESK, f'POST /incidents/{number}/mobilise', {'vehicle': 'X1'}, wanted


def report(number, button, status, outcome='normal', last=2):
    body = {'button': button, 'number': number, 'order': last, 'place': 'TQ300800'}
    wanted = {'number': number, 'outcome': outcome, 'status': status}
    return CREW, 'POST /report', body, wanted


def steps(kind):
    """What is asked, by whom, and what is answered by the rules."""
    lend = order(DESK, 'lend', {'to': 2, 'until': 4102444799})
    return [
        order(DESK, 'duty', {'place': 'TQ300800', 'until': 4102444799}),
        (DESK, 'POST /points/1', {'cover': 1, 'place': 'TQ300800'}, DONE),
        order(DESK, 'standby', {'point': 1}), order(DESK, 'standby', {'point': None}),
        call(kind, 1, 'TQ300800'), call(kind, 2, 'TQ310800'),
        mobilise(1, 1), order(DESK, 'standdown'), mobilise(1, 2),
        (DESK, 'POST /incidents/1/needs', {'needs': needs(kind, 2)}, DONE),
        (DESK, 'POST /incidents/2/merge', {'into': 1}, DONE),
        report(1, 'mobile', 2), report(2, 'scene', 3), report(3, 'leave', 4),
        report(4, 'hospital', 5), report(5, 'return', 6), report(6, 'home', 1),
        report(7, 'scene', 1, 'wrong'), (DESK, 'POST /queue/X1/7/clear', None, DONE),
        (DESK, 'POST /incidents/1/close', None, DONE),
        lend, order(DESK, 'withdraw'), lend, order(LENT_TO, 'decline'),
        lend, order(LENT_TO, 'accept'), order(DESK, 'recall'), order(LENT_TO, 'giveback'),
        order(DESK, 'off'),
    ]


class Kinds(TestCase):
    def test_orders(self):
        for kind, name in KINDS.items():
            asked = steps(kind)
            with self.subTest(name), tempfile.TemporaryDirectory() as folder:
                room = made(pathlib.Path(folder) / 'room.db', f'X1,1,{kind},TQ300800,{CREW}')
                with serving(room, 1) as (port, _):
                    got = ask(port, *(message(token, line, json.dumps(body) if body else '')
                                      for token, line, body, _ in asked))
                self.check('as many answers', len(got), len(asked))
                for (_, line, _, wanted), (status, content) in zip(asked, got):
                    done = status, json.loads(content)
                    self.check(f'{name}: {line}', done, (200, wanted))
