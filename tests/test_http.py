"""The commands of docs/HTTP.md, run as they stand at a room that is served at their moments: each
answer is the one that the page shows, or is done, and each refusal the one that is said of it."""
# needs: curl python3 gcc libc6-dev
# builds: dispatch_room
import json
import re
import subprocess

from documents import blocks
from preloaded import PATIENT, PreloadedTestCase, clock_of
from room import FLEET, PLAN, TOP, ask, free_port, message, run

PAGE = TOP / 'docs' / 'HTTP.md'
DAY = 1774742400  # its first moment
SINCE, ACCEPTED, LENT_UNTIL = 2000, 2060, 9000  # of the page's loan
DONE = '{"done":true}'


def desk(line, **body):
    """A message of the first desk."""
    return message('deskone1', line, json.dumps(body) if body else '')


def duty(vehicle, place='TQ300801', until=50000):
    return desk(f'POST /vehicles/{vehicle}/duty', place=place, until=until)


def call(serial, place='TQ300800', note=''):
    return message('takerone', 'POST /call', json.dumps(
        {'class': 2, 'needs': [1, 0, 0], 'note': note, 'place': place, 'serial': serial}))


def report(button, number, order=1):
    return message('crewofa1', 'POST /report', json.dumps(
        {'button': button, 'number': number, 'order': order, 'place': 'TQ300800'}))


def mobilise(vehicle):
    return desk('POST /incidents/1/mobilise', vehicle=vehicle)


def lend(to=2, until=LENT_UNTIL):
    return desk('POST /vehicles/A1/lend', to=to, until=until)


ACCEPT = message('desktwo2', 'POST /vehicles/A1/accept')
GIVE_BACK = message('desktwo2', 'POST /vehicles/A1/giveback')
CLOSE = desk('POST /incidents/1/close')
OF_B1 = [message('desktwo2', 'POST /vehicles/B1/duty', '{"place":"TQ600800","until":50000}'),
         message('desktwo2', 'POST /vehicles/B1/lend', '{"to":1,"until":9000}'),
         desk('POST /vehicles/B1/accept')]
POINT = desk('POST /points/1', cover=1, place='TQ300800')
ANEW = 'a room that nothing was asked'
LITTLE = 'a room in which division 1 has one vehicle'

# What comes before a command of the page, by its order there: a new room, what is asked of it, and
# moments from which on it is asked. At first the room is at moment 1000.
BEFORE = [
    ('GET /queue', [ANEW, duty('A1'), call(1)]),
    ('POST /incidents/1/mobilise', []),
    ('POST /call', [ANEW]),
    ('GET /incidents', []),
    ('GET /incidents/1/propose', [duty('A3')]),
    ('POST /incidents/1/mobilise', [duty('A1')]),
    ('POST /incidents/1/needs', []),
    ('POST /incidents/1/merge', [ANEW, call(1), call(2, 'TQ350850')]),
    ('POST /incidents/1/close', [ANEW, call(1)]),
    ('GET /times/2026-03-29', [ANEW, DAY, duty('A1', until=DAY + 3600), call(1), DAY + 120,
                               mobilise('A1')]),
    ('GET /vehicles', [LITTLE, duty('A1', 'TQ300805')]),
    ('POST /vehicles/A1/duty', [ANEW]),
    ('POST /vehicles/A1/off', []),
    ('POST /vehicles/A1/standdown', [duty('A1'), call(1), mobilise('A1')]),
    ('POST /vehicles/A1/standby', [POINT]),
    ('POST /vehicles/A1/lend', []),
    ('POST /vehicles/A1/withdraw', []),
    ('POST /vehicles/A1/decline', [lend()]),
    ('POST /vehicles/A1/accept', [lend()]),
    ('POST /vehicles/A1/recall', []),
    ('POST /vehicles/A1/giveback', []),
    ('GET /loans', [SINCE, lend(), ACCEPTED, ACCEPT]),
    ('GET /offers', [GIVE_BACK, SINCE, lend()]),
    ('GET /points', [ANEW, POINT, duty('A1'), desk('POST /vehicles/A1/standby', point=1)]),
    ('POST /points/1', []),
    ('GET /queue', [ANEW, call(1), 1181]),
    ('POST /queue/A1/2/clear', [report('scene', 2)]),
    ('GET /order', [ANEW, duty('A1'), call(1), mobilise('A1')]),
    ('POST /report', []),
    ('GET /incidents/1', [ANEW, call(1)]),
    ('GET /job', [ANEW, duty('A1'), call(1, note='flat 12b'), mobilise('A1')]),
    ('GET /last', [report('mobile', 1)]),
    ('GET /last', []),
    ('GET /vehicles/A1/reports', [report('leave', 2)]),
    ('POST /moves', [ANEW, duty('A1'), call(1), call(2, 'TQ350850'), mobilise('A1')]),
    ('GET /times/1970-01-01/classes', []),
    ('GET /closed/1970-01-01/near/TQ301800/100/from/1',
     [desk('POST /incidents/1/merge', into=2)]),
    ('POST /vehicles/B1/off', [ANEW]),
]

SENT = [duty('A1'), call(1), mobilise('A1')]
# What comes before the refusals: those with the same are asked of one room.
OF_REFUSALS = [
    ([duty('A1')], [1, 3, 5, 11, 13, 14, 15, 16, 22, 30, 31, 32, 33, 34, 36, 37, 38, 39, 40]),
    ([*SENT, report('mobile', 1), duty('A2')], [7, 8, 9, 10, 17, 18]),
    ([call(1), CLOSE], [2]),
    ([duty('A1'), lend(), ACCEPT], [4]),
    ([], [6]),
    (OF_B1, [12]),
]


def method_of(command):
    """The method and the path of a command."""
    path = re.search(r'http://localhost:8080(/\S*)', command)[1]
    return f'{"POST" if re.search(" -(d|X POST) ?", command) else "GET"} {path}'


def examples():
    """The commands of the page's paths, each with what it shows of the answer; and those that are
    refused, below the line that names their terminals."""
    plain, refused = [], []
    for block in blocks(PAGE.read_text()):
        if '# 1: ' in block.text:
            refused = block.text.splitlines()
            continue
        lines = re.sub(r'^(?!curl|  )', '> ', block.text.rstrip('\n'), flags=re.M)
        for text in re.split(r'^(?=curl)', lines, flags=re.M)[1:]:
            command, _, shown = text.partition('\n> ')
            plain.append((command.rstrip('\n'), shown.replace('\n> ', '\n').rstrip('\n')))
    return plain, refused


class Page(PreloadedTestCase):
    def setUp(self):
        super().setUp()
        self.moment = self.folder / 'moment'
        self.port = self.process = None
        self.addCleanup(self.end)

    def end(self):
        if self.process is not None:
            self.process.kill()
            self.process.communicate()

    def anew(self, name):
        """A new room, which is served at moment 1000."""
        self.end()
        room = self.fresh()
        fleet = FLEET
        if name == LITTLE:
            fleet = room.with_name('fleet.csv')
            fleet.write_text(''.join(FLEET.read_text().splitlines(True)[:2]))
        self.assertEqual([run('init', room, PLAN)[0], run('import', room, fleet)[0]], [0, 0])
        self.moment.write_text('1000')
        self.port = free_port()
        self.process = self.program.start(clock_of(self.moment), 'serve', room,
                                          f'127.0.0.1:{self.port}', '--history',
                                          '--patience', 60, *PATIENT)
        self.assertEqual(self.process.stdout.readline(), b'serving\n')

    def prepare(self, steps):
        for it in steps:
            if it in (ANEW, LITTLE):
                self.anew(it)
            elif isinstance(it, int):
                self.moment.write_text(str(it))
            else:
                self.check(it.decode().partition(' HTTP')[0], ask(self.port, it)[0][0], 200)

    def printed(self, command):
        """What a command prints."""
        text = command.replace('localhost:8080', f'127.0.0.1:{self.port}')
        done = subprocess.run(['bash', '-c', text], stdin=subprocess.DEVNULL, capture_output=True,
                              timeout=180)
        self.check(f'{command}: its status', done.returncode, 0)
        return done.stdout.decode().replace('\r\n', '\n')

    def test_paths(self):
        plain, _ = examples()
        self.check('the commands', [method_of(it) for it, _ in plain], [it for it, _ in BEFORE])
        for (command, shown), (_, steps) in zip(plain, BEFORE):
            self.prepare(steps)
            printed = self.printed(command)
            if shown or 'GET' not in method_of(command):
                self.check(command, printed, shown or DONE_BY.get(method_of(command), DONE))
            else:
                self.check(f'{command}: no refusal', '"error"' in printed, False)

    def test_refusals(self):
        _, (names, *lines) = examples()
        wanted = {int(re.search(r'# (\d+)', it)[1]): it for it in lines}
        self.check('all numbers', sorted(wanted), sorted(it for _, own in OF_REFUSALS
                                                         for it in own))
        for steps, own in OF_REFUSALS:
            self.prepare([ANEW, *steps])
            for number in own:
                printed = self.printed(f'{names}\n{wanted[number]}')
                self.check(wanted[number], json.loads(printed)['number'], number)


# What is shown elsewhere on the page of the same command.
DONE_BY = {'POST /incidents/1/mobilise': '{"order":1,"vehicle":"A1"}'}
