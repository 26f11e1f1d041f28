"""The month of examples/month over a room with a generated October: its table shows what each day
was, in the zone of the room's plan, and its picture shows it."""
# needs: gnuplot-nox
# builds: dispatch_room
import collections
import contextlib
import fractions
import math
import random
import sqlite3
import subprocess
import xml.etree.ElementTree

from room import TOP, TestCase, made

MONTH = TOP / 'examples' / 'month' / 'month.sh'
# 1 October 2026 at midnight by London's summer clock, and the moment when it went back.
BEGIN, CLOCK_BACK, DAY = 1_790_809_200, 1_792_890_000, 86_400
INCIDENT = 'insert into incidents values (1, ?, 530000, 180000, 2, 1, 0, 0, ?, ?, 1, null)'
CALL = "insert into calls values (1, ?, 1, ?, ?, 0, 530000, 180000, 2, 1, 0, 0, x'', ?)"
TURN = "insert into turns values ('A1', ?, 1, ?, 1, ?, null, null, null, null, ?, 0)"


def october():
    """Some 1,300 incidents, by the moment of their first call: each with the seconds until its
    first order, or none. The 26th and the 27th went wrong."""
    chance = random.Random(1992)
    found = {BEGIN - 1: 50, BEGIN: 60, CLOCK_BACK: 181, CLOCK_BACK - 1: 180}
    for _ in range(1300):
        opened = chance.randrange(BEGIN, BEGIN + 31 * DAY)
        is_bad = 25 * DAY <= opened - BEGIN < 27 * DAY
        waited = int(chance.lognormvariate(5.9 if is_bad else 4.2, 0.9 if is_bad else 0.5))
        found[opened] = None if chance.random() < (0.06 if is_bad else 0.01) else waited
    return sorted(found.items())


def day_of(opened):
    """The day of a moment by London's clock."""
    ahead = 3600 if opened < CLOCK_BACK else 0
    return (opened + ahead - BEGIN - 3600) // DAY + 1


def room_of(file, incidents):
    """A room whose division 1 had these incidents: vehicle A1 was sent to them."""
    made(file, 'A1,1,1,TQ303804,crewofa1')
    with contextlib.closing(sqlite3.connect(file, isolation_level=None)) as room:
        room.execute('begin')
        orders = 0
        for number, (opened, waited) in enumerate(incidents, 1):
            ordered = opened + waited if waited is not None else None
            room.execute(INCIDENT, (number, opened, ordered))
            room.execute(CALL, (number, number, number, opened))
            if ordered is not None:
                orders += 1
                room.execute(TURN, (orders, number, ordered, ordered + 1800))
        room.execute('update divisions set last_incident = ? where number = 1', (len(incidents),))
        room.execute("update vehicles set last_order = ? where callsign = 'A1'", (orders,))
        room.execute('commit')
    return file


def table_of(incidents):
    """What is reported of an October, as text: of the shares of a hundred the nearest rank."""
    days = collections.defaultdict(list)
    for opened, waited in incidents:
        days[day_of(opened)].append(waited)
    lines = ['day,incidents,sent,within,p5,p25,p50,p75,p95']
    for day in range(1, 32):
        sent = sorted(it for it in days[day] if it is not None)
        counts = [len(days[day]), len(sent), sum(it <= 180 for it in sent)]
        ranks = [math.ceil(fractions.Fraction(it, 100) * len(sent)) for it in [5, 25, 50, 75, 95]]
        cells = [*counts, *(sent[it - 1] if sent else '' for it in ranks)]
        lines.append(f'2026-10-{day:02},{",".join(map(str, cells))}')
    return '\n'.join(lines) + '\n'


def month(*words):
    done = subprocess.run([MONTH, *map(str, words)], stdin=subprocess.DEVNULL, capture_output=True,
                          timeout=600)
    return done.returncode, done.stdout.decode(), done.stderr.decode()


class Month(TestCase):
    def setUp(self):
        super().setUp()
        self.incidents = october()
        self.room = room_of(self.folder / 'october.db', self.incidents)

    def test_table_and_picture(self):
        picture = self.folder / 'october.svg'
        status, text, errors = month(self.room, 1, '2026-10', picture)
        self.check('it ends well', (status, errors), (0, ''))
        self.check('the table', text.splitlines(), table_of(self.incidents).splitlines())
        words = ''.join(xml.etree.ElementTree.parse(picture).getroot().itertext())
        for wanted in ['Activation in division 1, 2026-10', '180 s', '% within 180 s', '31']:
            self.check(f'the picture says {wanted}', wanted in words, True)

    def test_days_without_incidents(self):
        empty = table_of([])
        status, text, _ = month(self.room, 2, '2026-10')
        self.check('division 2', (status, text), (0, empty))
        picture = self.folder / 'empty.svg'
        status, text, errors = month(self.room, 2, '2026-10', picture)
        self.check('it has no picture', (status != 0, text, picture.exists()), (True, empty, False))
        self.check('and says why', 'no vehicle was sent in this month' in errors, True)
        status, text, _ = month(self.room, 1, '2026-02')
        self.check('February has 28 days', (status, text.count('\n')), (0, 29))

    def test_refused(self):
        """What the program refuses is reported in its words, and a table is not."""
        gone = self.folder / 'gone.db'
        for words, wanted in [((gone, 1, '2026-10'), (1, '', 'refused: file\n')),
                              ((self.room, 9, '2026-10'), (1, '', 'refused: division\n'))]:
            self.check(f'{words}', month(*words), wanted)
        usage = 'usage: examples/month/month.sh ROOM DIVISION MONTH [PICTURE.svg]\n'
        self.check('no month', month(self.room, 1), (2, '', usage))
        status, text, _ = month(self.room, 1, '2026-13')
        self.check('a month that there is not', (status != 0, text), (True, ''))
