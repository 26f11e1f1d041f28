"""A generated day of nine divisions: calls come by the hour, desks send the vehicle that is
proposed, crews press their buttons, and a desk to which none is proposed borrows one."""
import heapq
import itertools
import math
import random

from terminals import DIVISIONS

SIDE = 15000  # of a division, in metres
DAY = 86400
# How many calls come in an hour of the day, beside each other.
HOURS = [6, 5, 4, 4, 3, 3, 4, 6, 8, 10, 11, 11, 11, 11, 11, 11, 11, 11, 12, 12, 11, 10, 9, 8]
# How many of the calls are a division's, beside each other; the fifth lies in the middle.
WEIGHTS = [2, 3, 2, 3, 6, 3, 2, 3, 2]
SPEED = 8  # metres a second
POSITIONS = 40


def corner(division):
    """The south-western one of its area; three rows of three are a square of TQ."""
    return 500000 + (division - 1) % 3 * SIDE, 150000 + (division - 1) // 3 * SIDE


def reference(place):
    return f'TQ{place[0] - 500000:05}{place[1] - 100000:05}'


def seconds(place, other):
    """How long a vehicle takes for a way."""
    return int(math.dist(place, other)) // SPEED


def plan():
    """The text of the plan."""
    lines = ['what,number,a,b,c,d', 'zone,0,"GMT0BST,M3.5.0/1,M10.5.0",,,']
    for division in DIVISIONS:
        west, south = corner(division)
        lines += [f'area,{division},{west},{south},{west + SIDE - 1},{south + SIDE - 1}',
                  f'desk,{division},deskof{division:02},,,']
    lines += [f'position,{it},takerof{it:02},,,' for it in range(1, POSITIONS + 1)]
    return '\n'.join(lines) + '\n'


def stations(vehicles):
    """So many vehicles, shared out as the calls are: of each the division and the place."""
    found = {}
    for division, weight in zip(DIVISIONS, WEIGHTS):
        west, south = corner(division)
        for nth in range(round(vehicles * weight / sum(WEIGHTS))):
            place = west + 1500 + nth % 5 * 3000, south + 1500 + nth // 5 * 2000
            found[f'{"ABCDEFGHI"[division - 1]}{nth + 1:02}'] = division, place
    return found


class Day:
    """What happens, each a generator that gives the seconds until it goes on."""

    def __init__(self, seed, terminals, stations):
        self.random, self.terminals, self.stations = random.Random(seed), terminals, stations
        self.order, self.coming, self.serials = itertools.count(), [], itertools.count(1)
        self.trips = {}  # how many are left, by division and incident

    def play(self, calls):
        for callsign, (division, place) in self.stations.items():
            self.terminals.desk(division, f'/vehicles/{callsign}/duty',
                                {'place': reference(place), 'until': 2 * DAY})
        self.draw_calls(calls)
        while self.coming:
            self.terminals.now, _, life = heapq.heappop(self.coming)
            pause = next(life, None)
            if pause is not None:
                self.start(life, pause)

    def start(self, life, after):
        heapq.heappush(self.coming, (self.terminals.now + after, next(self.order), life))

    def happens(self, chance):
        return self.random.random() < chance

    # ---- calls

    def draw_calls(self, calls):
        """Divisions have better and worse days. One incident in seven is reported by a second
        caller."""
        shares = [weight * self.random.uniform(0.75, 1.35) for weight in WEIGHTS]
        for _ in range(calls * 7 // 8):
            hour = self.random.choices(range(24), HOURS)[0]
            west, south = corner(self.random.choices(DIVISIONS, shares)[0])
            place = (west + self.random.randrange(100, SIDE - 100),
                     south + self.random.randrange(100, SIDE - 100))
            at = hour * 3600 + self.random.randrange(3600)
            self.start(self.caller(place), at)
            if self.happens(1 / 7):
                near = place[0] + self.random.randrange(100), place[1]
                self.start(self.caller(near), at + self.random.randrange(600))

    def caller(self, place):
        """One call in fifty is sent again, since its answer was lost."""
        need, serial = 2 if self.happens(0.05) else 1, next(self.serials)
        form = {'class': self.random.choices([1, 2, 3], [3, 5, 2])[0], 'needs': [need, 0, 0],
                'note': 'a fall', 'place': reference(place), 'serial': serial}
        for _ in range(2 if self.happens(1 / 50) else 1):
            answer = self.terminals.call(serial % POSITIONS + 1, form)
        if not answer['linked']:
            yield self.random.randrange(30, 120)
            incident = answer['division'], answer['incident']
            self.trips[incident] = need
            for _ in range(need):
                self.start(self.trip(*incident, place), 0)

    # ---- incidents

    def trip(self, division, number, place):
        """A vehicle's way from its order until it can be sent again; then it goes home. The last
        one closes the incident."""
        callsign = yield from self.vehicle_for(division, number, place)
        order = self.terminals.mobilise(division, number, callsign)
        home = self.stations[callsign][1]
        yield self.random.randrange(20, 90)
        self.report(callsign, 'mobile', home)
        yield seconds(home, place)
        if self.happens(0.06):
            self.terminals.desk(division, f'/vehicles/{callsign}/standdown')
        else:
            yield from self.treat(callsign, place)
        self.start(self.way_home(callsign, order, home), seconds(place, home))
        self.trips[division, number] -= 1
        if not self.trips[division, number]:
            self.terminals.desk(division, f'/incidents/{number}/close')

    def treat(self, callsign, place):
        self.report(callsign, 'position', place)
        yield 60 + self.random.randrange(300)
        self.report(callsign, 'scene', place)
        yield self.random.randrange(600, 1800)
        if self.happens(0.75):
            self.report(callsign, 'leave', place)
            yield self.random.randrange(300, 1200)
            self.report(callsign, 'hospital', place)
            yield self.random.randrange(900, 2400)
        self.report(callsign, 'return', place)

    def way_home(self, callsign, order, home):
        """Its end, which it doesn't reach if the vehicle was sent again."""
        if self.terminals.orders[callsign] == order:
            self.report(callsign, 'home', home)
        yield 0

    def report(self, callsign, button, place):
        """One report in thirty is sent again, since its answer was lost."""
        self.terminals.reports[callsign] += 1
        press = {'button': button, 'number': self.terminals.reports[callsign],
                 'order': self.terminals.orders[callsign], 'place': reference(place)}
        for _ in range(2 if self.happens(1 / 30) else 1):
            self.terminals.report(callsign, press)

    # ---- vehicles

    def vehicle_for(self, division, number, place):
        """Waits for a free vehicle, its own or a borrowed one."""
        while not (found := self.terminals.proposals(division, number)):
            for callsign, loan in self.terminals.loans.items():
                if loan['lender'] == division and not loan['recalled']:
                    self.terminals.recall(callsign)
            yield from self.borrow(division, number, place)
            yield 120
        return found[0]['vehicle']

    def is_free(self, vehicle):
        return vehicle['status'] in (1, 6)

    def spare(self, division):
        """The free vehicles of a division that are at home."""
        return [it for it in self.terminals.look(division, 'vehicles')
                if it['home'] == division and self.is_free(it)]

    def borrow(self, division, number, place):
        """Asks the division that has most to spare for its nearest vehicle, if it has four."""
        spare = max((self.spare(it) for it in DIVISIONS if it != division), key=len)
        if len(spare) < 4:
            return
        nearest = min(spare, key=lambda it: (math.dist(it['place'], place), it['vehicle']))
        callsign = nearest['vehicle']
        self.terminals.lend(callsign, division, self.terminals.now + 7200)
        yield self.random.randrange(15, 60)
        if self.happens(0.05):
            self.terminals.withdraw(callsign)
        elif self.terminals.proposals(division, number):
            self.terminals.decline(callsign)
        else:
            self.terminals.accept(callsign)
            self.start(self.watch_loan(callsign), 300)

    def watch_loan(self, callsign):
        """The borrower gives a vehicle back that is wanted or overdue, unless Home has."""
        while loan := self.terminals.loans.get(callsign):
            is_due = loan['recalled'] or loan['until'] < self.terminals.now
            if is_due and self.is_free(self.terminals.row(loan['borrower'], 'vehicles', callsign)):
                self.terminals.give_back(callsign)
            yield 300
