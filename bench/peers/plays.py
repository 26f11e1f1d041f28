"""What is played to each server: requests that are generated from a seed, each with the name under
which it is given.

The numbers that the room will give are foreseen: an incident's is its division's last and one, an
order's its vehicle's."""
import collections
import itertools
import json
import random

import rooms

Ask = collections.namedtuple('Ask', 'name token method path body', defaults=[None])
DESKS = {1: 'deskone1', 2: 'desktwo2'}
BUTTONS = ['mobile', 'position', 'scene', 'leave', 'hospital', 'return', 'home']


def message(ask):
    content = '' if ask.body is None else json.dumps(ask.body)
    return (f'{ask.method} {ask.path} HTTP/1.1\r\nHost: room\r\nX-Terminal: {ask.token}\r\n'
            f'Content-Length: {len(content)}\r\n\r\n{content}').encode()


def reference(place):
    """A place of square TQ as its grid reference."""
    east, north = place
    return f'TQ{east - 500000:05}{north - 100000:05}'


def call(serial, place, name='call', class_=2, needs=(1, 0, 0)):
    body = {'class': class_, 'needs': needs, 'note': 'a fall', 'place': reference(place),
            'serial': serial}
    return Ask(name, 'takerone', 'POST', '/call', body)


def report(callsign, number, button, order, place):
    body = {'button': button, 'number': number, 'order': order, 'place': reference(place)}
    return Ask('report', rooms.crew_token(callsign), 'POST', '/report', body)


def at_desk(division, name, method, path, body=None):
    return Ask(name, DESKS[division], method, path, body)


def order(division, incident, callsign, name='mobilise'):
    path = f'/incidents/{incident}/mobilise'
    return at_desk(division, name, 'POST', path, {'vehicle': callsign})


# ---- a day


class Day:
    """Incidents that live side by side, each with a vehicle of its own from its call to its
    closing."""

    def __init__(self, seed):
        self.random = random.Random(seed)
        self.serials = itertools.count(1)
        self.incidents = {division: itertools.count(1) for division in DESKS}
        self.free = {division: rooms.callsigns(division) for division in DESKS}
        self.orders, self.reports = collections.Counter(), collections.Counter()

    def asks(self, lives, side_by_side=10):
        """What so many incidents make their call takers, desks and crews ask, in an order by
        chance."""
        waiting = (self.life(nth % 2 + 1, nth) for nth in range(lives))
        alive = list(itertools.islice(waiting, side_by_side))
        while alive:
            life = self.random.choice(alive)
            ask = next(life, None)
            if ask is None:
                alive.remove(life)
                alive += itertools.islice(waiting, 1)
            else:
                yield ask

    def life(self, division, nth):
        incident = next(self.incidents[division])
        east, north = place = rooms.spot(division, incident)
        first = call(next(self.serials), place, class_=nth % 3 + 1)
        yield first
        if nth % 4 == 0:
            yield call(next(self.serials), (east + 100, north + 100), 'linked call')
        if nth % 10 == 0:
            yield first._replace(name='call again')
        yield at_desk(division, 'queue', 'GET', '/queue')
        yield at_desk(division, 'propose', 'GET', f'/incidents/{incident}/propose')
        yield from self.serve(division, incident, nth, place)
        yield at_desk(division, 'close', 'POST', f'/incidents/{incident}/close')

    def serve(self, division, incident, nth, place):
        callsign = self.free[division].pop(0)
        self.orders[callsign] += 1
        yield order(division, incident, callsign)
        for button in BUTTONS:
            self.reports[callsign] += 1
            at = place if button in ('scene', 'leave') else rooms.home(division, callsign)
            sent = report(callsign, self.reports[callsign], button, self.orders[callsign], at)
            yield sent
            if button == 'scene' and nth % 10 == 5:
                yield sent._replace(name='report again')
            if button == 'leave':
                yield at_desk(division, 'vehicles', 'GET', '/vehicles')
        self.free[division].append(callsign)


def backlog(calls):
    """Calls that each make an incident, in both divisions in turn, of which none is closed."""
    return [call(nth + 1, rooms.spot(nth % 2 + 1, nth // 2)) for nth in range(calls)]


def nowhere(count):
    return [at_desk(1, 'no path', 'GET', '/nowhere')] * count


def with_waiting(waiting, count):
    """So many of each of six requests to division 1, in which incidents wait."""
    for nth in range(count):
        east, north = rooms.spot(1, nth * 97)
        yield call(waiting + nth + 1, (east + 500, north + 500))
        yield at_desk(1, 'vehicles', 'GET', '/vehicles')
        yield at_desk(1, 'propose', 'GET', f'/incidents/{nth * 7 % waiting + 1}/propose')
        yield at_desk(1, 'queue', 'GET', '/queue')
        yield at_desk(1, 'incidents', 'GET', '/incidents')
        yield report('A20', nth + 1, 'position', 0, rooms.home(1, 'A20'))


# ---- what is refused, and what is odd


def refused():
    """Requests to a room without incidents that are refused, come twice or out of turn."""
    first, home = call(1, (520000, 150000)), rooms.home(1, 'A1')
    yield from [first, first, call(1, (520000, 150000), class_=1)]
    for changed in [{'place': 'TL300800', 'serial': 2}, {'place': 'TQ 30080', 'serial': 2},
                    {'needs': [0, 0, 0]}, {'serial': 0}, {'note': 'x' * 121}, {'more': 1}]:
        yield first._replace(body=first.body | changed)
    for changed in [{'token': 'deskone1'}, {'token': 'nobodyatall'}, {'method': 'GET'}]:
        yield first._replace(**changed)
    yield call(2, (520142, 150142))  # 200 metres away, and the next 201
    yield call(3, (520143, 150142))
    for number, callsign in [(9, 'A1'), (1, 'B1'), (1, 'Z9'), (1, 'a1'), (1, 'A1'), (1, 'A1'),
                             (1, 'A2')]:
        yield order(1, number, callsign)
    for number, button, of in [(5, 'scene', 1), (5, 'scene', 1), (5, 'leave', 1), (3, 'leave', 1),
                               (6, 'leave', 7), (7, 'mobile', 1)]:
        yield report('A1', number, button, of, home)
    close = at_desk(1, 'desk', 'POST', '/incidents/1/close')
    yield from [close, report('A1', 8, 'home', 0, home), report('A1', 9, 'return', 1, home)]
    yield from [close._replace(path='/incidents/01/close'), close, close]
    for method, path in [('GET', '/incidents/9/propose'), ('GET', '/incidents/1/propose'),
                         ('GET', '/vehicles'), ('GET', '/incidents'), ('GET', '/queue'),
                         ('POST', '/queue')]:
        yield at_desk(1, 'desk', method, path)


def still():
    """Questions to a room of which all moments stand in its file."""
    proposals = [f'/incidents/{number}/propose' for number in range(1, 51)]
    return [at_desk(division, 'still', 'GET', path)
            for division in DESKS for path in ['/queue', '/vehicles', '/incidents', *proposals]]


def by_chance(seed, count):
    """Requests by chance over a few places, vehicles, numbers and orders, most of which have a
    meaning."""
    chance, serials, numbers = random.Random(seed), itertools.count(1), collections.Counter()
    vehicles = ['A1', 'A2', 'A3', 'B1', 'B2']

    def call_by_chance():
        serial = chance.randrange(1, 40) if chance.random() < 0.1 else next(serials)
        needs = chance.choice([[1, 0, 0], [2, 0, 0], [1, 1, 0], [0, 0, 3]])
        place = chance.randrange(549000, 551000, 120), 150000
        return call(serial, place, class_=chance.randrange(1, 4), needs=needs)

    def desk_by_chance():
        number, division = chance.randrange(1, 12), chance.choice([1, 2])
        if chance.random() < 0.33:
            return order(division, number, chance.choice(vehicles), 'desk')
        return at_desk(division, 'desk', *chance.choice([
            ('POST', f'/incidents/{number}/close'), ('GET', f'/incidents/{number}/propose'),
            ('GET', '/vehicles'), ('GET', '/incidents'), ('GET', '/queue')]))

    def report_by_chance():
        place = chance.randrange(500000, 590000), chance.randrange(100000, 190000)
        callsign = chance.choice(vehicles)
        numbers[callsign] = max(1, numbers[callsign] + chance.choice([-1, 0, 1, 1, 1, 1, 2]))
        return report(callsign, numbers[callsign], chance.choice(BUTTONS),
                      chance.choice([0, 1, 1, 2, 2, 3]), place)

    makers = [call_by_chance, desk_by_chance, desk_by_chance, report_by_chance, report_by_chance]
    return [chance.choice(makers)() for _ in range(count)]
