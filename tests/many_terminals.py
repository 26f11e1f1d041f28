"""Forty terminals for the tests of three machines, or up to 64: call takers, crews and desks that
ask without end, at one machine and then at the next, and keep what they were answered."""
import collections
import contextlib
import dataclasses
import email.utils
import http.client
import itertools
import json
import random
import socket
import threading
import time

from room import fleet_of, message

POSITIONS, CREWS, DESKS = range(1, 45), range(1, 17), range(1, 5)
MANY = 40
PATIENCE = 2.0  # seconds that a terminal waits for one machine, and twice as long for the next
MOST_PATIENCE = 16.0
ASKS_FOR = 180.0  # seconds

PLAN = '\n'.join(['what,number,a,b,c,d', 'zone,0,"GMT0BST,M3.5.0/1,M10.5.0",,,',
                  'area,1,500000,100000,549999,199999', 'area,2,550000,100000,599999,199999',
                  *(f'desk,{1 + it % 2},deskof{it:02},,,' for it in DESKS),
                  *(f'position,{it},takerat{it:02},,,' for it in POSITIONS)]) + '\n'
FLEET = fleet_of(*(f'V{it},{1 + it % 2},{1 + it % 3},TQ{300 + 300 * (it % 2) + it}804,crewof{it:02}'
                   for it in CREWS))


@dataclasses.dataclass(frozen=True)
class Answered:
    """What a terminal was answered, the record that the answer names, when it was asked and
    answered, and how long the terminal waited with all that it tried before."""
    sent: bytes
    number: int
    status: int
    body: str
    moment: int
    asked: float
    ended: float
    waited: float

    @property
    def is_question(self):
        return self.sent.startswith(b'GET ')


def dated_exchange(address, sent, patience):
    """One request over a connection of its own; gives the record's number, none where it names
    none, the status, the body and the moment; or nothing."""
    with contextlib.suppress(OSError, ValueError, http.client.HTTPException):
        with socket.create_connection(address, timeout=patience) as it:
            it.sendall(sent)
            answer = http.client.HTTPResponse(it)
            answer.begin()
            number, date = answer.headers['X-Record'], answer.headers['Date']
            moment = date and int(email.utils.parsedate_to_datetime(date).timestamp())
            return number and int(number), answer.status, answer.read().decode(), moment
    return None


def exchange(address, sent, patience):
    found = dated_exchange(address, sent, patience)
    return found and found[:3]


class Terminal(threading.Thread):
    """A terminal that asks until it is asked to stop: at one machine, and where that gives no
    answer, the same again at the next."""

    def __init__(self, addresses, chance, stopped, pause):
        super().__init__(daemon=True)
        self.addresses, self.chance, self.stopped = addresses, chance, stopped
        self.pause = pause
        self.at = chance.randrange(len(addresses))
        self.answered, self.unanswered = [], 0
        self.given_up = []  # what was sent without an answer, and whether that is kept
        self.sent = collections.defaultdict(list)  # the moments at which a message was sent

    def run(self):
        for sent in self.messages():
            if self.stopped.wait(self.pause):
                return
            self.ask(sent)

    def ask(self, sent):
        began, patience = time.monotonic(), PATIENCE
        while time.monotonic() < began + ASKS_FOR:
            self.sent[sent].append(time.time())
            asked = time.monotonic()
            found = self.exchange(self.addresses[self.at], sent, patience)
            ended, patience = time.monotonic(), min(2 * patience, MOST_PATIENCE)
            if found and found[1] != 503:
                self.answered.append(Answered(sent, *found, asked, ended, ended - began))
                return
            self.given_up.append((sent, json.loads(found[2])['kept'] if found else 'perhaps'))
            self.at = (self.at + 1) % len(self.addresses)
            time.sleep(0.05)
        self.unanswered += 1

    def exchange(self, address, sent, patience):
        return dated_exchange(address, sent, patience)

    def last(self):
        return json.loads(self.answered[-1].body) if self.answered else {}

    def place(self):
        return f'TQ{self.chance.choice([300, 320, 600])}{self.chance.choice([780, 800, 820])}'


class Taker(Terminal):
    """A call taker's position: calls, by serials."""

    def __init__(self, number, *others):
        super().__init__(*others)
        self.token = f'takerat{number:02}'

    def messages(self):
        for serial in itertools.count(1):
            body = {'class': self.chance.randint(1, 3), 'needs': [1, 1, 0], 'note': '',
                    'place': self.place(), 'serial': serial}
            yield message(self.token, 'POST /call', json.dumps(body))


class Crew(Terminal):
    """A crew: what it was ordered, and reports of it, by numbers."""

    BUTTONS = 'position', 'mobile', 'scene', 'leave', 'hospital', 'return', 'home'

    def __init__(self, number, *others):
        super().__init__(*others)
        self.token = f'crewof{number:02}'

    def messages(self):
        for number in itertools.count(1):
            yield message(self.token, 'GET /order')
            order = (self.last().get('order') or {}).get('order', 0)
            body = {'button': self.chance.choice(self.BUTTONS), 'number': number, 'order': order,
                    'place': self.place()}
            yield message(self.token, 'POST /report', json.dumps(body))


class Desk(Terminal):
    """A desk: duties, orders, loans and closings as they come, many of which are refused."""

    DEEDS = 'off', 'standdown', 'accept', 'decline', 'recall', 'giveback', 'withdraw'

    def __init__(self, number, *others):
        super().__init__(*others)
        self.token = f'deskof{number:02}'

    def messages(self):
        while True:
            yield message(self.token, 'GET /incidents')
            found = [it['number'] for it in self.last().get('incidents', [])] or [1]
            incident, vehicle = self.chance.choice(found), f'V{self.chance.choice(CREWS)}'
            until = {'until': int(time.time()) + self.chance.choice([60, 7200])}
            yield self.post(f'/vehicles/{vehicle}/duty', {'place': 'TQ300800'} | until)
            yield self.post(f'/incidents/{incident}/mobilise', {'vehicle': vehicle})
            yield self.post(f'/vehicles/{vehicle}/{self.chance.choice(self.DEEDS)}')
            yield self.post(f'/vehicles/{vehicle}/lend', {'to': self.chance.randint(1, 2)} | until)
            yield message(self.token, 'GET /queue')
            yield self.post(f'/incidents/{self.chance.choice(found)}/close')

    def post(self, path, content=None):
        body = '' if content is None else json.dumps(content)
        return message(self.token, f'POST {path}', body)


def terminals(addresses, stopped, pause, chance, count=MANY):
    """So many terminals: of forty, twenty are call takers, sixteen crews and four desks."""
    kinds = [*((Taker, it) for it in POSITIONS[:20]), *((Crew, it) for it in CREWS),
             *((Desk, it) for it in DESKS)]
    random.Random(1992).shuffle(kinds)
    kinds += [(Taker, it) for it in POSITIONS[20:]]
    return [kind(number, addresses, random.Random(chance.random()), stopped, pause)
            for kind, number in kinds[:count]]


def asked_while(meanwhile, addresses, pause, chance):
    """Lets terminals ask while something is done; gives them."""
    stopped = threading.Event()
    asking = terminals(addresses, stopped, pause, chance)
    for it in asking:
        it.start()
    try:
        meanwhile()
    finally:
        stopped.set()
        for it in asking:
            it.join()
    return asking
