"""The terminals of nine divisions at a room that the built program serves, and what their requests
hand to each division, worked out by hand after crates/room_model/specs/Crossing.antt."""
import collections
import json
import os
import pathlib
import socket
import sys

TOP = pathlib.Path(__file__).resolve().parent.parent.parent
sys.path.append(str(TOP / 'tests'))

from preloaded import Preloaded, clock_of
from room import fleet_of, free_port, message, read_answer, run

DIVISIONS = range(1, 10)


class Room:
    """The built program, which serves a room at moments that are set, with more words if need be.
    Before it is served something may be done with its file."""

    def __init__(self, folder, plan, fleet, words=(), before=lambda file: None):
        for name, text in [('plan', plan), ('fleet', fleet_of(*fleet)), ('moment', '')]:
            (folder / name).write_text(text)
        run('init', folder / 'room.db', folder / 'plan')
        run('import', folder / 'room.db', folder / 'fleet')
        before(folder / 'room.db')
        self.moment = (folder / 'moment').open('r+b', buffering=0)
        self.set_clock(0)
        self.port, self.asked = free_port(), 0
        self.process = Preloaded(folder).start(
            clock_of(folder / 'moment'), 'serve', folder / 'room.db', f'127.0.0.1:{self.port}',
            '--idle', 60_000, '--patience', 3600, *words)
        if self.process.stdout.readline() != b'serving\n':
            sys.exit(f'run: not served: {self.process.stderr.read().decode()}')

    def set_clock(self, moment):
        os.pwrite(self.moment.fileno(), b'%-15d' % moment, 0)

    def connect(self):
        with socket.create_connection(('127.0.0.1', self.port)) as it:
            self.connection = it.makefile('rwb')

    def ask(self, at, token, line, body):
        if self.asked % 50_000 == 0:  # a connection ends after 100,000 reads
            self.connect()
        self.asked += 1
        self.set_clock(at)
        self.connection.write(message(token, line, json.dumps(body) if body else ''))
        self.connection.flush()
        return json.loads(read_answer(self.connection)[1])

    def end(self):
        self.process.kill()
        self.process.communicate()
        self.moment.close()


class Terminals:
    """What desks, call takers and crews send to a room, and how much of it is handed over. What a
    desk only looks at is not counted."""

    def __init__(self, room, homes):
        self.room, self.homes, self.now = room, homes, 0
        self.offers, self.loans, self.kept = {}, {}, set()
        self.orders, self.reports = collections.Counter(), collections.Counter()
        self.sent, self.messages, self.bytes = 0, collections.Counter(), collections.Counter()

    def send(self, token, line, body=None):
        """Sends a request; gives its answer, and itself as an event."""
        self.sent += 1
        answer = self.room.ask(self.now, token, line, body)
        return answer, {'at': self.now, 'who': token, 'ask': line, 'with': body}

    def hand(self, division, name, carried):
        """Counts what is handed to a division."""
        handed = json.dumps({'to': division, name: carried}, separators=(',', ':'))
        self.messages[name] += 1
        self.bytes[name] += len(handed)

    # ---- calls and reports

    def is_kept(self, *key):
        """Whether it was sent before, and so is handed to nobody."""
        is_kept = key in self.kept
        self.kept.add(key)
        return is_kept

    def call(self, position, form):
        answer, event = self.send(f'takerof{position:02}', 'POST /call', form)
        if not self.is_kept(position, form['serial']):
            self.hand(answer['division'], 'CallIn', event)
        return answer

    def report(self, callsign, press):
        holder = self.holder(callsign)
        _, event = self.send(f'crewof{callsign}', 'POST /report', press)
        if not self.is_kept(callsign, press['number']):
            self.hand(holder, 'ReportIn', event)
            self.arrive(callsign)

    # ---- desks

    def desk(self, division, path, body=None):
        """A request of a desk's own; gives its answer, or nothing where it was refused."""
        answer, event = self.send(f'deskof{division:02}', f'POST {path}', body)
        self.hand(division, 'Asked', event)
        return None if 'error' in answer else answer

    def mobilise(self, division, incident, callsign):
        """Gives the order's number."""
        path, sent = f'/incidents/{incident}/mobilise', {'vehicle': callsign}
        self.orders[callsign] = self.desk(division, path, sent)['order']
        return self.orders[callsign]

    def lend(self, callsign, borrower, until):
        sent = {'to': borrower, 'until': until}
        if self.desk(self.homes[callsign], f'/vehicles/{callsign}/lend', sent):
            self.offers[callsign] = self.row(borrower, 'offers', callsign)
            self.hand(borrower, 'OfferIn', self.offers[callsign])

    def withdraw(self, callsign):
        if self.desk(self.offers[callsign]['lender'], f'/vehicles/{callsign}/withdraw'):
            self.hand(self.offers.pop(callsign)['borrower'], 'Withdrawn', callsign)

    def decline(self, callsign):
        if self.desk(self.offers[callsign]['borrower'], f'/vehicles/{callsign}/decline'):
            self.hand(self.offers.pop(callsign)['lender'], 'Declined', callsign)

    def accept(self, callsign):
        """Beside its request the borrower is handed the vehicle's row as it was."""
        offer = self.offers[callsign]
        vehicle = self.vehicle(offer['lender'], callsign)
        if self.desk(offer['borrower'], f'/vehicles/{callsign}/accept'):
            del self.offers[callsign]
            self.loans[callsign] = self.row(offer['lender'], 'loans', callsign)
            self.hand(offer['borrower'], 'Accepted', vehicle)
            self.hand(offer['lender'], 'Left', self.loans[callsign])

    def recall(self, callsign):
        loan = self.loans[callsign]
        if self.desk(loan['lender'], f'/vehicles/{callsign}/recall') and not loan['recalled']:
            loan['recalled'] = True
            self.hand(loan['borrower'], 'Recalled', callsign)

    def give_back(self, callsign):
        self.desk(self.loans[callsign]['borrower'], f'/vehicles/{callsign}/giveback')
        self.arrive(callsign)

    def arrive(self, callsign):
        """Hands a vehicle to its lender where its loan is there no longer."""
        loan = self.loans.get(callsign)
        if loan and not self.row(loan['lender'], 'loans', callsign):
            del self.loans[callsign]
            self.hand(loan['lender'], 'Arrive', self.vehicle(loan['lender'], callsign))

    # ---- what a desk looks at

    def look(self, division, what, path=None):
        line = f'GET /{path or what}'
        return self.room.ask(self.now, f'deskof{division:02}', line, None)[what]

    def proposals(self, division, incident):
        return self.look(division, 'proposals', f'incidents/{incident}/propose')

    def row(self, division, table, callsign):
        """A vehicle's row in one of a desk's tables, or nothing."""
        return next((it for it in self.look(division, table) if it['vehicle'] == callsign), None)

    def vehicle(self, division, callsign):
        """A vehicle's row as the definitions have it, where a desk sees another."""
        row = self.row(division, 'vehicles', callsign)
        del row['incident']
        return row | {'holder': division, 'last_order': self.orders[callsign],
                      'last_report': self.reports[callsign]}

    def holder(self, callsign):
        loan = self.loans.get(callsign)
        return loan['borrower'] if loan else self.homes[callsign]

    def test(self):
        """Ends the program where a desk sees other vehicles, offers or loans than were handed."""
        for division in DIVISIONS:
            held = {it['vehicle'] for it in self.look(division, 'vehicles')}
            wanted = {it for it in self.homes if self.holder(it) == division}
            handed = [[it for _, it in sorted(rows.items())
                       if division in (it['lender'], it['borrower'])]
                      for rows in (self.offers, self.loans)]
            if held != wanted or handed != [self.look(division, it) for it in ('offers', 'loans')]:
                sys.exit(f'run: desk {division} sees other rows than were handed to it')
