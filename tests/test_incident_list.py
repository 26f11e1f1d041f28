"""A desk's list of incidents is what the tables say, after each change of a call, a turn or an
incident. It is asked for after each of them, so that what is known of the list before has to follow
the change."""
# needs: python3 sqlite3
# builds: dispatch_room
import json
import random
import shutil
import time

from room import FLEET, PLAN, TestCase, ask, message, run, serving, sql

DESKS = {1: 'deskone1', 2: 'desktwo2'}
UNTIL = int(time.time()) + 8 * 3600
SERVED = """(SELECT count(*) FROM turns WHERE incident = i.number AND division = i.division
    AND kind = {kind} AND (ended IS NULL OR scene IS NOT NULL OR left_at IS NOT NULL
    OR hospital IS NOT NULL))"""
LACK = ', '.join(f'max(0, need{kind} - {SERVED.format(kind=kind)})' for kind in (1, 2, 3))
LIST = f"""SELECT json_object('calls', (SELECT count(*) FROM calls
        WHERE incident = i.number AND division = i.division),
    'class', class, 'lack', json_array({LACK}), 'needs', json_array(need1, need2, need3),
    'number', number, 'opened', opened, 'place', json_array(east, north))
    FROM incidents i WHERE state = 0 AND division = {{division}} ORDER BY number;"""


def call(serial, place, needs=(1, 0, 0)):
    body = {'class': 2, 'needs': needs, 'note': '', 'place': place, 'serial': serial}
    return message('takerone', 'POST /call', json.dumps(body))


def desk(division, path, **body):
    return message(DESKS[division], f'POST {path}', json.dumps(body) if body else '')


def duty(division, callsign):
    return desk(division, f'/vehicles/{callsign}/duty', place='TQ300800', until=UNTIL)


def mobilise(division, incident, callsign):
    return desk(division, f'/incidents/{incident}/mobilise', vehicle=callsign)


def report(callsign, number, button, order):
    body = {'button': button, 'number': number, 'order': order, 'place': 'TQ300800'}
    return message(f'crewof{callsign.lower()}', 'POST /report', json.dumps(body))


# Each kind of change that a list shows, and some that it doesn't. Division 1 has TQ300800.
CHANGES = [
    ('a vehicle is on duty', duty(1, 'A1')),
    ('another', duty(1, 'A2')),
    ('a call makes an incident', call(1, 'TQ300800', (2, 1, 0))),
    ('a call is linked to it', call(2, 'TQ301800', (2, 1, 0))),
    ('a call makes another', call(3, 'TQ400800')),
    ('a call is linked to that', call(4, 'TQ400801')),
    ('a turn is opened', mobilise(1, 1, 'A1')),
    ('it is ended before the scene', desk(1, '/vehicles/A1/standdown')),
    ('a second turn', mobilise(1, 1, 'A1')),
    ('it is on its way', report('A1', 1, 'mobile', 2)),
    ('it is at the scene', report('A1', 2, 'scene', 2)),
    ('needs change', desk(1, '/incidents/1/needs', needs=[3, 0, 1])),
    ('a vehicle is offered', desk(1, '/vehicles/A2/lend', to=2, until=UNTIL)),
    ('and lent', desk(2, '/vehicles/A2/accept')),
    ('a call in the other division', call(5, 'TQ600800', (2, 0, 0))),
    ('the lent vehicle is sent', mobilise(2, 1, 'A2')),
    ('a call makes a third', call(6, 'TQ350800', (1, 0, 0))),
    ('the third is merged into the second', desk(1, '/incidents/3/merge', into=2)),
    ('a call is linked to the second', call(7, 'TQ400802')),
    ('the turn leaves', report('A1', 3, 'leave', 2)),
    ('it is at the hospital', report('A1', 4, 'hospital', 2)),
    ('it is ended', report('A1', 5, 'return', 2)),
    ('the first is closed', desk(1, '/incidents/1/close')),
    ('a call where it was', call(8, 'TQ300800')),
    ('the lent vehicle is stood down', desk(2, '/vehicles/A2/standdown')),
    ('and given back', desk(2, '/vehicles/A2/giveback')),
    ('it is sent at home', mobilise(1, 2, 'A2'))]


def by_chance(seed, count):
    """Requests by chance over few places, incidents and vehicles, of which many are refused."""
    chance = random.Random(seed)
    numbers = {'A1': 0, 'A2': 0}
    for serial in range(1, count):
        division, number = chance.choice([1, 1, 2]), chance.randrange(1, serial // 4 + 3)
        callsign, order = chance.choice(['A1', 'A2']), chance.randrange(1, serial // 9 + 2)
        place = f'TQ{chance.choice([300, 301, 302, 350, 400, 600])}{chance.choice([800, 801, 803])}'
        numbers[callsign] += 1
        button = chance.choice(['mobile', 'scene', 'leave', 'hospital', 'return', 'home'])
        yield chance.choice([
            call(serial, place, (chance.randrange(1, 4), 0, 0)), call(serial, place),
            mobilise(division, number, callsign), desk(division, f'/incidents/{number}/close'),
            desk(division, f'/incidents/{number}/merge', into=chance.randrange(1, number + 1)),
            desk(division, f'/incidents/{number}/needs', needs=[chance.randrange(1, 4), 0, 0]),
            desk(division, f'/vehicles/{callsign}/standdown'),
            report(callsign, numbers[callsign], button, order)])


class IncidentList(TestCase):
    def setUp(self):
        super().setUp()
        self.room = self.folder / 'room.db'
        run('init', self.room, PLAN)
        run('import', self.room, FLEET)

    def listed(self, port, division):
        [(status, content)] = ask(port, message(DESKS[division], 'GET /incidents'))
        return json.loads(content)['incidents'] if status == 200 else (status, content)

    def in_the_tables(self, division):
        """What the tables say: those of a copy, as the served room is locked."""
        copy = self.folder / 'copy.db'
        for end in ('', '-wal'):
            shutil.copy(f'{self.room}{end}', f'{copy}{end}')
        return [json.loads(it) for it in sql(copy, LIST.format(division=division)).splitlines()]

    def check_lists(self, port, what):
        for division in DESKS:
            self.check(f'{what}: the list of division {division}', self.listed(port, division),
                       self.in_the_tables(division))

    def test_each_change(self):
        with serving(self.room, 1_000) as (port, _):
            for what, change in CHANGES:
                self.check(f'{what}: it is done', ask(port, change)[0][0], 200)
                self.check_lists(port, what)
            self.check('incidents that are left', [it['number'] for it in self.listed(port, 1)],
                       [2, 4])
            wanted = {division: self.listed(port, division) for division in DESKS}
        with serving(self.room, 1_000) as (port, _):
            for division in DESKS:
                self.check('a room that is opened anew', self.listed(port, division),
                           wanted[division])

    def test_changes_by_chance(self):
        with serving(self.room, 10_000) as (port, _):
            done = [ask(port, duty(1, 'A1')), ask(port, duty(1, 'A2'))]
            for nth, change in enumerate(by_chance(54, 250)):
                done += [ask(port, change)]
                self.check_lists(port, f'change {nth + 1}, {change}')
            self.assertTrue(sum(it[0][0] == 200 for it in done) > 80, 'most are refused')
