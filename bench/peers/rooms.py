"""Makes the files of rooms that all servers open: the plan of examples/plan.csv, twenty ambulances
a division, all on duty, and incidents of division 1 that wait."""
import csv
import pathlib
import re
import sqlite3

TOP = pathlib.Path(__file__).resolve().parent.parent.parent
SCHEMA = TOP / 'crates/room_tables_schema/src/schema_sql.rt'
PLAN = TOP / 'examples/plan.csv'
ROLES = {'desk': 0, 'position': 1}
CREW = 2
VEHICLES = 20
# The south-western corner of each division's area, 50 km to the east and 100 to the north.
CORNERS = {1: (500000, 100000), 2: (550000, 100000)}


def schema():
    """The texts that make the tables and indexes of a room, in their order."""
    text = re.sub(r'\\\n *', '', SCHEMA.read_text())
    return re.findall(r'"(CREATE (?:TABLE|INDEX) .*)";', text)


def spot(division, nth):
    """The nth place of a division, 1 km from the next."""
    east, north = CORNERS[division]
    return east + nth % 50 * 1000, north + nth // 50 % 100 * 1000


def callsigns(division):
    return [f'{"AB"[division - 1]}{nth}' for nth in range(1, VEHICLES + 1)]


def home(division, callsign):
    """Where a vehicle waits: in the middle of its division, 2 km from the next."""
    east, north = CORNERS[division]
    return east + int(callsign[1:]) * 2000, north + 52000


def crew_token(callsign):
    return f'crewof{callsign.lower()}'


def put_plan(room):
    rows = list(csv.DictReader(PLAN.read_text().splitlines()))
    zone = next(it['a'] for it in rows if it['what'] == 'zone')
    areas = [[it[name] for name in ('number', 'a', 'b', 'c', 'd')]
             for it in rows if it['what'] == 'area']
    terminals = [(it['a'], ROLES[it['what']], it['number']) for it in rows if it['what'] in ROLES]
    room.execute('INSERT INTO meta VALUES (1, 2, ?)', [zone])
    room.executemany('INSERT INTO areas VALUES (?, ?, ?, ?, ?, ?)',
                     [[nth, *it] for nth, it in enumerate(areas, 1)])
    room.executemany('INSERT INTO terminals VALUES (?, ?, ?, NULL)', terminals)


def put_division(room, division, now):
    """A division with its fleet."""
    room.execute('INSERT INTO divisions VALUES (?, 0)', [division])
    for callsign in callsigns(division):
        room.execute('INSERT INTO vehicles VALUES (?, ?, ?, 1, ?, ?, 1, ?, NULL, 0, 0)',
                     [callsign, division, division, *home(division, callsign), now + 8 * 3600])
        room.execute('INSERT INTO terminals VALUES (?, ?, 0, ?)',
                     [crew_token(callsign), CREW, callsign])


def put_waiting(room, now, waiting):
    """Incidents of division 1 that nobody was sent to, opened in the last two hours, with a call
    each."""
    for nth in range(waiting):
        place, class_, opened = spot(1, nth), nth % 3 + 1, now - 200 - nth * 7000 // waiting
        room.execute('INSERT INTO incidents VALUES (1, ?, ?, ?, ?, 1, 0, 0, ?, NULL, 0, NULL)',
                     [nth + 1, *place, class_, opened])
        room.execute('INSERT INTO calls VALUES (1, ?, 1, ?, ?, 0, ?, ?, ?, 1, 0, 0, ?, ?)',
                     [nth + 1, nth + 1, nth + 1, *place, class_, b'', opened])
    room.execute('UPDATE divisions SET last_incident = ? WHERE number = 1', [waiting])


def make(path, now, waiting):
    """Makes a room's file in which so many incidents wait, for its owner only, with the pages that
    `init` gives it."""
    path.touch(mode=0o600)
    room = sqlite3.connect(path)
    room.execute('PRAGMA page_size = 512')
    for text in schema():
        room.execute(text)
    put_plan(room)
    for division in CORNERS:
        put_division(room, division, now)
    put_waiting(room, now, waiting)
    room.commit()
    room.close()
    return path
