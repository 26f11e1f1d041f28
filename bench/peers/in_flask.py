"""A room served by HTTP on loopback, with Flask and sqlite3 as a team would write it: what
bench/peers/run sets beside dispatch_room. Rules are those of docs/RULES.md, tables those of
docs/FILES.md.
Usage: in_flask.py FILE PORT"""
import logging
import math
import re
import sqlite3
import sys
import time

import flask
import waitress

LIMIT = 2147483647
SQUARES = {'TQ': (500000, 100000), 'TL': (500000, 200000), 'SU': (400000, 100000),
           'SP': (400000, 200000)}
BUTTONS = ['position', 'mobile', 'scene', 'leave', 'hospital', 'return', 'home']
OUTCOMES = ['normal', 'skipped', 'wrong', 'late', 'stale']
NORMAL, SKIPPED, WRONG, LATE, STALE = range(5)
DESK, POSITION, CREW = range(3)
REFUSALS = {
    1: ('NoSuchIncident', 404), 2: ('IncidentNotOpen', 409), 3: ('NoSuchVehicle', 404),
    4: ('VehicleLent', 409), 5: ('WrongStatus', 409), 6: ('ShiftOver', 409),
    7: ('NotNeeded', 409), 9: ('StillAssigned', 409), 16: ('OutsideArea', 409),
    17: ('SerialReused', 409), 18: ('NumberReused', 409), 19: ('NumbersUsedUp', 409),
    36: ('NoPath', 404), 37: ('WrongMethod', 405), 38: ('NoTerminal', 403),
    39: ('WrongRole', 403), 40: ('BadBody', 400)}
SERVED = '''(ended IS NULL OR scene IS NOT NULL OR left_at IS NOT NULL
  OR hospital IS NOT NULL)'''

app = flask.Flask(__name__)
app.config['MAX_CONTENT_LENGTH'] = 1024


class Refused(Exception):
    def __init__(self, number):
        super().__init__(number)
        self.number = number


def json_answer(content, status=200):
    text = flask.json.dumps(content, separators=(',', ':'), sort_keys=True)
    return app.response_class(text, status, mimetype='application/json')


@app.errorhandler(Refused)
def refusal_answer(refused):
    name, status = REFUSALS[refused.number]
    return json_answer({'error': name, 'number': refused.number}, status)


@app.errorhandler(404)
def no_path(_):
    return refusal_answer(Refused(36))


@app.errorhandler(405)
def wrong_method(_):
    return refusal_answer(Refused(37))


# ---- the file


def open_room(path):
    # Transactions are begun by hand; the server has one thread, which is not the one that opens.
    room = sqlite3.connect(path, isolation_level=None, check_same_thread=False)
    room.row_factory = sqlite3.Row
    room.execute('PRAGMA journal_mode = WAL')
    room.execute('PRAGMA synchronous = FULL')
    room.execute('PRAGMA wal_autocheckpoint = 8192')
    return room


def run(text, *given):
    return app.room.execute(text, given)


def one(text, *given):
    return run(text, *given).fetchone()


class Transaction:
    """What is asked within it happens whole or, where it is refused, not at all."""

    def __enter__(self):
        run('BEGIN')

    def __exit__(self, kind, *_):
        run('COMMIT' if kind is None else 'ROLLBACK')


# ---- what a request says


def terminal_of(role):
    found = one('SELECT role, number, callsign FROM terminals WHERE token = ?',
                flask.request.headers.get('X-Terminal'))
    if found is None:
        raise Refused(38)
    if found['role'] != role:
        raise Refused(39)
    return found


def body_with(*names):
    body = flask.request.get_json(force=True, silent=True)
    if not isinstance(body, dict) or sorted(body) != sorted(names):
        raise Refused(40)
    return body


def number_of(value, least=1, greatest=LIMIT):
    if type(value) is not int or not least <= value <= greatest:
        raise Refused(40)
    return value


def text_of(value):
    if not isinstance(value, str):
        raise Refused(40)
    return value


def place_of(value):
    found = re.fullmatch(r'(TQ|TL|SU|SP) ?([0-9]+)( ?)([0-9]*)', text_of(value))
    digits = found and found[2] + found[4]
    if not found or len(digits) not in (6, 8, 10):
        raise Refused(40)
    half = len(digits) // 2
    if found[3] and len(found[2]) != half:
        raise Refused(40)
    east, north = SQUARES[found[1]]
    metres = 10 ** (5 - half)
    return east + int(digits[:half]) * metres, north + int(digits[half:]) * metres


def needs_of(value):
    if not isinstance(value, list) or len(value) != 3:
        raise Refused(40)
    needs = [number_of(it, 0, 9) for it in value]
    if not any(needs):
        raise Refused(40)
    return needs


def note_of(value):
    note = text_of(value).encode(errors='replace')
    if len(note) > 120:
        raise Refused(40)
    return note


def callsign_of(value):
    if not re.fullmatch('[A-Z0-9]{1,8}', text_of(value)):
        raise Refused(40)
    return value


def incident_number(text):
    if not re.fullmatch('[1-9][0-9]{0,9}', text) or int(text) > LIMIT:
        raise Refused(36)
    return int(text)


def distance(row, other):
    return math.isqrt((row['east'] - other['east']) ** 2 + (row['north'] - other['north']) ** 2)


# ---- calls


def kept_call(position, form):
    kept = one('SELECT * FROM calls WHERE position = ? AND serial = ?', position, form['serial'])
    if kept is None:
        return None
    if any(kept[name] != content for name, content in form.items()):
        raise Refused(17)
    return {'division': kept['division'], 'incident': kept['given'],
            'linked': bool(kept['linked'])}


def call_form():
    body = body_with('class', 'needs', 'note', 'place', 'serial')
    form = {'class': number_of(body['class'], 1, 3), 'note': note_of(body['note']),
            'serial': number_of(body['serial'])}
    form['need1'], form['need2'], form['need3'] = needs_of(body['needs'])
    form['east'], form['north'] = place_of(body['place'])
    return form


def link_target(division, form, now):
    east, north = form['east'], form['north']
    near = run('''SELECT number, east, north FROM incidents
                  WHERE state = 0 AND division = ? AND opened >= ?
                    AND east BETWEEN ? AND ? AND north BETWEEN ? AND ?''',
               division, now - 900, east - 200, east + 200, north - 200, north + 200)
    found = [(distance(form, it), it['number']) for it in near]
    return min((it for it in found if it[0] <= 200), default=(0, None))[1]


def link(division, incident, form, now):
    run('''UPDATE incidents SET class = min(class, ?), need1 = max(need1, ?),
             need2 = max(need2, ?), need3 = max(need3, ?), opened = min(opened, ?)
           WHERE division = ? AND number = ?''',
        form['class'], form['need1'], form['need2'], form['need3'], now, division, incident)


def put_incident(division, form, now):
    last = one('SELECT last_incident FROM divisions WHERE number = ?', division)['last_incident']
    if last >= LIMIT:
        raise Refused(19)
    run('UPDATE divisions SET last_incident = ? WHERE number = ?', last + 1, division)
    run('INSERT INTO incidents VALUES (?, ?, ?, ?, ?, ?, ?, ?, ?, NULL, 0, NULL)', division,
        last + 1, form['east'], form['north'], form['class'], form['need1'], form['need2'],
        form['need3'], now)
    return last + 1


def new_call(position, form, now):
    division = one('''SELECT min(division) AS division FROM areas
                      WHERE ? BETWEEN west AND east AND ? BETWEEN south AND north''',
                   form['east'], form['north'])['division']
    if division is None:
        raise Refused(16)
    target = link_target(division, form, now)
    if target:
        link(division, target, form, now)
    incident = target or put_incident(division, form, now)
    run('INSERT INTO calls VALUES (?, ?, ?, ?, ?, ?, ?, ?, ?, ?, ?, ?, ?, ?)', position,
        form['serial'], division, incident, incident, int(bool(target)), form['east'],
        form['north'], form['class'], form['need1'], form['need2'], form['need3'], form['note'],
        now)
    return {'division': division, 'incident': incident, 'linked': bool(target)}


@app.post('/call')
def take_call():
    position, form = terminal_of(POSITION)['number'], call_form()
    with Transaction():
        return json_answer(kept_call(position, form) or new_call(position, form, int(time.time())))


# ---- reports

# What a button comes to at a status, by the columns of BUTTONS: n normal, s skipped, w wrong.
PRESSED = ['wwwwwww', 'nwwwwwn', 'nnnssss', 'nwnnsns', 'nwwnnss', 'nwwwnns', 'nwwwwnn', 'nwwwwwn']
TURN_COLUMNS = {'mobile': 'acknowledged', 'scene': 'scene', 'leave': 'left_at',
                'hospital': 'hospital'}
STATUSES = {'scene': 3, 'leave': 4, 'hospital': 5, 'return': 6, 'home': 1}


def press_form():
    body = body_with('button', 'number', 'order', 'place')
    if body['button'] not in BUTTONS:
        raise Refused(40)
    east, north = place_of(body['place'])
    return {'button': BUTTONS.index(body['button']), 'number': number_of(body['number']),
            'ord': number_of(body['order'], 0), 'east': east, 'north': north}


def kept_report(callsign, press):
    kept = one('SELECT * FROM reports WHERE callsign = ? AND number = ?', callsign,
               press['number'])
    if kept is None:
        return None
    if any(kept[name] != content for name, content in press.items()):
        raise Refused(18)
    return {'number': kept['number'], 'outcome': OUTCOMES[kept['outcome']],
            'status': kept['status']}


def outcome_of(vehicle, turn, press):
    button = BUTTONS[press['button']]
    if press['number'] < vehicle['last_report']:
        return LATE
    if button in BUTTONS[1:6] and press['ord'] != vehicle['last_order']:
        return STALE
    if vehicle['status'] == 2 and button == 'scene' and turn['acknowledged'] is None:
        return SKIPPED
    return 'nsw'.index(PRESSED[vehicle['status']][press['button']])


def write_turn(turn, button, now):
    key = turn['callsign'], turn['ord']
    if button in TURN_COLUMNS:
        column = TURN_COLUMNS[button]
        run(f'UPDATE turns SET {column} = ifnull({column}, ?) WHERE callsign = ? AND ord = ?',
            now, *key)
    elif button in ('return', 'home'):
        run('UPDATE turns SET ended = ? WHERE callsign = ? AND ord = ?', now, *key)
        run('DELETE FROM assignments WHERE callsign = ?', turn['callsign'])


def give_back(callsign, now):
    loan = one('SELECT lender FROM loans WHERE callsign = ? AND (recalled OR until < ?)',
               callsign, now)
    if loan:
        run('UPDATE vehicles SET holder = ?, post = NULL WHERE callsign = ?', loan['lender'],
            callsign)
        run('DELETE FROM loans WHERE callsign = ?', callsign)


def act(callsign, turn, press, status, now):
    button = BUTTONS[press['button']]
    if turn:
        write_turn(turn, button, now)
    run('UPDATE vehicles SET status = ?, east = ?, north = ? WHERE callsign = ?', status,
        press['east'], press['north'], callsign)
    if button == 'home':
        give_back(callsign, now)


def new_report(callsign, press, now):
    vehicle = one('SELECT * FROM vehicles WHERE callsign = ?', callsign)
    turn = one('SELECT * FROM turns WHERE callsign = ? AND ord = ? AND ended IS NULL', callsign,
               vehicle['last_order'])
    outcome, status = outcome_of(vehicle, turn, press), vehicle['status']
    acts = outcome in (NORMAL, SKIPPED)
    if acts and not (status == 7 and press['button'] == 6):
        status = STATUSES.get(BUTTONS[press['button']], status)
    run('INSERT INTO reports VALUES (?, ?, ?, ?, ?, ?, ?, ?, ?, ?, 0)', callsign,
        press['number'], press['button'], press['ord'], press['east'], press['north'], now,
        vehicle['holder'], outcome, status)
    run('UPDATE vehicles SET last_report = max(last_report, ?) WHERE callsign = ?',
        press['number'], callsign)
    if acts:
        act(callsign, turn, press, status, now)
    return {'number': press['number'], 'outcome': OUTCOMES[outcome], 'status': status}


@app.post('/report')
def take_report():
    callsign, press = terminal_of(CREW)['callsign'], press_form()
    with Transaction():
        return json_answer(kept_report(callsign, press)
                           or new_report(callsign, press, int(time.time())))


# ---- incidents


def active_incident(division, number):
    found = one('SELECT * FROM incidents WHERE division = ? AND number = ?', division, number)
    if found is None:
        raise Refused(1)
    if found['state'] != 0:
        raise Refused(2)
    return found


def lacking(incident):
    """How many vehicles it lacks, by kind."""
    served = run(f'''SELECT kind, count(*) FROM turns
                     WHERE division = ? AND incident = ? AND {SERVED} GROUP BY kind''',
                 incident['division'], incident['number'])
    got = dict(map(tuple, served))
    return {kind: max(0, incident[f'need{kind}'] - got.get(kind, 0)) for kind in (1, 2, 3)}


def held_vehicle(division, callsign):
    found = one('SELECT * FROM vehicles WHERE callsign = ? AND holder = ?', callsign, division)
    if found is None:
        lent = one('SELECT 1 FROM loans WHERE callsign = ? AND lender = ?', callsign, division)
        raise Refused(4 if lent else 3)
    return found


def test_sending(vehicle, lack, now):
    if vehicle['status'] not in (1, 6):
        raise Refused(5)
    if vehicle['shift_end'] <= now:
        raise Refused(6)
    if lack[vehicle['kind']] == 0:
        raise Refused(7)
    if vehicle['last_order'] >= LIMIT:
        raise Refused(19)


def send(incident, vehicle, now):
    order, callsign = vehicle['last_order'] + 1, vehicle['callsign']
    division, number = incident['division'], incident['number']
    run('''UPDATE incidents SET first_order = ifnull(first_order, ?)
           WHERE division = ? AND number = ?''', now, division, number)
    run('UPDATE vehicles SET status = 2, post = NULL, last_order = ? WHERE callsign = ?', order,
        callsign)
    run('INSERT INTO turns VALUES (?, ?, ?, ?, ?, ?, NULL, NULL, NULL, NULL, NULL, 0)', callsign,
        order, division, number, vehicle['kind'], now)
    run('INSERT INTO assignments VALUES (?, ?, ?, ?, ?, ?, ?)', callsign, division, number,
        order, incident['east'], incident['north'], incident['class'])
    return order


@app.post('/incidents/<text>/mobilise')
def mobilise(text):
    number, division, now = incident_number(text), terminal_of(DESK)['number'], int(time.time())
    callsign = callsign_of(body_with('vehicle')['vehicle'])
    with Transaction():
        incident = active_incident(division, number)
        vehicle = held_vehicle(division, callsign)
        test_sending(vehicle, lacking(incident), now)
        return json_answer({'order': send(incident, vehicle, now), 'vehicle': callsign})


@app.post('/incidents/<text>/close')
def close(text):
    number, division = incident_number(text), terminal_of(DESK)['number']
    with Transaction():
        active_incident(division, number)
        if one('SELECT 1 FROM turns WHERE division = ? AND incident = ? AND ended IS NULL',
               division, number):
            raise Refused(9)
        run('UPDATE incidents SET state = 1 WHERE division = ? AND number = ?', division, number)
        return json_answer({'done': True})


# ---- what a desk looks at


def short_points(division, now):
    """The points with no more holders than their cover."""
    points = run('''SELECT number FROM points p WHERE division = ? AND cover >= (
                      SELECT count(*) FROM vehicles WHERE holder = p.division
                        AND status IN (1, 6) AND shift_end > ? AND post = p.number)''',
                 division, now)
    return {it['number'] for it in points}


@app.get('/incidents/<text>/propose')
def propose(text):
    number, division, now = incident_number(text), terminal_of(DESK)['number'], int(time.time())
    with Transaction():
        incident = active_incident(division, number)
        lack, short = lacking(incident), short_points(division, now)
        rows = run('''SELECT * FROM vehicles
                      WHERE holder = ? AND status IN (1, 6) AND shift_end > ?''', division, now)
        found = [{'breaks': it['post'] in short, 'kind': it['kind'], 'vehicle': it['callsign'],
                  'distance': distance(it, incident)} for it in rows]
    found.sort(key=lambda it: (it['breaks'], it['distance'], it['vehicle']))
    best = [[it for it in found if it['kind'] == kind][:lack[kind]] for kind in (1, 2, 3)]
    return json_answer({'proposals': sum(best, [])})


@app.get('/vehicles')
def show_vehicles():
    rows = run('''SELECT v.*, a.incident
                  FROM vehicles v LEFT JOIN assignments a ON a.callsign = v.callsign
                  WHERE v.holder = ? ORDER BY v.callsign''', terminal_of(DESK)['number'])
    names = ('home', 'incident', 'kind', 'post', 'shift_end', 'status')
    return json_answer({'vehicles': [{'place': [it['east'], it['north']], 'vehicle': it['callsign'],
                               **{name: it[name] for name in names}} for it in rows]})


SERVED_OF = f'''(SELECT count(*) FROM turns
 WHERE incident = i.number AND division = i.division AND kind = %d AND {SERVED})'''
INCIDENTS = f'''
SELECT *, (SELECT count(*) FROM calls WHERE incident = i.number AND division = i.division) AS calls,
  {', '.join(f'{SERVED_OF % kind} AS served{kind}' for kind in (1, 2, 3))}
FROM incidents i WHERE state = 0 AND division = ? ORDER BY number'''


@app.get('/incidents')
def show_incidents():
    rows, shown = run(INCIDENTS, terminal_of(DESK)['number']), []
    for it in rows:
        needs = [it[f'need{kind}'] for kind in (1, 2, 3)]
        served = [it[f'served{kind}'] for kind in (1, 2, 3)]
        shown.append({'lack': [max(0, a - b) for a, b in zip(needs, served)], 'needs': needs,
                      'place': [it['east'], it['north']],
                      **{name: it[name] for name in ('calls', 'class', 'number', 'opened')}})
    return json_answer({'incidents': shown})


QUEUE = f'''
SELECT 1 AS rank, opened AS since, number, '' AS vehicle FROM incidents i
WHERE state = 0 AND division = :division AND opened < :now - 180 AND NOT EXISTS (
  SELECT 1 FROM turns WHERE incident = i.number AND division = i.division AND {SERVED})
UNION ALL SELECT 2, t.ordered, t.incident, v.callsign
FROM vehicles v JOIN turns t ON t.callsign = v.callsign AND t.ord = v.last_order
WHERE v.holder = :division AND v.status = 2 AND t.acknowledged IS NULL
  AND t.ordered < :now - 60
UNION ALL SELECT 3, i.opened, i.number, v.callsign
FROM vehicles v JOIN assignments a ON a.callsign = v.callsign
JOIN incidents i ON i.division = a.division AND i.number = a.incident
WHERE v.holder = :division AND v.status = 2
  AND i.opened < :now - CASE i.class WHEN 1 THEN 480 WHEN 2 THEN 840 ELSE 3600 END
UNION ALL SELECT 4, moment, number, callsign FROM reports
WHERE outcome IN (1, 2, 3, 4) AND cleared = 0 AND division = :division
UNION ALL SELECT 5, until, iif(lender = :division, borrower, lender), callsign FROM loans
WHERE :division IN (lender, borrower) AND until < :now
UNION ALL SELECT 6, shift_end, 0, callsign FROM vehicles
WHERE holder = :division AND status <> 0 AND shift_end <= :now
UNION ALL SELECT 7, 0, number, '' FROM points p WHERE division = :division AND cover > (
  SELECT count(*) FROM vehicles WHERE holder = :division AND status IN (1, 6)
    AND shift_end > :now AND post = p.number)
UNION ALL SELECT 8, since, iif(lender = :division, borrower, lender), callsign FROM offers
WHERE :division IN (lender, borrower) AND since < :now - 300
ORDER BY 1, 2, 3, 4'''


@app.get('/queue')
def show_queue():
    given = {'division': terminal_of(DESK)['number'], 'now': int(time.time())}
    return json_answer({'queue': [dict(it) for it in app.room.execute(QUEUE, given)]})


def main(path, port):
    app.room = open_room(path)
    logging.getLogger('waitress').setLevel(logging.ERROR)
    server = waitress.create_server(app, host='127.0.0.1', port=int(port), threads=1)
    print('serving', flush=True)
    server.run()


if __name__ == '__main__':
    main(*sys.argv[1:])
