"""The board of a desk: what it asks a room, what it shows of a room that is served, line by line,
and what it says of a peer that is silent, drips, refuses or talks no HTTP."""
# needs: python3 sqlite3
# builds: dispatch_room
import json
import os
import pty
import re
import subprocess
import time

from boards import (DATE, EMPTY, PATHS, TITLES, UNHEARD, UNHURRIED, answer, history, peer,
                    without_tables)
from room import (PATIENT, PROGRAM, TestCase, ask, call, dump, free_port, made, message, run,
                  serving)

FLEET = ['A1,1,1,TQ303804,crewofa1', 'A3,1,1,TQ300801,crewofa3', 'C1,1,2,TQ300800,crewofc1']
FOREIGN = "not reached: the answer is not a room's"
# The last moment of a room: a shift or a loan with this end is not over while a test waits.
LAST = 4102444799


def requests(token, *paths):
    """What a board writes, by docs/HTTP.md and docs/OPERATING.md."""
    fields = f' HTTP/1.1\r\nHost: room\r\nX-Terminal: {token}\r\n'
    last = len(paths) - 1
    close = ['Connection: close\r\n' if at == last else '' for at in range(len(paths))]
    return ''.join(f'GET {path}{fields}{more}\r\n' for path, more in zip(paths, close)).encode()


def board(address, *words, token='deskone1'):
    """A board, which is patient by default."""
    return run('board', address, token, *words, *([] if '--patience' in words else UNHURRIED))


def steady(text):
    """A board without what differs from one run to the next: its moment, and of ages and of the
    minutes that are left to the last moment the digits."""
    text = re.sub(r'^Room at \w{3}, \d\d \w{3} \d{4} \d\d:\d\d:\d\d GMT$', 'Room at ..', text,
                  count=1, flags=re.M)
    text = re.sub(r'\b0:\d\d:\d\d\b', '0:..:..', text)
    return re.sub(r'\b\d{8}$', '........', text, flags=re.M)


class Served(TestCase):
    """A room that is served, looked at after each of a few requests."""

    def setUp(self):
        super().setUp()
        self.room = made(self.folder / 'room.db', *FLEET)
        self.duty = [message('deskone1', f'POST /vehicles/{callsign}/duty',
                             f'{{"place":"{place}","until":{LAST}}}')
                     for callsign, place in [('A1', 'TQ303804'), ('A3', 'TQ300801')]]
        self.lend = message('deskone1', 'POST /vehicles/A1/lend', f'{{"to":2,"until":{LAST}}}')

    def test_a_day(self):
        with serving(self.room, 4, *PATIENT, '--history') as (port, _):
            send = message('deskone1', 'POST /incidents/1/mobilise', '{"vehicle":"A3"}')
            point = message('deskone1', 'POST /points/4', '{"cover":2,"place":"TQ310810"}')
            ask(port, *self.duty, call(1), point)
            first = board(f'127.0.0.1:{port}', '--incident', 1)
            ask(port, send, self.lend)
            second = board(f'127.0.0.1:{port}')
        self.check('before', (first[0], steady(first[1]), first[2]), (0, '''\
Room at ..

Queue: 1
 what                     of                  vehicle      waited
 point short of cover     point 4                               -

Incidents: 1
   incident class place          needed served        age
          1     2 TQ 30000 80000 1 0 0  0 0 0     0:..:..

Incident 1: active
 class place          needed served              age first order
     2 TQ 30000 80000 1 0 0  0 0 0           0:..:..           -

Calls: 1
 position     serial linked place          class needed        age
        1          1 -      TQ 30000 80000     2 1 0 0     0:..:..

Turns: 0

Proposals: 1
 vehicle  kind      standby                   metres
 A3       ambulance                              100

Vehicles: 3
 vehicle  kind      status      place          home sent to             min left
 A1       ambulance available   TQ 30300 80400    1 -                   ........
 A3       ambulance available   TQ 30000 80100    1 -                   ........
 C1       car       off duty    TQ 30000 80000    1 -                          -

Points: 1
 point place          cover                 held
     4 TQ 31000 81000     2                    0

Offers: 0

Loans: 0
''', ''))
        self.check('after', (second[0], steady(second[1]), second[2]), (0, '''\
Room at ..

Queue: 1
 what                     of                  vehicle      waited
 point short of cover     point 4                               -

Incidents: 1
   incident class place          needed served        age
          1     2 TQ 30000 80000 1 0 0  1 0 0     0:..:..

Vehicles: 3
 vehicle  kind      status      place          home sent to             min left
 A1       ambulance offered     TQ 30300 80400    1 -                   ........
 A3       ambulance mobilised   TQ 30000 80100    1 incident 1          ........
 C1       car       off duty    TQ 30000 80000    1 -                          -

Points: 1
 point place          cover                 held
     4 TQ 31000 81000     2                    0

Offers: 1
 vehicle  from   to recalled        age min left
 A1          1    2 -           0:..:.. ........

Loans: 0
''', ''))

    def test_nothing_changes(self):
        with serving(self.room, 1) as (port, process):
            ask(port, *self.duty, call(1))
            process.wait(30)
        before = dump(self.room)
        with serving(self.room, 1, *PATIENT, '--history') as (port, process):
            status = board(f'127.0.0.1:{port}', '--incident', 1)[0]
            process.wait(30)
        self.assertEqual((status, dump(self.room)), (0, before))

    def test_refused(self):
        with serving(self.room, 3, *PATIENT, '--history') as (port, _):
            for what, token, shown in [('unknown', 'nobody123', '38 NoTerminal'),
                                       ('of a crew', 'crewofa1', '39 WrongRole')]:
                status, out, err = board(f'127.0.0.1:{port}', token=token)
                self.check(f'token {what}', (status, steady(out), err),
                           (1, without_tables(f'refused: {shown}', 'Room at ..'), ''))
            status, out, err = board(f'127.0.0.1:{port}', '--incident', 9)
            shown = [it for it in out.split('\n') if 'refused' in it]
            self.check('incident', (status, shown, err),
                       (1, ['Incident: refused: 1 NoSuchIncident',
                            'Proposals: refused: 1 NoSuchIncident'], ''))

    def test_without_history(self):
        """A room that serves no history refuses that part, and nothing else."""
        with serving(self.room, 2) as (port, _):
            ask(port, *self.duty, call(1))
            status, out, err = board(f'127.0.0.1:{port}', '--incident', 1)
        shown = [it for it in out.split('\n') if 'refused' in it or 'Proposals' in it]
        self.check('incident', (status, shown, err),
                   (1, ['Incident: refused: 36 NoPath', 'Proposals: 1'], ''))

    def test_an_exception(self):
        """A report out of turn says what it was, where the room serves the vehicle's reports; any
        other room is asked for them in vain, and no part is missing."""
        pressed = message('crewofa1', 'POST /report',
                          '{"button":"scene","number":1,"order":0,"place":"TQ310810"}')
        for words, notes in [(['--history'], ['scene: wrong, no order, TQ 31000 81000, .. GMT']),
                             ([], [])]:
            with serving(self.room, 3, *PATIENT, *words) as (port, process):
                ask(port, *self.duty, pressed)
                status, out, err = board(f'127.0.0.1:{port}')
                process.wait(30)
            lines = re.sub(r'[0-9:]+ GMT$', '.. GMT', out, flags=re.M).split('\n')[2:]
            queue = lines[:lines.index('')]
            self.check(f'{words}', (status, queue[:2], queue[2].split()[:7], queue[3:], err),
                       (0, ['Queue: 1', ' what                     of                  vehicle'
                                        '      waited'],
                        'report out of turn report 1'.split() + ['A1'],
                        [f'         {it}' for it in notes], ''))


class Wire(TestCase):
    """What is said to a peer, and what is made of what it says."""

    def spoken(self, *pieces, words=(), pause=0, stays=False):
        """The board of a peer that says these bytes, piece by piece, and then ends, or stays silent
        until the board has ended."""
        def speak(stream):
            for piece in pieces:
                stream.sendall(piece)
                time.sleep(pause)
            if stays:
                stream.recv(1)
        with peer(speak) as (address, heard):
            return board(address, *words), b''.join(heard)

    def test_what_is_asked(self):
        shown, heard = self.spoken(*EMPTY)
        self.check('status', shown[0::2], (0, ''))
        self.check('requests', heard, requests('deskone1', *PATHS))
        shown, heard = self.spoken(*EMPTY[:2], history(), answer('{"proposals":[]}'), *EMPTY[2:],
                                   words=['--incident', '2147483647'])
        self.check('status with an incident', shown[0::2], (0, ''))
        self.check('requests with an incident', heard,
                   requests('deskone1', *PATHS[:2], '/incidents/2147483647',
                            '/incidents/2147483647/propose', *PATHS[2:]))

    def told(self, queue, *said, words=()):
        """The board of a peer that says this of its queue and then, on one connection more for
        each, these bytes; and what it was asked on each."""
        entries = ','.join(f'{{"number":{number},"rank":{rank},"since":1795588739,'
                           f'"vehicle":"{vehicle}"}}' for number, rank, vehicle in queue)
        first = b''.join([answer(f'{{"queue":[{entries}]}}'), *EMPTY[1:]])
        with peer(*(lambda stream, it=it: stream.sendall(it)
                    for it in [first, *said])) as (address, heard):
            return board(address, *words), heard

    def test_reports(self):
        """They are asked for once for each vehicle, of eight at most, and each stands below the
        entry of its vehicle and number; what is no answer with reports tells none."""
        def reports(*told):
            return answer(json.dumps({'reports': [
                {'button': button, 'cleared': False, 'moment': 1795588739, 'number': number,
                 'order': order, 'outcome': outcome, 'place': [599999, 100000], 'status': 1}
                for number, button, outcome, order in told]}))
        longest = (2147483647, 'hospital', 'skipped', 2147483647)
        (status, out, err), heard = self.told(
            [(7, 4, 'A1'), (5, 4, 'A3'), (8, 4, 'A1'), (0, 6, 'S1'), (2147483647, 4, 'AMB12345')],
            reports((7, 'leave', 'late', 3), (9, 'home', 'stale', 4))
            + answer('{"error":"NoPath","number":36}', '404 Not Found') + reports(longest))
        self.check('what is asked', heard[1], requests(
            'deskone1', *(f'/vehicles/{it}/reports' for it in ['A1', 'A3', 'AMB12345'])))
        self.check('what is shown', (status, out[:out.index('\nIncidents')], err), (0, '''\
Room at Wed, 25 Nov 2026 06:40:00 GMT

Queue: 5
 what                     of                  vehicle      waited
 report out of turn       report 7            A1          0:01:01
         leave: late, order 3, TQ 99999 00000, 6:38:59 GMT
 report out of turn       report 5            A3          0:01:01
 report out of turn       report 8            A1          0:01:01
 shift is over                                S1          0:01:01
 report out of turn       report 2147483647   AMB12345    0:01:01
         hospital: skipped, order 2147483647, TQ 99999 00000, 6:38:59 GMT
''', ''))
        self.assertLessEqual(max(map(len, out.split('\n'))), 80)
        many = [f'V{at}' for at in range(12)]
        (status, out, err), heard = self.told([(1, 4, it) for it in many], b'')
        self.check('of many vehicles', heard[1], requests(
            'deskone1', *(f'/vehicles/{it}/reports' for it in many[:8])))
        self.check('what is not told', (status, out.count('GMT'), err), (0, 1, ''))

    def test_calls(self):
        """A room is called once more only where it says of an exception; where it is silent then,
        the board is shown as it was heard."""
        for what, queue, calls in [('no entry', [], 1), ('others', [(0, 6, 'A1'), (1, 2, 'A1')], 1),
                                   ('an exception', [(0, 6, 'A1'), (1, 4, 'A1')], 2)]:
            (status, _, err), heard = self.told(queue, b'', b'')
            self.check(what, (status, err, len(heard)), (0, '', calls))
        (status, out, err), _ = self.told([(1, 4, 'A1')], words=['--patience', '8'])
        self.check('a room that is silent', (status, out.count('GMT'), err), (0, 1, ''))

    def asked_by(self, host, *words):
        """How a board ends that asks with these words at a name of a peer on this machine, and what
        it says to the peer."""
        with peer(lambda stream: stream.sendall(b''.join(EMPTY))) as (address, heard):
            port = address.rpartition(':')[2]
            status, _, err = run('board', f'{host}:{port}', *words, *UNHURRIED)
        return status, err, b''.join(heard)

    def test_token_file(self):
        """Its first line is the token, whatever stands below it, and with or without a line end."""
        file = self.folder / 'token'
        for text in [b'deskone1\n', b'deskone1', b'deskone1\ndesktwo2\n', b'deskone1\n\xff']:
            file.write_bytes(text)
            self.check(f'a file with {text}', self.asked_by('127.0.0.1', '--token', file),
                       (0, '', requests('deskone1', *PATHS)))

    def test_another_machine(self):
        """No token goes to an address but one of this machine, unless it may: 0.0.0.0 stands for
        the addresses of all, and Linux takes it for 127.0.0.1."""
        asked = requests('deskone1', *PATHS)
        for host, words, ended in [('localhost', [], (0, '', asked)),
                                   ('0.0.0.0', [], (1, 'refused: input\n', b'')),
                                   ('0.0.0.0', ['--plain'], (0, '', asked)),
                                   ('127.0.0.1', ['--plain'], (0, '', asked))]:
            self.check(f'{host} {words}', self.asked_by(host, 'deskone1', *words), ended)

    def test_widest_rows(self):
        queue = ('{"queue":[{"number":2147483647,"rank":2,"since":0,"vehicle":"AMB12345"},'
                 '{"number":0,"rank":6,"since":1795588739,"vehicle":"A1"}]}')
        vehicles = ('{"vehicles":[{"home":9,"incident":2147483647,"kind":1,'
                    '"place":[400000,299999],"post":99,"shift_end":4102444799,"status":5,'
                    '"vehicle":"AMB12345"},{"home":1,"incident":null,"kind":3,'
                    '"place":[599999,100000],"post":99,"shift_end":1795588800,"status":6,'
                    '"vehicle":"A1"}]}')
        loans = ('{"loans":[{"borrower":2,"lender":1,"recalled":true,"since":1795502400,'
                 '"until":1795588920,"vehicle":"AMB12345"}]}')
        (status, out, _), _ = self.spoken(answer(queue), EMPTY[1], answer(vehicles), EMPTY[3],
                                          EMPTY[4], answer(loans))
        self.assertEqual((status, out), (0, '''\
Room at Wed, 25 Nov 2026 06:40:00 GMT

Queue: 2
 what                     of                  vehicle      waited
 order not acknowledged   incident 2147483647 AMB12345 9999:59:59
 shift is over                                A1          0:01:01

Incidents: 0

Vehicles: 2
 vehicle  kind      status      place          home sent to             min left
 AMB12345 ambulance at hospital SP 00000 99999    9 incident 2147483647 38447599
 A1       support   returning   TQ 99999 00000    1 point 99                over

Points: 0

Offers: 0

Loans: 1
 vehicle  from   to recalled        age min left
 AMB12345    1    2 recalled   24:00:00        2
'''))

    def test_colours(self):
        short = answer('{"points":[{"cover":1,"held":0,"number":1,"place":[530000,180000]}]}')
        said = [*EMPTY[:3], short, *EMPTY[4:]]
        row = '     1 TQ 30000 80000     1                    0'
        for when, wanted in [('always', [f'\x1b[1mPoints: 1\x1b[0m', f'\x1b[31m{row}\x1b[0m']),
                             ('never', ['Points: 1', row]), ('auto', ['Points: 1', row])]:
            out = self.spoken(*said, words=['--color', when])[0][1].split('\n')
            self.check(when, [it for it in wanted if it not in out], [])
            self.check(f'{when}: others', '\x1b' in ''.join(out), when == 'always')

    def test_colours_of_a_terminal(self):
        with peer(lambda stream: stream.sendall(b''.join(EMPTY))) as (address, _):
            ours, theirs = pty.openpty()
            with open(ours, 'rb', buffering=0) as terminal:
                with open(theirs, 'wb') as out:
                    done = subprocess.run([PROGRAM, 'board', address, 'deskone1', *UNHURRIED],
                                          stdin=subprocess.DEVNULL, stdout=out, timeout=120)
                shown = os.read(terminal.fileno(), 65536)
        self.check('status', done.returncode, 0)
        self.check('a title', b'\x1b[1mQueue: 0\x1b[0m' in shown, True)

    def test_silence(self):
        for what, pieces in [('nothing', []), ('part of an answer', [EMPTY[0][:-1]])]:
            shown, _ = self.spoken(*pieces, words=['--patience', '1'], stays=True)
            self.check(f'{what} is said', shown, (4, without_tables(UNHEARD), 'network\n'))

    def test_parts(self):
        shown, _ = self.spoken(*EMPTY[:2], EMPTY[2][:-1])
        wanted = ['Room at Wed, 25 Nov 2026 06:40:00 GMT', '', 'Queue: 0', '', 'Incidents: 0', '']
        wanted += [it for title in TITLES[2:] for it in (f'{title}: {UNHEARD}', '')]
        self.assertEqual(shown, (4, '\n'.join(wanted), 'network\n'))

    def test_drips(self):
        """The time is that of all: a peer that drips doesn't hold a board."""
        said = b''.join(EMPTY)
        shown, _ = self.spoken(*(said[at:at + 1] for at in range(len(said))), pause=0.1,
                               words=['--patience', '1'])
        self.check('what is shown', shown, (4, without_tables(UNHEARD), 'network\n'))
        shown, _ = self.spoken(*(said[at:at + 40] for at in range(0, len(said), 40)), pause=0.01)
        self.check('in pieces', shown[0], 0)

    # The board of an incident is given between these lines of one without any.
    BEFORE = 'Room at Wed, 25 Nov 2026 06:40:00 GMT\n\nQueue: 0\n\nIncidents: 0\n'
    AFTER = '\nProposals: 0\n\nVehicles: 0\n\nPoints: 0\n\nOffers: 0\n\nLoans: 0\n'

    def incident(self, answered):
        """How the board of an incident ended, and what it said of it, by this answer."""
        shown = self.spoken(*EMPTY[:2], answered, answer('{"proposals":[]}'), *EMPTY[2:],
                            words=['--incident', '1'])[0]
        status, out, err = shown
        self.check('what stands before it', out[:len(self.BEFORE)], self.BEFORE)
        self.check('what stands behind it', out[-len(self.AFTER):], self.AFTER)
        return status, out[len(self.BEFORE):-len(self.AFTER)], err

    def test_an_incident(self):
        """Its calls with their notes, of which each byte that is no printable ASCII is a `?`, in
        two lines where one is too short; its turns, with each step's time after the order."""
        now = 1795588800
        note = 'one two three four five six seven eight nine ten eleven twelve thirteen '
        calls = [
            {'class': 2, 'linked': False, 'moment': now - 3725, 'needs': [1, 0, 9],
             'note': note + '\u001b[2J caf\u00e9', 'place': [400000, 299999], 'position': 99,
             'serial': 2147483647},
            {'class': 1, 'linked': True, 'moment': now - 60, 'needs': [0, 1, 0], 'note': '',
             'place': [530000, 180000], 'position': 1, 'serial': 1}]
        turns = [
            {'acknowledged': now - 3540, 'ended': now, 'hospital': now - 60, 'kind': 1,
             'left': now - 120, 'order': 2147483647, 'ordered': now - 3600, 'scene': now - 3000,
             'stood_down': False, 'vehicle': 'AMB12345'},
            {'acknowledged': now, 'ended': None, 'hospital': None, 'kind': 2, 'left': None,
             'order': 1, 'ordered': now - 36000, 'scene': None, 'stood_down': False,
             'vehicle': 'C1'},
            {'acknowledged': None, 'ended': now - 1, 'hospital': None, 'kind': 3, 'left': None,
             'order': 2, 'ordered': now - 10, 'scene': None, 'stood_down': True, 'vehicle': 'S1'}]
        shown = self.incident(history(
            calls, turns, needs=[1, 1, 9], served=[10, 1, 0], opened=now - 3725,
            first_order=now - 3600))
        self.assertEqual(shown, (0, '''
Incident 1: active
 class place          needed served              age first order
     1 TQ 30000 80000 1 1 9  10 1 0          1:02:05     1:00:00

Calls: 2
 position     serial linked place          class needed        age
       99 2147483647 -      SP 00000 99999     2 1 0 9     1:02:05
         one two three four five six seven eight nine ten eleven twelve thirtee
         n ?[2J caf??
        1          1 linked TQ 30000 80000     1 0 1 0     0:01:00

Turns: 3
 vehicle       order    ordered    read   scene    left hospital   ended   by
 AMB12345 2147483647    1:00:00 0:01:00 0:10:00 0:58:00  0:59:00 1:00:00 crew
 C1                1   10:00:00 9:59:59       -       -        -       -    -
 S1                2    0:00:10       -       -       -        - 0:00:09 desk
''', ''))
        self.assertLessEqual(max(map(len, shown[1].split('\n'))), 80)

    def test_what_became_of_an_incident(self):
        for members, shown in [({'state': 0}, 'active'), ({'state': 1}, 'closed'),
                               ({'state': 2, 'into': 2147483647}, 'merged into 2147483647'),
                               ({'state': 3}, 'unknown')]:
            status, out, _ = self.incident(history(number=2147483647, **members))
            self.check(shown, (status, out.split('\n')[1]), (0, f'Incident 2147483647: {shown}'))

    def test_an_incident_that_is_none(self):
        call_of = {'class': 2, 'linked': False, 'moment': 0, 'needs': [1, 0, 0], 'note': '',
                   'place': [530000, 180000], 'position': 1, 'serial': 1}
        for what, answered in [
                ('no incident', answer('{"calls":[],"turns":[]}')),
                ('a call without a note', history([{name: it for name, it in call_of.items()
                                                    if name != 'note'}])),
                ('a note of 121 bytes', history([call_of | {'note': 'x' * 121}])),
                ('a turn that is none', history([call_of], [{}])),
                ('a state that is none', history(state=None))]:
            self.check(what, self.incident(answered),
                       (4, f'\nIncident: {FOREIGN}\n', 'network\n'))
        whole = self.incident(history([call_of | {'note': 'x' * 120}]))
        self.check('a note of 120 bytes', whole[0], 0)

    def test_no_http(self):
        for what, said in [('another protocol', b'SSH-2.0-OpenSSH_9.6\r\n'),
                           ('no length', b'HTTP/1.1 200 OK\r\n' + DATE.encode() + b'\r\n{}'),
                           ('a length that is none',
                            b'HTTP/1.1 200 OK\r\nContent-Length: +2\r\n\r\n{}'),
                           ('two lengths', b'HTTP/1.1 200 OK\r\nContent-Length: 2\r\n'
                                           b'Content-Length: 2\r\n\r\n{}')]:
            shown = self.spoken(said)[0]
            self.check(what, shown, (4, without_tables(FOREIGN), 'network\n'))

    def test_other_answers(self):
        """Whole messages that are none of a room, in place of the first."""
        escape = '{"error":"\\u001b[2J","number":7}'
        for what, first in [('no JSON', answer('<html>')), ('no list', answer('{"queue":{}}')),
                            ('another list', answer('{"loans":[]}')),
                            ('a row that is none', answer('{"queue":[{"rank":1}]}')),
                            ('a rank that is none', answer(
                                '{"queue":[{"number":1,"rank":9,"since":0,"vehicle":""}]}')),
                            ('no date', answer('{"queue":[]}', date='')),
                            ('an error page', answer('Not here', '404 Not Found')),
                            ('an escape', answer(escape, '409 Conflict')),
                            ('a number out of range', answer(
                                '{"queue":[{"number":1,"rank":1,"since":4102444800,'
                                '"vehicle":""}]}'))]:
            status, out, err = self.spoken(first, *EMPTY[1:])[0]
            self.check(what, (status, out.split('\n')[2:5], '\x1b' in out, err),
                       (4, [f'Queue: {FOREIGN}', '', 'Incidents: 0'], False, 'network\n'))

    def test_nobody_listens(self):
        shown = board(f'127.0.0.1:{free_port()}')
        self.assertEqual(shown, (4, without_tables(UNHEARD), 'network\n'))

    def test_words(self):
        self.check('a token that is none', board('127.0.0.1:1', token='a b'),
                   (1, '', 'refused: input\n'))
        for words in [['board'], ['board', 'a'], ['board', 'a', 'b', 'c'],
                      ['board', 'a', 'b', '--token', 'c'], ['board', 'a', '--token'],
                      ['board', 'a', '--token', 'b', '--token', 'c'],
                      ['board', 'a', 'b', '--patience', '0'],
                      ['board', 'a', 'b', '--patience', '3601'],
                      ['board', 'a', 'b', '--incident', '0'],
                      ['board', 'a', 'b', '--incident', '2147483648'],
                      ['board', 'a', 'b', '--color', 'blue']]:
            status, out, err = run(*words)
            self.check(f'usage of {" ".join(words)}', [status, out, err.startswith('error: ')],
                       [2, '', True])

    def test_output_that_is_not_taken(self):
        with peer(lambda stream: stream.sendall(b''.join(EMPTY))) as (address, _), \
                open('/dev/full', 'w') as full:
            done = subprocess.run([PROGRAM, 'board', address, 'deskone1'], stdout=full,
                                  stderr=subprocess.PIPE, timeout=60)
        self.assertEqual((done.returncode, done.stderr), (4, b'network\n'))
