"""The allocator's page of examples/desks in a browser, driven by keys and clicks: over a served
room, and over a room that is played, for what is hard to come by."""
# needs: chromium chromium-driver poppler-utils sqlite3
# builds: dispatch_room
import base64
import contextlib
import http.server
import json
import re
import shutil
import signal
import subprocess
import threading
import time

from browser import Unmet, of_module, until
from pages import (PHONE, companion, nameless, repeated, sign_in, small_targets, time_of,
                   unseen_focus, weak_texts)
from room import PATIENCE, PATIENT, TestCase, ask, made, message, serving, sql

NOW = 1795608000  # the moment of the played room: 25 November 2026, noon
BROWSER = None


def setUpModule():
    global BROWSER
    BROWSER = of_module()


def show(address, token='deskone1'):
    """Signs in as a desk does, and comes to the allocator's page with its first lists."""
    BROWSER.size(1600, 900)
    sign_in(BROWSER, address, 'desk', token)
    assert until(shown), 'the page shows nothing'


# ---- what is seen on the page


def shown():
    """The number of the last round of lists that is shown, from 1."""
    return BROWSER.run('return Number(document.documentElement.dataset.shown ?? 0)')


def patiently(ask):
    """What the browser gives; it is asked again where a busy machine had no time for it."""
    for _ in range(5):
        with contextlib.suppress(Unmet):
            return ask()
    return ask()


def refresh(times=1):
    """Waits for so many rounds more that began after this."""
    wanted = BROWSER.run('return Number(document.documentElement.dataset.round)') + times
    until(lambda: shown() >= wanted)


def catch_up():
    """Waits until the lists show what this page did."""
    until(lambda: BROWSER.run("const { due, shown } = document.documentElement.dataset;"
                              "return Number(shown) >= Number(due ?? 0)"))


def words_of(css):
    """The words of an element, in one line, waited for."""
    script = "return document.querySelector(arguments[0])?.innerText.replace(/\\s+/g, ' ').trim()"
    return until(lambda: BROWSER.run(script, css)) or ''


def words_in(css):
    """The words of all such elements, once there is one."""
    BROWSER.find(css)
    return [' '.join(it.split()) for it in BROWSER.texts(css)]


def absent(wanted, css):
    """Which of these words no element has."""
    shown = BROWSER.texts(css)
    return [it for it in wanted if it not in shown]


def cells(number):
    """The cells of each row of the incident's table of this number, from 1."""
    return BROWSER.run("""return [...document.querySelectorAll(
      `#incident table:nth-of-type(${arguments[0]}) tbody tr`)].map((it) =>
      [...it.cells].map((cell) => cell.textContent));""", number)


ROWS = """return [...document.querySelectorAll(`.${arguments[0]} .lines li`)].map((it) =>
  [...it.children].map((part) => part.textContent));"""


def rows(name):
    """The lines of a list that are shown, each with its age, sign, name, words and place."""
    return BROWSER.run(ROWS, name)


# ---- a room that is played


class PlayedRoom(http.server.ThreadingHTTPServer):
    """Answers like a room, by a function of method, path and body that gives a status and a
    content; a refusal's content is its number, and without a status there is no answer. Keeps what
    it was asked, and how many requests were there at once."""
    daemon_threads = True

    def __init__(self, answer_of):
        super().__init__(('127.0.0.1', 0), PlayedAnswer)
        self.answer_of, self.port = answer_of, self.server_address[1]
        self.asked, self.at_once, self.most, self.moment = [], 0, 0, NOW
        self.lock = threading.Lock()
        threading.Thread(target=self.serve_forever, daemon=True).start()

    def handle_error(self, *_):
        """Says nothing of a companion that ended meanwhile."""


class PlayedAnswer(http.server.BaseHTTPRequestHandler):
    def do_GET(self):
        room = self.server
        body = self.rfile.read(int(self.headers.get('Content-Length', 0)))
        with room.lock:
            room.at_once += 1
            room.most = max(room.most, room.at_once)
            room.asked.append((self.command, self.path, body.decode()))
        status, content = room.answer_of(self.command, self.path, body and json.loads(body))
        with room.lock:
            room.at_once -= 1
        if status is None:
            return
        if isinstance(content, int):
            content = {'error': 'Refused', 'number': content}
        content = json.dumps(content).encode()
        self.send_response_only(status)
        self.send_header('Date', self.date_time_string(room.moment))
        self.send_header('Content-Length', str(len(content)))
        self.end_headers()
        self.wfile.write(content)

    do_POST = do_GET

    def log_message(self, *_):
        """Says nothing."""


def vehicle(name, status=1, kind=1, place=(530000, 180000), incident=None, post=None, home=1,
            left=3600):
    return {'home': home, 'incident': incident, 'kind': kind, 'place': place, 'post': post,
            'shift_end': NOW + left, 'status': status, 'vehicle': name}


def incident(number, level=2, lack=(1, 0, 0), needs=(1, 0, 0), age=60, calls=1,
             place=(530000, 180000)):
    return {'calls': calls, 'class': level, 'lack': lack, 'needs': needs, 'number': number,
            'opened': NOW - age, 'place': place}


def entry(rank, number, name='', age=600):
    return {'number': number, 'rank': rank, 'since': 0 if rank == 7 else NOW - age,
            'vehicle': name}


def loan(name, lender, borrower, until=1800, age=60, **more):
    return {'borrower': borrower, 'lender': lender, 'since': NOW - age, 'until': NOW + until,
            'vehicle': name} | more


HOSTILE = ['<img src=x onerror=alert(1)>', '</span><script>alert(1)</script>', '"><b>&lt;']


class Lists:
    """The lists of a played room, and the answers to what else it is asked; 36 to the rest."""

    def __init__(self, answers=None, **lists):
        self.is_silent = False
        self.lists = dict.fromkeys(
            ['queue', 'incidents', 'vehicles', 'points', 'offers', 'loans'], []) | lists
        self.answers = answers or {}

    def __call__(self, method, path, body):
        name = path.removeprefix('/')
        if self.is_silent:
            return None, None
        if method == 'GET' and name in self.lists:
            return 200, {name: self.lists[name]}
        found = self.answers.get(f'{method} {path}', (404, 36))
        return found(body) if callable(found) else found


def posted(room):
    """What a played room was asked to do: path and body."""
    return [it[1:] for it in room.asked if it[0] == 'POST']


def history(number, name, scene=None, note=''):
    """An incident as the paths of history give it: a second call made it urgent after the order."""
    def call(serial, level, age, **more):
        return {'class': level, 'given': number, 'linked': serial > 1, 'moment': NOW - age,
                'needs': [1, 0, 0], 'note': note, 'place': [530000, 180000], 'position': 1,
                'serial': serial} | more

    turn = {'acknowledged': NOW - 890, 'ended': None, 'hospital': None, 'incident': number,
            'kind': 1, 'left': None, 'order': 1, 'ordered': NOW - 900, 'scene': scene,
            'stood_down': False, 'vehicle': name}
    return {'calls': [call(1, 2, 1000), call(2, 1, 500)], 'class': 1, 'first_order': NOW - 900,
            'into': None, 'needs': [1, 0, 0], 'number': number, 'opened': NOW - 1000,
            'place': [530000, 180000], 'served': [1, 0, 0], 'state': 0, 'turns': [turn]}


def report(number, button, outcome, order, place=(531000, 181000)):
    """A report of a vehicle as the paths of history give it."""
    return {'button': button, 'cleared': False, 'moment': NOW - 600, 'number': number,
            'order': order, 'outcome': outcome, 'place': place, 'status': 4}


def many():
    """A room of 300 incidents and 200 vehicles in which each round finds other lists."""
    turn = [0]

    def at(number):
        return [500000 + (number * 7919 + turn[0] * 97) % 50000, 100000 + number * 104729 % 100000]

    def row(number):
        status = (number + turn[0]) % 7
        return vehicle(f'V{number}', status, number % 3 + 1, at(number + 500),
                       number + 1 if 2 <= status <= 5 else None, 5 if status == 1 else None)

    def answer_of(method, path, body):
        turn[0] += path == '/queue'
        return Lists(
            queue=[entry(1 + it % 3, it + 1, f'V{it % 200}' if it % 3 else '')
                   for it in range(300)],
            incidents=[incident(it + 1, it % 3 + 1, [(it + turn[0]) % 2, it % 2, 0], [1, 1, 0],
                                place=at(it)) for it in range(300)],
            vehicles=[row(it) for it in range(200)],
            points=[{'cover': 1, 'held': 0, 'number': it + 1, 'place': at(it)}
                    for it in range(20)])(method, path, body)

    return answer_of


# A list by its key; and for each refusal a way to it, with what is said. Of those below 0 it is the
# question for proposals that is refused.
PANELS = {'queue': '1', 'incidents': '3', 'vehicles': '5', 'loans': '6'}
REFUSALS = [
    (-1, 'incidents Enter', 'no incident'), (-2, 'incidents Enter', 'closed or merged'),
    (3, 'vehicles s Enter', 'does not hold'), (4, 'vehicles s Enter', 'is lent'),
    (5, 'vehicles s Enter', 'status'), (6, 'incidents Enter Enter', 'shift is over'),
    (7, 'incidents Enter Enter', 'no more'), (8, 'incidents n Enter', 'already serve'),
    (9, 'incidents c Enter', 'still has an order'), (10, 'incidents m Enter', 'into itself'),
    (11, 'vehicles p Enter', 'no standby point'), (12, 'vehicles l Enter', 'borrowed'),
    (13, 'vehicles l Enter', 'no other division'), (14, 'loans r Enter', 'not on loan'),
    (15, 'queue x Enter', 'cleared'), (19, 'incidents Enter Enter', 'no numbers left'),
    (22, 'loans e Enter', 'no longer there'), (30, 'incidents c Enter', 'could not read'),
    (31, 'incidents c Enter', 'too long'), (32, 'incidents c Enter', 'too long'),
    (33, 'incidents c Enter', 'does not do'), (34, 'incidents c Enter', 'does not take'),
    (36, 'incidents c Enter', 'no such thing'), (37, 'incidents c Enter', 'does not do this'),
    (38, 'incidents c Enter', 'does not know this terminal'), (39, 'incidents c Enter', 'may not'),
    (40, 'vehicles d Enter', 'Check each field'), (41, 'incidents c Enter', 'out of memory'),
    (42, 'incidents c Enter', 'failed')]

# What stands beside the queue in test_unranked.
UNRANKED = [
    ['Incident 1', 'nobody sent yet'],
    ['Incident 4', 'lacks 1 ambulance, 1 car, 1 sent'],
    ['Incident 7', 'lacks 1 ambulance, nobody is sent any longer'],
    ['No car', 'none can be sent; incidents that lack one: 1'],
    ['A2', 'at scene for long'],
    ['Incident 5', 'all vehicles have left it, not closed'],
    ['A8', f'offered to division 2, until {time_of(NOW + 1800)}: not answered'],
    ['B1', 'offered by division 2, its time is over: answer it'],
    ['B3', 'division 2 wants it back'],
    ['A7', 'recalled, division 2 has it still']]
PRINTED = ['Handover of division 1', 'in the queue: 24', 'More in the queue: 9', 'Points: 12',
           'A8: report 1 came out of turn', 'Offers and loans: 2', 'B1: lent to division 2']

COUNT_TONES = """window.tones = 0;
const { start } = AudioScheduledSourceNode.prototype;
AudioScheduledSourceNode.prototype.start = function (...given) {
  window.tones += 1;
  return start.apply(this, given);
};"""
# When each round began, in milliseconds by the page's own clock.
STARTS = """return performance.getEntriesByType('resource')
  .filter((it) => it.name.endsWith('/room/queue')).map((it) => it.startTime);"""
CUT_OFF = """return [...document.querySelectorAll('.lines')].flatMap((list) => {
  const { bottom } = list.getBoundingClientRect();
  return [...list.children].filter((it) => it.getBoundingClientRect().bottom > bottom + 1)
    .map((it) => it.textContent); });"""


class Played(TestCase):
    def show(self, answer_of, token='deskone1'):
        """A played room on the page."""
        room = PlayedRoom(answer_of)
        self.addCleanup(room.server_close)
        self.addCleanup(room.shutdown)
        show(self.enterContext(companion(room.port)), token)
        return room

    # ---- sending

    def test_two_keys(self):
        """From the queue's first line to a vehicle that is sent: two keys."""
        found = [{'breaks': False, 'distance': 312, 'kind': 1, 'vehicle': 'A1'},
                 {'breaks': True, 'distance': 5123, 'kind': 1, 'vehicle': 'A2'}]
        proposed = [found, []]
        room = self.show(Lists(
            {'GET /incidents/3/propose': lambda _: (200, {'proposals': proposed.pop(0)}),
             'POST /incidents/3/mobilise': (200, {'order': 7, 'vehicle': 'A1'}),
             'POST /vehicles/A1/standdown': (200, {'done': True})},
            queue=[entry(1, 3), entry(1, 4)], incidents=[incident(3), incident(4)]))
        BROWSER.press('Enter')
        self.check('proposals', words_in('.choice'), ['A1 ambulance, 312 m',
                                                      'A2 ambulance, 5.1 km breaks cover'])
        BROWSER.press('Enter')
        self.check_comes('what was done', lambda: words_of('.queue .said'),
                         'A1 is sent to incident 3: order 7. u takes it back: stand A1 down.')
        until(lambda: not BROWSER.is_shown('.drawer'))
        self.check('what was sent', posted(room), [('/incidents/3/mobilise', '{"vehicle":"A1"}')])
        BROWSER.press('u')
        until(lambda: len(posted(room)) > 1)
        self.check('taken back', posted(room)[1:], [('/vehicles/A1/standdown', '')])
        self.check_unanswered(room)

    def check_unanswered(self, room):
        """What got no answer is not sent again by itself."""
        before = len(posted(room))
        room.answer_of.answers['POST /incidents/3/close'] = (None, None)
        BROWSER.press('c', 'Enter')
        self.check_comes('no answer', lambda: words_of('.queue .drawer .bad').startswith(
            'No answer came.'), True)
        refresh(2)
        self.check('sent once', posted(room)[before:], [('/incidents/3/close', '')])

    def test_sent_already(self):
        """The answer to a sending is lost: a second Enter says that it was sent, and u takes it
        back. What another sent is refused as ever."""
        one = vehicle('A1')
        lists = Lists(
            {'GET /incidents/3/propose': (200, {'proposals': [
                {'breaks': False, 'distance': 1, 'kind': 1, 'vehicle': 'A1'}]}),
             'POST /incidents/3/mobilise': (None, None),
             'POST /vehicles/A1/standdown': (200, {'done': True})},
            incidents=[incident(3)], vehicles=[one])
        room = self.show(lists)
        BROWSER.press('3', 'Enter')
        until(lambda: BROWSER.is_shown('.choice'))
        BROWSER.press('Enter')
        self.check_comes('no answer', lambda: words_of('.drawer .bad').startswith(
            'No answer came.'), True)
        one |= {'status': 2, 'incident': 3}
        lists.answers['POST /incidents/3/mobilise'] = (409, 5)
        BROWSER.press('Enter')
        self.check_comes('it was sent', lambda: words_of('.incidents .said'),
                         'A1 was sent to incident 3 already. u takes it back: stand A1 down.')
        BROWSER.press('Escape', 'u')
        self.check_comes('taken back', lambda: [it[0] for it in posted(room)][2:],
                         ['/vehicles/A1/standdown'])
        BROWSER.press('3', 'Enter')
        until(lambda: BROWSER.is_shown('.choice'))
        BROWSER.press('Enter')
        self.check_comes('another refusal', lambda: words_of('.drawer .bad'),
                         "The vehicle's status does not allow this now. (5)")

    def test_divert(self):
        """A vehicle on its way is sent to the nearest other incident that lacks it by one request,
        and back by one more; where it was sent there already, nothing is asked."""
        one = vehicle('A1', 2, incident=3)
        moved = [{'order': None, 'vehicle': 'A1'}, {'order': 8, 'vehicle': 'A1'}]
        room = self.show(Lists(
            {'POST /moves': (200, {'moves': moved})}, vehicles=[one],
            incidents=[incident(3, needs=(2, 0, 0)), incident(4, place=(530100, 180000)),
                       incident(5, place=(530200, 180000))]))
        BROWSER.press('5', 'j')
        until(lambda: BROWSER.is_shown('.drawer'))
        BROWSER.press('Enter')
        self.check_comes('what was done', lambda: words_of('.vehicles .said'),
                         'A1 is sent to incident 4: order 8. u takes it back: divert A1 back to '
                         'incident 3.')
        one['incident'] = 4
        refresh()
        BROWSER.press('j')
        until(lambda: BROWSER.is_shown('.drawer'))
        BROWSER.type('4')
        BROWSER.press('Enter')
        self.check_comes('it was sent there', lambda: words_of('.vehicles .drawer .bad'),
                         'A1 was sent to incident 4 already.')
        BROWSER.press('Escape', 'u')
        self.check_comes('taken back', lambda: [json.loads(it[1]) for it in posted(room)],
                         [{'moves': [{'incident': None, 'vehicle': 'A1'},
                                     {'incident': it, 'vehicle': 'A1'}]} for it in (4, 3)])
        self.check('the path', {it[0] for it in posted(room)}, {'/moves'})

    def test_moved(self):
        """What acts at once does nothing where the list moved under the person's fingers."""
        offers = [loan(f'B{it}', 2, 1) for it in range(9)]
        accept = {f'POST /vehicles/B{it}/accept': (200, {'done': True}) for it in range(9)}
        room = self.show(Lists(accept, offers=offers, vehicles=[vehicle('A1')]))
        BROWSER.press('6', 'Home')
        moved = 'The list has just moved. Look at the line, and press again.'
        for _ in range(8):  # a machine may be too busy to press in the two seconds that are meant
            before = len(posted(room))
            del offers[0]
            until(lambda: rows('loans')[0][2] == offers[0]['vehicle'])
            BROWSER.press('a')
            if words_of('.loans .said') == moved:
                break
            catch_up()
        self.check('it is said', words_of('.loans .said'), moved)
        self.check('nothing was sent', len(posted(room)), before)
        time.sleep(2.1)
        BROWSER.press('a')
        name = offers[0]['vehicle']
        wanted = f'{name} is lent to this division. u takes it back: give {name} back.'
        self.check_comes('then it is sent', lambda: words_of('.loans .said'), wanted)

    # ---- refusals

    def test_refusals(self):
        """Each refusal that the page can meet, in words, in the list where it arose."""
        answers = Lists(
            queue=[entry(4, 9, 'A1')], incidents=[incident(3)], vehicles=[vehicle('A1')],
            offers=[loan('B1', 2, 1)])
        number = [0]

        def answer_of(method, path, body):
            if path == '/incidents/3/propose' and number[0] > 0:
                return 200, {'proposals': [{'breaks': False, 'distance': 1, 'kind': 1,
                                            'vehicle': 'A1'}]}
            is_refused = method == 'POST' or path.endswith('/propose')
            return (409, abs(number[0])) if is_refused else answers(method, path, body)

        self.show(answer_of)
        for number[0], keys, words in REFUSALS:
            name, *rest = keys.split()
            BROWSER.press(PANELS[name])
            for place, key in enumerate(rest):
                if place:
                    until(lambda: BROWSER.is_shown('.drawer'))
                BROWSER.press(key)
            shown = f'({abs(number[0])})'
            found = until(lambda: [it for it in BROWSER.texts(f'.{name} .bad') if shown in it])
            self.check(f'{number[0]} after {keys}', [words in it for it in found], [True])
            BROWSER.press('Escape')

    # ---- what is seen

    def test_pages(self):
        """Nothing is hidden: pages turn, by keys and by clicks, in the room's order."""
        wanted = [entry(1 + it // 40, it + 1, f'V{it}' if it > 39 else '') for it in range(70)]
        lists = Lists(queue=wanted)
        self.show(lists)
        names = [it['vehicle'] or f'Incident {it["number"]}' for it in wanted]
        pages = [[it[2] for it in rows('queue')]]
        count = int(BROWSER.text('.queue .page').split(' ')[-1])
        for _ in range(count - 1):
            BROWSER.press('PageDown')
            pages.append([it[2] for it in rows('queue')])
        self.check('more than one page', count > 1, True)
        self.check('all lines, once each', [it for page in pages for it in page], names)
        self.check('no line is cut off', BROWSER.run(CUT_OFF), [])
        BROWSER.press('Home')
        BROWSER.click('.queue [aria-label="Queue: next page"]')
        self.check('a click turns, too', [it[2] for it in rows('queue')], pages[1])
        selected = words_of('.queue [aria-selected=true] .what')
        del lists.lists['queue'][:3]
        refresh()
        self.check('the selected line stays', words_of('.queue [aria-selected=true] .what'),
                   selected)

    def test_unranked(self):
        """What no rank of the queue shows, by state."""
        lists = Lists(
            queue=[entry(1, 3), entry(8, 2, 'A9')],
            incidents=[incident(1, 1), incident(3, age=400),
                       incident(4, lack=(1, 1, 0), needs=(2, 1, 0)),
                       incident(5, lack=(0, 0, 0)), incident(6, lack=(0, 0, 0)),
                       incident(7, lack=(1, 0, 0), needs=(2, 0, 0))],
            vehicles=[vehicle('A1'), vehicle('A2', 3, incident=4), vehicle('A3', 2, incident=6),
                      vehicle('A8', 7), vehicle('A9', 7), vehicle('C1', 1, 2, left=-5),
                      vehicle('B3', 1, home=2)],
            offers=[loan('A8', 1, 2), loan('A9', 1, 2, age=400), loan('B1', 2, 1, until=-5)],
            loans=[loan('B3', 2, 1, recalled=True), loan('A7', 1, 2, recalled=True),
                   loan('A6', 1, 2, recalled=False)],
            answers={'GET /incidents/4': (200, history(4, 'A2', scene=NOW - 7500))})
        self.show(lists)
        until(lambda: 'A2' in [it[2] for it in rows('unranked')])
        pages, words = int(BROWSER.text('.unranked .page').split(' ')[-1] or 1), []
        BROWSER.press('2')
        for _ in range(pages):
            words += [[it[2], it[3]] for it in rows('unranked')]
            BROWSER.press('PageDown')
        self.check('what no rank shows', words, UNRANKED)
        lists.lists['incidents'][4]['calls'] = 2
        BROWSER.press('h')
        BROWSER.type('130')
        BROWSER.press('Enter', 'Home')
        refresh()
        self.check_comes('a further call', lambda: ['Incident 6', 'a further call: 2 now'] in [
            [it[2], it[3]] for it in rows('unranked')], True)
        self.check_comes('the bound that was set', lambda: [
            it for it in rows('unranked') if it[2] == 'A2'], [])

    def test_incident(self):
        """An incident's page: calls and turns; and without history what the lists know."""
        known = history(4, 'A2', scene=NOW - 100)
        known['calls'][0]['note'] = HOSTILE[1]
        answers = {'GET /incidents/4': (200, known)}
        self.show(Lists(answers, incidents=[incident(4)], vehicles=[vehicle('A2', 3, incident=4)]))
        BROWSER.press('3', 'o')
        until(lambda: BROWSER.is_shown('#incident td'))
        self.check('calls', cells(1)[0], ['1', '1', time_of(NOW - 1000), '2', '1 ambulance',
                                          'TQ 30000 80000', 'first', HOSTILE[1]])
        self.check('turns', cells(2)[0], ['A2', '1', 'ambulance', *map(time_of, [
            NOW - 900, NOW - 890, NOW - 100]), '\u2013', '\u2013', '\u2013',
            'its order does not say class 1'])
        BROWSER.press('Escape')
        self.check('the lists again', until(lambda: BROWSER.is_shown('#lists')), True)
        del answers['GET /incidents/4']
        BROWSER.press('i')
        BROWSER.type('4')
        BROWSER.press('Enter')
        until(lambda: BROWSER.is_shown('#incident td'))
        self.check_comes('without history', lambda: [it in words_of('#incident') for it in (
            'This room does not show calls', 'lacks 1 ambulance; A2 at scene')], 2 * [True])
        BROWSER.press('Escape')

    def test_exceptions(self):
        """What an exception was, by the vehicle's reports: its button, what came of it, its order,
        time, number and place. They are asked for once, and again for another exception."""
        at = time_of(NOW - 600)
        reports = [report(7, 'leave', 'skipped', 3), report(8, 'position', 'normal', 3)]
        path = '/vehicles/A1/reports'
        lists = Lists({f'GET {path}': lambda _: (200, {'reports': reports})},
                      queue=[entry(4, 7, 'A1'), entry(4, 2, 'A2')],
                      vehicles=[vehicle('A1'), vehicle('A2')])
        room = self.show(lists)
        known = ['A1', f'Leave: skipped, order 3, {at}, report 7', 'TQ 31000 81000']
        # (of A2 the room gives nothing: it has no such path)
        unknown = ['A2', 'report 2 came out of turn', 'TQ 30000 80000']
        self.check_comes('what it was', self.exceptions, [known, unknown])
        self.check_comes('the line in full', lambda: words_of('#line').startswith(
            f'A1: {known[1]}, TQ 31000 81000'), True)
        refresh(2)
        asked = [path, '/vehicles/A2/reports']
        self.check('asked for once', self.asked(room), asked)
        reports.append(report(9, HOSTILE[0], 'stale', 0, (532000, 182000)))
        lists.lists['queue'] = [entry(4, 2, 'A2'), entry(4, 9, 'A1')]
        self.check_comes('another', self.exceptions, [unknown, [
            'A1', f'{HOSTILE[0]}: stale, no order, {at}, report 9', 'TQ 32000 82000']])
        self.check('asked for again', self.asked(room), [*asked, path])
        self.check('never two at once', room.most, 1)

    def exceptions(self):
        return [it[2:] for it in rows('queue')]

    def asked(self, room):
        """The paths of reports that the room was asked for."""
        return [it[1] for it in room.asked if it[1].endswith('/reports')]

    def test_merged(self):
        """Calls and turns that came with a merged incident say so, and lead there; from there a way
        leads to where it went."""
        into, merged = history(4, 'A2'), history(7, 'A3') | {'calls': [], 'into': 4, 'state': 2}
        into['calls'][1] |= {'given': 7, 'place': [530000, 181000]}
        into['turns'] += merged['turns']
        into['turns'][1] |= {'ended': NOW - 600, 'stood_down': True}
        self.show(Lists({'GET /incidents/4': (200, into), 'GET /incidents/7': (200, merged)},
                        incidents=[incident(4)]))
        BROWSER.press('3', 'o')
        until(lambda: BROWSER.is_shown('#incident td'))
        self.check('calls', [it[6] for it in cells(1)],
                   ['first', 'linked, 1.0 km, came with incident 7'])
        self.check('turns', [it[-1] for it in cells(2)], [
            'its order does not say class 1', 'stood down, came with incident 7'])
        self.check('names', nameless(BROWSER) + repeated(BROWSER), [])
        self.check('focus', unseen_focus(BROWSER), [])
        BROWSER.click('#incident table:nth-of-type(2) a')
        self.check_comes('there', lambda: words_of('#incident h2'), 'Incident 7')
        self.check_comes('where it went', lambda: words_of('#incident .tables p'),
                         'It was merged into incident 4, and its calls with it.')
        self.check('its own turn', [it[-1] for it in cells(2)], ['stood down'])
        self.check('contrast', weak_texts(BROWSER), [])
        BROWSER.press('Tab', 'Enter')
        self.check_comes('and back', lambda: words_of('#incident h2'), 'Incident 4')
        BROWSER.press('Escape')

    def test_find(self):
        """What is found has the keys: the next one is for its line."""
        room = self.show(Lists({'POST /vehicles/A2/duty': (200, {'done': True})},
                               incidents=[incident(3)], vehicles=[vehicle('A1'), vehicle('A2', 0)]))
        for begins, text, name, line in [('1', 'a2', 'vehicles', 'A2'),
                                         ('5', '3', 'incidents', 'Incident 3')]:
            BROWSER.press(begins, '/')
            BROWSER.type(text)
            BROWSER.press('Enter')
            until(lambda: not BROWSER.is_shown('.drawer'))
            self.check_comes(f'{text}: which list has the keys', lambda: BROWSER.run(
                'return document.activeElement.id'), f'{name}-list')
            self.check_comes(f'{text}: which line',
                             lambda: words_of(f'.{name} [aria-selected=true] .what'), line)
        BROWSER.press('/')
        BROWSER.type('A2')
        BROWSER.press('Enter')
        until(lambda: not BROWSER.is_shown('.drawer'))
        BROWSER.press('d')
        until(lambda: BROWSER.is_shown('.drawer'))
        BROWSER.press('Enter')
        until(lambda: posted(room))
        self.check('the next key', [it[0] for it in posted(room)], ['/vehicles/A2/duty'])

    def test_hostile(self):
        """Nothing that came from elsewhere becomes markup."""
        offers = [loan(it, 2, 1) for it in HOSTILE]
        room = self.show(Lists(
            queue=[entry(4, 1, it) for it in HOSTILE], offers=offers,
            vehicles=[vehicle(it, 2, incident=1) for it in HOSTILE], incidents=[incident(1)],
            answers={'GET /incidents/1': (200, history(1, HOSTILE[0], note=HOSTILE[2]))}))
        self.check('names', [it[2] for it in rows('vehicles')], HOSTILE)
        BROWSER.press('s')
        self.check('a confirmation', words_of('.drawer .note'),
                   f'Stand {HOSTILE[0]} down? Its crew loses the order.')
        BROWSER.press('Enter')
        until(lambda: posted(room))
        self.check('a path is one path', posted(room)[0][0].count('/'), 3)
        BROWSER.press('Escape', '3', 'o')
        until(lambda: BROWSER.is_shown('#incident td'))
        self.check('a note', cells(1)[0][-1], HOSTILE[2])
        self.check('no markup', BROWSER.run("return document.querySelectorAll('img, li b, td b, "
                                            "script:not([type=module])').length"), 0)
        BROWSER.press('Escape')

    def test_alarm(self):
        """A class 1 to which nobody is sent sounds and shows until somebody looks."""
        lists = Lists({f'GET /incidents/{it}/propose': (200, {'proposals': []}) for it in (1, 2)},
                      incidents=[incident(5, 1, lack=(0, 0, 0)), incident(6, 2)])
        self.show(lists)
        BROWSER.run(COUNT_TONES)
        refresh()
        self.check('served, or less urgent', BROWSER.is_shown('#alarm'), False)
        lists.lists['incidents'].append(incident(1, 1))
        self.check('it shows', until(lambda: BROWSER.is_shown('#alarm')), True)
        self.check_comes('which', lambda: words_of('#alarm .words'),
                         '1 of class 1, nobody sent: oldest 1, 1:00')
        BROWSER.press('ArrowDown')
        self.check('it sounds', until(lambda: BROWSER.run('return tones') > 2), True)
        self.check('a key is no look', BROWSER.is_shown('#alarm'), True)
        BROWSER.press('v')
        self.check('somebody looks', until(lambda: not BROWSER.is_shown('#alarm')), True)
        self.check_comes('at its proposals', lambda: words_of('.incidents .drawer h3'),
                         'Send to incident 1')
        BROWSER.press('Escape')
        time.sleep(1)
        before = BROWSER.run('return tones')
        refresh(2)
        self.check('it is silent', BROWSER.run('return tones'), before)
        lists.lists['incidents'].append(incident(2, 1))
        self.check_comes('the next one', lambda: words_of('#alarm .words'),
                         '1 of class 1, nobody sent: oldest 2, 1:00')
        lists.lists['incidents'][-1]['lack'] = (0, 0, 0)
        self.check('somebody is sent', until(lambda: not BROWSER.is_shown('#alarm')), True)

    def test_rounds(self):
        """How old each list is; and what it costs the room."""
        lists = Lists({'GET /incidents/4': (200, history(4, 'A2')),
                       'POST /incidents/4/close': (200, {'done': True})},
                      incidents=[incident(4)], vehicles=[vehicle('A2', 3, incident=4)])
        room = self.show(lists)
        BROWSER.run('performance.setResourceTimingBufferSize(9999)')
        refresh(3)
        self.check_comes('new lists have no age', lambda: BROWSER.texts('.old'), 6 * [''])
        self.check('several rounds', len(self.gaps()) > 2, True)
        self.check('a round every two seconds', [it for it in self.gaps() if it < 1900], [])
        self.check('never two at once', room.most, 1)
        self.check('it only gets', {it[0] for it in room.asked}, {'GET'})
        self.check_soon()
        lists.is_silent = True
        self.check('old lists say so', until(lambda: all(
            re.fullmatch('[0-9]+:[0-9]+ old', it) for it in BROWSER.texts('.old'))), True)
        self.check('and then the page', until(lambda: BROWSER.is_shown('#stale')), True)
        self.check('in words', 'No new answer from the room since' in words_of('#stale'), True)
        lists.is_silent = False
        self.check('an answer again', until(lambda: not BROWSER.is_shown('#stale')), True)

    def gaps(self):
        """The milliseconds between the beginnings of rounds."""
        starts = BROWSER.run(STARTS)
        return [later - before for before, later in zip(starts, starts[1:])]

    def check_soon(self):
        """The lists are read anew once something was done, and not two seconds after the last."""
        for _ in range(9):  # of which some may be done just before a round begins anyway
            BROWSER.press('3', 'c')
            until(lambda: BROWSER.is_shown('.drawer'))
            BROWSER.press('Enter')
            catch_up()
            if min(self.gaps()) < 1900:
                return
        self.fail('no round began sooner')

    def test_print(self):
        """The handover: one page of A4 at 30 incidents, with all that the lists know."""
        lists = Lists(
            queue=[*(entry(1, it) for it in range(1, 16)),
                   *(entry(4, 1, f'A{it}') for it in range(9))],
            incidents=[incident(it, 1 + it % 3, calls=2, needs=(1, 1, 0)) for it in range(1, 31)],
            vehicles=[vehicle(f'A{it}', it % 8, incident=it + 1 if 2 <= it % 8 <= 5 else None)
                      for it in range(40)],
            points=[{'cover': 1, 'held': 0, 'number': it, 'place': [530000, 180000]}
                    for it in range(1, 13)],
            offers=[loan('A7', 1, 2)], loans=[loan('B1', 1, 2, recalled=True)])
        self.show(lists)
        pages, text = self.printed()
        self.check('one page of A4', pages, (1, '595.92 x 841.92 pts (A4)'))
        words = set(re.findall(r'[\w.:]+', text))
        self.check('each vehicle', [f'A{it}' for it in range(40) if f'A{it}' not in words], [])
        numbers = re.findall(r'^ *(\d+) +[123] +TQ 30000 80000 ', text, re.M)
        self.check('each incident', numbers, [str(it) for it in range(1, 31)])
        self.check('each list', [it for it in PRINTED if it not in text], [])
        lists.lists['incidents'] *= 3
        refresh()
        self.check('three times as many take more', self.printed()[0][0] > 1, True)

    def printed(self):
        """How many pages are printed and of what size, and their text."""
        paper = self.folder / 'handover.pdf'
        paper.write_bytes(base64.b64decode(patiently(BROWSER.paper)))
        about = subprocess.run(['pdfinfo', paper], capture_output=True, text=True).stdout
        text = subprocess.run(['pdftotext', '-layout', paper, '-'], capture_output=True, text=True)
        size = re.search('Page size: +(.*)', about)[1]
        return (int(re.search('Pages: +([0-9]+)', about)[1]), size), text.stdout

    # ---- for everyone

    def test_access(self):
        """Contrast, names, focus and a phone's width, with forms and without."""
        self.show(Lists(queue=[entry(1, 3)], incidents=[incident(3, 1)],
                        vehicles=[vehicle('A1'), vehicle('A2', 2)],
                        points=[{'cover': 2, 'held': 0, 'number': 1, 'place': [530000, 180000]}],
                        offers=[loan('B1', 2, 1)]))
        for scheme in 'light', 'dark':
            BROWSER.devtools('Emulation.setEmulatedMedia',
                             features=[{'name': 'prefers-color-scheme', 'value': scheme}])
            for keys in '1', '3 n', 'Escape 5 d', 'Escape ?', 'Escape':
                BROWSER.press(*keys.split())
                self.check(f'{scheme}, {keys}: contrast', weak_texts(BROWSER), [])
                if keys != 'Escape ?':  # which is a dialog, and the rest is out of reach
                    self.check(f'{scheme}, {keys}: names', nameless(BROWSER), [])
                    self.check(f'{scheme}, {keys}: one name', repeated(BROWSER), [])
        BROWSER.devtools('Emulation.setEmulatedMedia', features=[])
        self.check('focus', unseen_focus(BROWSER), [])
        self.check_keys_shown()
        BROWSER.size(*PHONE)
        BROWSER.press('5', 'l')
        self.check('no scrolling sideways', BROWSER.run(
            'return document.documentElement.scrollWidth'), PHONE[0])
        self.check('targets', small_targets(BROWSER), [])
        self.check('contrast on a phone', weak_texts(BROWSER), [])
        BROWSER.press('Escape')

    def check_keys_shown(self):
        """The keys that fit a line are seen, and ? shows all."""
        BROWSER.press('6')
        self.check_comes('keys of an offer', lambda: absent('ae', '#keys kbd'), [])
        shown = BROWSER.texts('#keys kbd')
        self.check('no keys of a loan', [it for it in 'rb' if it in shown], [])
        BROWSER.press('?')
        wanted = ['Enter', *'gjsnmcpdfxtlwaerboiuvh/?']
        self.check_comes('all keys', lambda: absent(wanted, '#help kbd'), [])
        BROWSER.press('Escape')

    def test_many(self):
        """300 incidents and 200 vehicles: what a round costs, to an order of magnitude;
        bench/desks/run says how much."""
        self.show(many())
        self.check('less than a second of a processor', BROWSER.cheapest(3, refresh) < 1, True)
        lists = ('queue', 'incidents', 'vehicles')
        self.check('counts', [words_of(f'.{it} .count') for it in lists], ['300', '300', '200'])


# ---- a served room


class Served(TestCase):
    """The room itself: each action by its key, and the tables."""

    def setUp(self):
        super().setUp()
        self.now = int(time.time())
        self.room = made(self.folder / 'room.db', 'A1,1,1,TQ303804,crewofa1',
                         'A2,1,1,TQ320804,crewofa2', 'B1,2,1,TQ600800,crewofb1')
        with serving(self.room, 1) as (port, process):
            ask(port, *[message('takerone', 'POST /call', '{"class":1,"needs":[1,0,0],'
                                f'"note":"<b>fall</b>","place":"{place}","serial":{serial}}}')
                        for serial, place in ((1, 'TQ300800'), (2, 'TQ310800'))])
            process.wait(PATIENCE)
        # Both are in the queue where nobody was sent for three minutes.
        output = sql(self.room, 'UPDATE incidents SET opened = opened - 200',
                     'UPDATE calls SET moment = moment - 200')
        assert output == '', output

    def rows(self, query):
        """What a query gives of the room's tables, copied while the program is held."""
        copy = self.folder / 'copy.db'
        self.process.send_signal(signal.SIGSTOP)
        try:
            for end in '', '-wal':
                shutil.copy(f'{self.room}{end}', f'{copy}{end}')
        finally:
            self.process.send_signal(signal.SIGCONT)
        return sql(copy, query).strip()

    def does(self, what, keys, query, wanted):
        """Keys and texts after a sign of equality, and what the tables have soon after. Enter after
        other keys is for the form that they opened; `lists` waits for those after what was done."""
        for place, key in enumerate(keys.split()):
            if key.startswith('='):
                BROWSER.type(key[1:])
            elif key == 'lists':
                catch_up()
            else:
                if key == 'Enter' and place:
                    until(lambda: BROWSER.is_shown('.drawer'))
                BROWSER.press(key)
        self.check_comes(what, lambda: self.rows(query), wanted)
        until(lambda: not BROWSER.is_shown('.drawer'))

    def asks(self, *words):
        (status, body), = ask(self.port, message(*words))
        assert status == 200, body
        return json.loads(body)

    def test_actions(self):
        """Each action by its key, from the lists to the tables."""
        with serving(self.room, 99999) as (self.port, self.process), \
                companion(self.port) as address:
            show(address)
            self.check_shifts()
            self.check_sending()
            self.check_incidents()
            self.check_points()
            self.check_lending()
            self.check_borrowing()
            self.check_reports()
            self.check_real_incident()

    def test_divert(self):
        """A divert and back, from the lists to the tables, in a room that is served with
        --history."""
        with serving(self.room, 99999, *PATIENT, '--history') as (self.port, self.process), \
                companion(self.port) as address:
            show(address)
            sent = 'SELECT callsign, incident, ord FROM assignments'
            self.does('on duty', '5 d Enter', 'SELECT status FROM vehicles WHERE home = 1', '1\n0')
            self.does('sent', 'lists Home g =1 Enter', sent, 'A1|1|1')
            self.does('diverted', 'lists Home j =2 Enter', sent, 'A1|2|2')
            self.does('that is taken back', 'lists u', sent, 'A1|1|3')
            turns = 'SELECT incident, stood_down FROM turns ORDER BY ord'
            self.check('the turns', self.rows(turns), '1|1\n2|1\n1|0')

    def check_shifts(self):
        status = 'SELECT callsign, status FROM vehicles WHERE home = 1'
        self.does('on duty', '5 d Enter', status, 'A1|1\nA2|0')
        self.does('that is taken back', 'u', status, 'A1|0\nA2|0')
        self.does('on duty again', 'd Enter', status, 'A1|1\nA2|0')
        self.does('off duty', 'lists Home f', status, 'A1|0\nA2|0')
        self.does('that is taken back, too', 'u', status, 'A1|1\nA2|0')
        self.does('the next line', 'ArrowDown d Enter', status, 'A1|1\nA2|1')
        ends = f'SELECT shift_end - {self.now} BETWEEN 43000 AND 45000 FROM vehicles WHERE home = 1'
        self.check('twelve hours where nothing else is written', self.rows(ends), '1\n1')

    def check_sending(self):
        """Both incidents are in the queue, and two keys send the nearest vehicle to the first."""
        self.check_comes('the queue', lambda: [it[1:] for it in rows('queue')],
                         [['class 1', f'Incident {it}', 'nobody sent', place]
                          for it, place in ((1, 'TQ 30000 80000'), (2, 'TQ 31000 80000'))])
        refresh()
        BROWSER.press('1')
        sent = 'SELECT callsign, incident FROM assignments'
        self.does('two keys', 'Enter Enter', sent, 'A1|1')
        self.does('stood down', '5 Home s Enter', sent, '')
        self.check('the turn', self.rows('SELECT stood_down FROM turns'), '1')
        self.does('sent by hand', 'g =2 Enter', sent, 'A1|2')
        self.does('that is taken back', 'u', sent, '')

    def check_incidents(self):
        needs = 'SELECT need1, need2, need3 FROM incidents WHERE number = 1'
        self.does('needs', '3 Home n Tab =1 Enter', needs, '1|1|0')
        self.does('that is taken back', 'u', needs, '1|0|0')
        states = 'SELECT number, state, into_number FROM incidents'
        self.does('merged', 'm Enter', states, '1|2|2\n2|0|')
        self.does('closed', 'lists Home c Enter', states, '1|2|2\n2|1|')

    def check_points(self):
        points = 'SELECT number, east, north, cover FROM points'
        self.does('a point', '4 t =7 Tab =TQ300805 Tab =1 Enter', points, '7|530000|180500|1')
        self.does('moved', 'lists t Tab =TQ301805 Enter', points, '7|530100|180500|1')
        self.does('that is taken back', 'u', points, '7|530000|180500|1')
        posts = 'SELECT callsign, post FROM vehicles WHERE home = 1'
        self.does('to a point', '5 Home p Enter', posts, 'A1|7\nA2|')
        self.does('that is taken back', 'u', posts, 'A1|\nA2|')

    def check_lending(self):
        offers = 'SELECT callsign, lender, borrower FROM offers'
        self.does('offered', 'l =2 Enter', offers, 'A1|1|2')
        self.does('that is taken back', 'u', offers, '')
        self.does('offered again', 'l =2 Enter', offers, 'A1|1|2')
        self.does('withdrawn', 'lists Home w', offers, '')
        self.does('that is taken back, too', 'u', offers, 'A1|1|2')
        self.asks('desktwo2', 'POST /vehicles/A1/accept')
        refresh()
        loans = 'SELECT callsign, borrower, recalled FROM loans'
        self.does('recalled', '6 Home r Enter', loans, 'A1|2|1')
        BROWSER.press('e', 'Enter')
        self.check_comes('a refusal', lambda: words_of('.loans .drawer .bad'),
                         'The offer is no longer there: it was withdrawn, accepted or declined. '
                         '(22)')
        BROWSER.press('Escape')
        self.asks('desktwo2', 'POST /vehicles/A1/giveback')

    def check_borrowing(self):
        end = self.now + 3600
        self.asks('desktwo2', 'POST /vehicles/B1/duty', f'{{"place":"TQ600800","until":{end}}}')
        offer = f'{{"to":1,"until":{end}}}'
        self.asks('desktwo2', 'POST /vehicles/B1/lend', offer)
        refresh()
        loans = 'SELECT callsign, lender, borrower FROM loans'
        self.does('accepted', 'Home a', loans, 'B1|2|1')
        self.does('that is taken back', 'u', loans, '')
        self.asks('desktwo2', 'POST /vehicles/B1/lend', offer)
        refresh()
        self.does('accepted again', 'Home a', loans, 'B1|2|1')
        self.does('given back', 'lists Home b Enter', loans, '')
        self.asks('desktwo2', 'POST /vehicles/B1/lend', offer)
        refresh()
        self.does('declined', 'Home e Enter', 'SELECT count(*) FROM offers', '0')

    def check_reports(self):
        self.asks('crewofa2', 'POST /report',
                  '{"button":"home","number":1,"order":0,"place":"TQ320804"}')
        self.asks('crewofa2', 'POST /report',
                  '{"button":"leave","number":2,"order":5,"place":"TQ320804"}')
        refresh()
        BROWSER.press('1')
        at = [it[3] for it in rows('queue')].index('report 2 came out of turn')
        keys = ' '.join(['Home', *at * ['ArrowDown'], 'x', 'Enter'])
        self.does('cleared', keys, 'SELECT number, cleared FROM reports', '1|0\n2|1')

    def check_real_incident(self):
        """The incident's page, as this program serves it."""
        BROWSER.press('i')
        BROWSER.type('2')
        BROWSER.press('Enter')
        wanted = ('This room does not show calls, notes and moments of an incident. '
                  'No active incident has this number.')
        self.check_comes('what it says', lambda: wanted in words_of('#incident'), True)
        BROWSER.press('Escape')
