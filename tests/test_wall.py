"""The wall of examples/wall in a browser: over a served room, over a room that stops, and over a
room that is played, with hostile names."""
# needs: chromium chromium-driver
# builds: dispatch_room
import json
import re
import subprocess
import sys
import threading
import time
import urllib.error
import urllib.request

import walls
from browser import OPENER, of_module, until
from pages import contrast
from room import PATIENCE, PATIENT, TestCase, ask, call, fleet_of, free_port, message, run, serving
from walls import NOW, WALL, incident, played, report, vehicle, wall

TOKENS = ['deskone1', 'desktwo2', 'takerone', 'crewofa1', 'crewofb1']
# Three hours ahead of UTC, which no other clock here is.
ZONE, AHEAD = 'XYZ-3', 3 * 3600
ROWS = ['what,number,a,b,c,d', f'zone,0,{ZONE},,,', 'area,1,500000,100000,549999,199999',
        'area,2,550000,100000,599999,199999', 'desk,1,deskone1,,,', 'desk,2,desktwo2,,,',
        'position,1,takerone,,,']
BROWSER = None


def setUpModule():
    global BROWSER
    BROWSER = of_module()


def plan_in(folder):
    plan = folder / 'plan.csv'
    plan.write_text('\n'.join(ROWS) + '\n')
    return plan


# ---- what is seen on the page


def pictures():
    return walls.pictures(BROWSER)


def refresh(times):
    walls.refresh(BROWSER, times)


# The middle of a vehicle's dot or of an incident's, in metres by the edges of division 1's area.
PLACE = """
const area = document.querySelector('.areas [data-division="1"]').getBoundingClientRect();
const dot = document.querySelector(`.dots [data-name="${arguments[0]}"]`)
  .getBoundingClientRect();
return [500000 + 50000 * (dot.x + dot.width / 2 - area.x) / area.width,
  200000 - 100000 * (dot.y + dot.height / 2 - area.y) / area.height];
"""
MARK = """
const mark = document.querySelector(`.mark[data-name="${arguments[0]}"]`);
return mark && [mark.classList.value, ...[...mark.querySelectorAll('text')]
  .filter((it) => it.getBoundingClientRect().width > 0).map((it) => it.textContent),
  mark.querySelector('title').textContent];
"""
LINES = "return [...document.querySelectorAll('.sent line')].map((it) => " \
        "[it.dataset.name, it.dataset.to])"
# Of each queue its head, and of each of its entries the texts in the order of ENTRY.
QUEUES = """
const texts = (nodes) => [...nodes].map((it) => it.textContent);
return [...document.querySelectorAll('.queue')].map((it) => [it.querySelector('thead').textContent,
  ...[...it.querySelectorAll('tbody tr')].map((entry) => texts(entry.querySelectorAll('span')))]);
"""
ENTRY = ['class', 'who', 'place', 'why', 'time']
TIME = r'\d\d:\d\d:\d\d'
WARNING = """
const box = document.querySelector('#stale'), main = document.querySelector('main');
const sizeOf = (it) => parseFloat(getComputedStyle(it).fontSize);
const others = ['h1', 'th', 'th *', 'td *', 'li', 'li *', 'button', 'button *', '#clock', 'small']
  .flatMap((it) => [...document.querySelectorAll(it)]).map(sizeOf);
const {filter, opacity} = getComputedStyle(main);
return {shown: box.getBoundingClientRect().height > 0, words: box.querySelector('p').innerText,
  why: box.querySelector('small').textContent, filter, opacity,
  isLargest: sizeOf(box.querySelector('p')) > Math.max(...others),
  marks: document.querySelectorAll('.mark').length};
"""


# The colour of each thing, and of the ground that it stands on.
COLOURS = """
const groundOf = (node) => {
  const {backgroundColor} = getComputedStyle(node);
  return backgroundColor === 'rgba(0, 0, 0, 0)' ? groundOf(node.parentNode) : backgroundColor;
};
return arguments[0].flatMap((it) => [...document.querySelectorAll(it)]).map((it) =>
  [getComputedStyle(it).color, groundOf(it)]);
"""


def is_near(seen, wanted, metres=300):
    return all(abs(one - other) <= metres for one, other in zip(seen, wanted))


def warning():
    return BROWSER.run(WARNING)


# ---- a served room


class Served(TestCase):
    def setUp(self):
        super().setUp()
        self.plan, self.room = plan_in(self.folder), self.folder / 'room.db'
        run('init', self.room, self.plan)
        fleet = self.folder / 'fleet.csv'
        fleet.write_text(fleet_of('A1,1,1,TQ303804,crewofa1', 'B1,2,2,TQ600800,crewofb1'))
        run('import', self.room, fleet)
        self.port = free_port()

    def serving(self):
        """The room, served at the same port each time."""
        return serving(self.room, 9999, *PATIENT, '--history', port=self.port)

    def asks(self, *words):
        """The body of the answer to one message."""
        (status, body), = ask(self.port, message(*words))
        assert status == 200, body
        return json.loads(body)

    def test_served(self):
        with self.serving():
            tab = self.check_proposed()
            self.check_mobilised()
            self.check_reported()
            self.check_queues()
            others = self.other_pages()
            BROWSER.turn_to(tab)
        self.check_stopped(time.time())
        with self.serving():
            self.check_comes('an answer again, and nothing grey any longer', lambda: [
                warning()[it] for it in ('shown', 'filter')], [False, 'none'])
        for other, why in others:
            BROWSER.turn_to(other)
            self.check_comes(why, lambda: self.seen_of(warning()), [True, why, True])
            BROWSER.close(other, then=tab)

    def seen_of(self, seen):
        return [seen['shown'], seen['why'], seen['marks'] > 0]

    def other_pages(self):
        """Two more pages that get nothing new from now on, each with what it has to say."""
        with wall(played(self, small_room).port, self.plan, 1) as address:
            left = BROWSER.tab(address)
            until(pictures)
        is_broken = []

        def answer_of(token, what):
            given = small_room(token, what)
            return [None] if is_broken and what == 'vehicles' else given

        address = self.enterContext(wall(played(self, answer_of).port, self.plan, 1))
        broken = BROWSER.tab(address)
        until(pictures)
        is_broken.append(True)
        return [(left, "The wall's own server does not answer."),
                (broken, 'The page can not draw what the room answers.')]

    def check_proposed(self):
        """A vehicle on duty and a call, as the page first shows them; gives its tab."""
        self.asks('deskone1', 'POST /vehicles/A1/duty',
                  f'{{"place":"TQ303804","until":{int(time.time()) + 3600}}}')
        ask(self.port, call(1, 'TQ400600'))
        address = self.enterContext(wall(self.port, self.plan))
        tab = BROWSER.open(address)
        self.check('a first picture', bool(until(
            lambda: BROWSER.run(MARK, 'vehicles A1'))), True)
        self.check('an available vehicle', BROWSER.run(MARK, 'vehicles A1')[:3],
                   ['mark vehicle status-1', 'A', 'A1'])
        self.check('a vehicle that is off duty', BROWSER.run(MARK, 'vehicles B1')[:3],
                   ['mark vehicle status-0', '\u2013', 'B1'])
        self.check('its place', is_near(BROWSER.run(PLACE, 'vehicles A1'), (530300, 180400)), True)
        self.check('an incident, and what it lacks', BROWSER.run(MARK, 'incidents 1/1')[:4],
                   ['mark incident class-2 short', '2', '1', '1'])
        self.check('nobody is sent', BROWSER.run(LINES), [])
        return tab

    def check_mobilised(self):
        proposed = self.asks('deskone1', 'GET /incidents/1/propose')['proposals'][0]['vehicle']
        self.asks('deskone1', 'POST /incidents/1/mobilise', f'{{"vehicle":"{proposed}"}}')
        self.check_comes('a mobilised vehicle', lambda: BROWSER.run(MARK, 'vehicles A1')[:3],
                         ['mark vehicle status-2', 'M', 'A1'])
        self.check('it is sent', BROWSER.run(LINES), [['vehicles A1', 'incidents 1/1']])
        self.check('the incident is served', BROWSER.run(MARK, 'incidents 1/1')[:3],
                   ['mark incident class-2 served', '2', '1'])

    def check_reported(self):
        self.reported = time.time()
        self.asks('desktwo2', 'POST /points/7', '{"cover":2,"place":"TQ700500"}')
        self.asks('crewofb1', 'POST /report',
                  '{"button":"home","number":4,"order":0,"place":"TQ610800"}')
        for number, button, place in [(1, 'mobile', 'TQ350700'), (2, 'scene', 'TQ401602')]:
            self.asks('crewofa1', 'POST /report', f'{{"button":"{button}","number":{number},'
                                                  f'"order":1,"place":"{place}"}}')
        self.check_comes('a vehicle at the scene', lambda: BROWSER.run(MARK, 'vehicles A1')[:3],
                         ['mark vehicle status-3', 'S', 'A1'])
        seen = BROWSER.run(MARK, 'vehicles A1')
        self.check('its new place', is_near(BROWSER.run(PLACE, 'vehicles A1'), (540100, 160200)),
                   True)
        wanted = 'A1, ambulance of division 1: at scene at TQ 401 602, sent to incident 1'
        self.check('the words under the pointer', seen[-1].split(', shift')[0], wanted)

    def check_queues(self):
        seen = []

        def queues():
            seen[:] = BROWSER.run(QUEUES)
            return [[head, *([*it[:3], re.sub(TIME, 'TIME', it[3])] for it in entries)]
                    for head, *entries in seen]
        self.check_comes('queues, one where nothing waits', queues, [
            ['Division 1nothing waits'],
            ['Division 22', ['\u2013', 'B1', 'TQ 610 800', 'Home: wrong, no order, TIME, report 4'],
             ['\u2013', 'Point 7', 'TQ 700 500', 'short of cover']]])
        _, (_, report, point) = seen
        self.check('what has no moment has no wait', point[4], '')
        minutes, seconds = re.fullmatch('([0-9]+):([0-5][0-9])', report[4]).groups()
        self.check('what has one', 60 * int(minutes) + int(seconds)
                   <= time.time() - self.reported + 1, True)
        self.check('a point', BROWSER.run(MARK, 'points 2/7')[:3], ['mark point short', '7', '0/2'])
        self.check_comes('nothing is wrong', lambda: warning()['shown'], False)

    def check_stopped(self, stopped):
        before = warning()['marks']
        self.check_comes('a stopped room is shown, and why', lambda: self.seen_of(warning()),
                         [True, 'It takes no connection.', True])
        seen = warning()
        found = re.fullmatch('NO ANSWER FROM THE ROOM SINCE ([0-9:]{8})',
                             ' '.join(seen['words'].split()))
        self.check('its words', found is not None, True)
        second = int(stopped + AHEAD) % 86400
        hours, minutes, seconds = map(int, found[1].split(':'))
        apart = abs(second - (hours * 3600 + minutes * 60 + seconds))
        self.check('since when, by the clock of the plan', min(apart, 86400 - apart) <= PATIENCE,
                   True)
        self.check('it is the largest', seen['isLargest'], True)
        self.check('the rest is grey', ['grayscale(1)' in seen['filter'], seen['opacity']],
                   [True, '0.7'])
        self.check('the last picture stays', [before, seen['marks']], [4, 4])


# ---- a room that is played


HOSTILE = ['<img src=x onerror=alert(1)>', '</title><script>alert(1)</script>', '"><b>', '&lt;']


def exception(number):
    return {'number': number, 'rank': 4, 'since': NOW - 600, 'vehicle': 'V3'}


def small_room(token, what):
    """A room with a vehicle of each status, names that are no callsigns, and a queue."""
    if token != 'deskone1':
        return []
    vehicles = [vehicle(f'V{it}', it, it % 3 + 1, incident=2 if it == 1 else None)
                for it in range(8)]
    waits = [(2, 3, 600, 'V2'), (6, 0, 50, 'V1'), (7, 4, NOW, ''), (4, 9, 4000, 'V3'),
             (1, 1, 200, '')]
    return {
        'vehicles': vehicles + [vehicle(it) for it in HOSTILE],
        'incidents': [incident(it, level=it) for it in (1, 2, 3)],
        'points': [],
        'queue': [{'number': number, 'rank': rank, 'since': NOW - age, 'vehicle': name}
                  for rank, number, age, name in waits]
        + [{'number': 1, 'rank': 4, 'since': NOW, 'vehicle': it} for it in HOSTILE],
    }[what]


class Played(TestCase):
    def show(self, answer_of):
        """A played room on the page."""
        room = played(self, answer_of)
        address = self.enterContext(wall(room.port, plan_in(self.folder)))
        return room, address

    def test_words(self):
        room, address = self.show(small_room)
        BROWSER.size(1280, 720)
        BROWSER.open(address)
        until(pictures)
        BROWSER.press('Space', '0')  # no turning, and the first page
        BROWSER.run('window.kept = document.querySelector(".vehicle")')
        refresh(1)
        self.check('nodes are kept', BROWSER.run('return kept.isConnected'), True)
        names = BROWSER.run("return [...document.querySelectorAll('.vehicle .name')]"
                            ".map((it) => it.textContent)")
        self.check('names stay text', names[8:], HOSTILE)
        self.check('no name is markup', BROWSER.run(
            "return document.querySelectorAll('img, b b, svg script, title ~ title').length"), 0)
        self.check_queue()
        self.check_marks()
        self.check_type()
        self.check_widths()
        self.check('it only gets', {it.split(' ')[0] for it in room.heads}, {'GET'})
        self.check('each connection is closed',
                   all('\r\nConnection: close\r\n' in it for it in room.heads), True)
        self.check('never two at once', room.overlaps, 0)

    def check_queue(self):
        # (a warning, as a busy machine may bring, takes room from lines while it is there)
        self.check_comes('its head, and the order of the room, with class, place and wait',
                         lambda: BROWSER.run(QUEUES)[0][:6], ['Division 19',
            ['3', 'V2', 'TQ 300 800', 'order not acknowledged, incident 3', '10:00'],
            ['2', 'V1', 'TQ 300 800', 'shift is over', '0:50'],
            ['\u2013', 'Point 4', 'place not known', 'short of cover', ''],
            ['\u2013', 'V3', 'TQ 300 800', 'report 9 came out of turn', '1 h 06'],
            ['1', 'Incident 1', 'TQ 300 800', 'nobody sent', '3:20']])

    def check_marks(self):
        letters = [BROWSER.run(MARK, f'vehicles V{it}')[1] for it in range(8)]
        self.check('a letter for each status', len(set(letters)), 8)
        outlines = "return [...document.querySelectorAll('.vehicle.mark .shape')]" \
                   ".map((it) => it.getAttribute('d'))"
        self.check('an outline for each kind', len(set(BROWSER.run(outlines))), 3)
        figures = [BROWSER.run(MARK, f'incidents 1/{it}')[1] for it in (1, 2, 3)]
        self.check('a figure for each class', figures, ['1', '2', '3'])
        overlaps = BROWSER.run("""
            const all = [...document.querySelectorAll('.mark')]
              .map((it) => it.getAttribute('transform'));
            return all.length - new Set(all).size;""")
        self.check('no mark lies on another', overlaps, 0)

    def check_type(self):
        heights = BROWSER.run("""
            return ['.who', '.time', '.why', '.place', '.class', '.page', '.vehicle .name',
              '#clock'].map((it) => {
              const node = document.querySelector(it);
              const scale = node.getCTM?.().a ?? 1;
              return scale * parseFloat(getComputedStyle(node).fontSize) / innerHeight; });""")
        self.check('letters are large', [it for it in heights if it <= 0.025], [])
        colours = BROWSER.run(COLOURS, ['.who', '.time', '.why', '.place', '.class', '.page', 'th',
                                        'h1', '#counts', '#counts b', '.count', '#clock'])
        colours += BROWSER.run("""
            const fill = (node) => getComputedStyle(node).fill;
            return [...document.querySelectorAll('.vehicle.mark')].slice(0, 8).map((it) =>
              ['.letter', '.shape'].map((part) => fill(it.querySelector(part))));""")
        ratios = [contrast(*it) for it in colours]
        self.check('contrast is at least 7', [it for it in ratios if it < 7], [])

    def check_widths(self):
        boxes = "return ['#side', '#map'].map((it) => document.querySelector(it)" \
                ".getBoundingClientRect()).map((it) => [it.left, it.top])"
        (left, top), (map_left, map_top) = BROWSER.run(boxes)
        self.check('a wide window: the queue beside the map', [left > map_left, top == map_top],
                   [True, True])
        BROWSER.size(520, 900)
        (left, top), (map_left, map_top) = BROWSER.run(boxes)
        self.check('a narrow one: the queue first', [left == map_left, top < map_top],
                   [True, True])
        BROWSER.size(1280, 720)

    def test_exceptions(self):
        """What an exception was, by the vehicle's reports: its button, what came of it, its order,
        time, number and place. They are asked for once, and again for another exception."""
        lists = {'vehicles': [vehicle('V3', 3)], 'incidents': [], 'points': [],
                 'queue': [exception(9), exception(11)]}
        known = [report(9), report(10, 'position', 'normal'),
                 report(11, HOSTILE[0], 'stale', 0, (532000, 182000))]

        def answer_of(token, what):
            return [] if token != 'deskone1' else {**lists, 'vehicles/V3/reports': known}[what]

        room, address = self.show(answer_of)
        BROWSER.open(address)
        at = f'{11 + AHEAD // 3600}:50:00'
        wanted = [['TQ 310 810', f'Leave: skipped, order 1, {at}, report 9'],
                  ['TQ 320 820', f'{HOSTILE[0]}: stale, no order, {at}, report 11']]
        self.check_comes('each exception', self.exceptions, wanted)
        refresh(2)
        self.check('asked for once', self.asked(room), ['/vehicles/V3/reports'])
        known.append(report(12, 'scene', 'late', 7))
        lists['queue'] = [exception(11), exception(12)]
        self.check_comes('another', self.exceptions, [
            wanted[1], ['TQ 310 810', f'Scene: late, order 7, {at}, report 12']])
        self.check('asked for again', self.asked(room), 2 * ['/vehicles/V3/reports'])

    def exceptions(self):
        """Places and words of the entries of the first queue, once there is one."""
        return [it[2:4] for _, *entries in BROWSER.run(QUEUES)[:1] for it in entries]

    def asked(self, room):
        """The paths of reports that the room was asked for."""
        return [path for path in (it.split(' ')[1] for it in room.heads) if 'reports' in path]

    def test_answers(self):
        """What the wall's server gives to whoever asks, and what it costs the room."""
        room, address = self.show(small_room)
        files = [it.name for it in WALL.parent.glob('*.*') if it.suffix in ('.html', '.css', '.js')]
        paths = ['', 'picture', *files]
        others = ['wall.py', 'README.md', 'wall.cfg', 'vehicles', '../plan.csv',
                  'picture?token=deskone1', 'http://127.0.0.1/queue']
        fetched = {it: fetch(address + it) for it in paths + others}
        self.check('what is there', [it for it in fetched if fetched[it][0] == 200], paths)
        self.check('what is not', {fetched[it][0] for it in others}, {404})
        whole = ''.join(f'{head}{body}' for _, head, body in fetched.values())
        self.check('no token leaves', [it for it in TOKENS if it in whole], [])
        self.check('only its own scripts', [it for it, (_, head, _) in fetched.items()
                                            if "default-src 'none'; script-src 'self'" not in head],
                   [])
        self.check('another host', fetch(address, {'Host': 'room.example'})[0], 403)
        self.check('POST', fetch(address + 'picture', {}, b'{}')[0], 501)
        # Each desk's four lists; and once the reports of each vehicle with an exception.
        first = 8 + 1 + len(HOSTILE)
        self.check_comes('one picture of two desks', lambda: len(room.heads), first)
        time.sleep(2.3)
        self.check('without a page nothing', len(room.heads), first)
        began = time.monotonic()
        pages = [threading.Thread(target=fetch, args=[address + 'picture']) for _ in range(20)]
        for page in pages:
            page.start()
        for page in pages:
            page.join()
        # They come within two seconds, but on a busy machine later.
        most = 1 + int((time.monotonic() - began) / 2)
        self.check_comes('twenty pages cost one picture, or one each two seconds',
                         lambda: len(room.heads) in range(first + 8, first + 8 + 8 * most, 8), True)
        self.check('never two at once', room.overlaps, 0)

    def refused(self, *words):
        """What the command says that serves no wall."""
        done = subprocess.run([sys.executable, WALL, *words], stdin=subprocess.DEVNULL,
                              capture_output=True, timeout=PATIENCE)
        said = (done.stdout + done.stderr).decode()
        self.check(f'{words} are refused, and no token is said',
                   [done.returncode, [it for it in TOKENS if it in said]], [2, []])
        return said

    def test_words_of_the_command(self):
        plan, here = plan_in(self.folder), '127.0.0.1:0'
        for room, file, division, listen, why in [
                ('127.0.0.1:9', plan, '1', '0.0.0.0:0', 'no address of loopback'),
                ('127.0.0.1:9', plan, '1', '192.0.2.1:0', 'no address of loopback'),
                ('192.0.2.1:80', plan, '1', here, 'no address of loopback'),
                ('127.0.0.1:9', plan, '3', here, 'no desk of division 3'),
                ('127.0.0.1:9', WALL, '1', here, 'is no plan')]:
            said = self.refused(room, file, division, '--listen', listen)
            self.check(why, why in said, True)

    def test_open_plan(self):
        """Tokens come from the plan's file. Where others may read that, the wall says so."""
        plan = plan_in(self.folder)
        for mode, wanted in [(0o600, False), (0o640, True), (0o604, True)]:
            plan.chmod(mode)
            said = self.refused('127.0.0.1:9', plan, '3')
            self.check(f'mode {mode:o}', f'{plan} has tokens, and others may read it' in said,
                       wanted)


def fetch(url, fields=None, body=None):
    """The status, the head and the content of an answer of the wall."""
    request = urllib.request.Request(url, body, fields or {})
    try:
        with OPENER.open(request, timeout=PATIENCE) as answer:
            return answer.status, str(answer.headers), answer.read().decode()
    except urllib.error.HTTPError as answer:
        return answer.code, str(answer.headers), answer.read().decode()
