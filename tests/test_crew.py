"""The crew's page in a browser of a phone's size, by taps and keys, over a served room and a line
that is cut: each press acts once and in order. With EVERY_PLACE the line is cut at 30 moments, for
five seconds each."""
# needs: chromium chromium-driver sqlite3
# builds: dispatch_room
import contextlib
import json
import os
import random
import re
import time

from browser import ELEMENT, Line, of_module, until
from documents import table_of_buttons
from pages import LEFT, PHONE, companion, faults_everywhere, sign_in
from room import PATIENT, TOP, TestCase, ask, call, free_port, made, message, serving, sql
from test_allocator import PlayedRoom
from test_pages import CREW, other

EVERY = 'EVERY_PLACE' in os.environ
CUTS, CUT_FOR = (30, 5.0) if EVERY else (3, 1.5)  # moments, seconds
REPORT_BYTES = 3000  # a report and its answer with what a browser sends beside them, some
RESTS = 3.2  # seconds for which the page takes no other press of a button that was pressed, some
HELD = 5  # seconds in which a press can be taken back
# A point of the Ordnance Survey's test data for OSTN15 (TP09, in London): degrees of ETRS89, and
# metres of the National Grid, here cut to 10 m as the page does.
STANDS, STANDS_AT = (51.48936564950, -0.11992557180), (530620, 178380)
MAPPED = 51.503991, -0.128354  # TQ 30000 80000 by PROJ, as NATIONAL_GRID of test_taker has it
BUTTONS = ['position', 'mobile', 'scene', 'leave', 'hospital', 'return', 'home']
OUTCOMES = ['normal', 'skipped', 'wrong', 'late', 'stale']
YEAR_BEGAN = 1767225600  # 2026, from whose seconds a page that knows no number begins
# The greatest number of the reports that are shown, and of those that the page has given.
SHOWN_LAST = """return Math.max(0, ...[...document.querySelectorAll('#reports li')].map((it) =>
  Number(it.dataset.number)));"""
GIVEN_LAST = """return new Promise((resolve) => {
  const request = indexedDB.open('desks outbox');
  request.onsuccess = () => {
    const store = request.result;
    const last = store.transaction('last').objectStore('last').get('/report crewofa1');
    last.onsuccess = () => { store.close(); resolve(last.result.number); };
  };
});"""
# Whether the newest note is in sight; and the buttons whose words are not seen whole.
IN_SIGHT = """
const main = document.querySelector('main').getBoundingClientRect();
const note = [...document.querySelectorAll('#order li')].find((it) =>
  it.textContent.includes(String(innerWidth)));
const box = note?.getBoundingClientRect();
return Boolean(box) && box.top >= main.top - 1 && box.bottom <= main.bottom + 1;
"""
CUT = """
return [...document.querySelectorAll('#buttons button')].filter((it) =>
  it.scrollHeight > it.clientHeight).map((it) => it.textContent);
"""
# What a page does to be heard and felt, counted.
COUNTED = """Object.assign(window, { buzzes: 0, tones: 0, screen: 'off', mayStart: false });
navigator.vibrate = () => { buzzes += 1; };
navigator.wakeLock.request = async () => {
  screen = 'on';
  return { release: async () => { screen = 'off'; } };
};
OscillatorNode.prototype.start = () => { tones += 1; };
OscillatorNode.prototype.stop = () => {};
const { resume } = AudioContext.prototype;
AudioContext.prototype.resume = function () {
  return resume.call(this).then(() => { mayStart = true; });
};"""
BROWSER = None


def setUpModule():
    global BROWSER
    BROWSER = of_module(*PHONE)


# ---- a room, its pages, and a line between them and the browser


class Watched:
    """A stream that is read, until an answer to a report comes that its line shall lose."""

    def __init__(self, reader, line):
        self.reader, self.line = reader, line

    async def read(self, count):
        piece = await self.reader.read(count)
        if self.line.loses and b'"outcome"' in piece:
            self.line.loses = False
            self.line.break_all()
            return b''
        return piece


class Losing(Line):
    """A line that can be cut as the answer to a report comes, which nobody then hears."""
    loses = False

    async def pump(self, reader, writer):
        return await super().pump(Watched(reader, self), writer)


class Served(TestCase):
    words = PATIENT  # of the room

    def setUp(self):
        super().setUp()
        self.file = made(self.folder / 'room.db', 'A1,1,1,TQ303804,crewofa1')
        self.room_port = free_port()
        self.room = self.enterContext(contextlib.ExitStack())
        self.serve()
        port = free_port()
        self.enterContext(companion(self.room_port, listen=f'127.0.0.2:{port}'))
        self.line = self.enterContext(Losing(('127.0.0.2', port), port))
        self.address = f'http://localhost:{port}/'
        self.pressed, self.last_press = [], {}
        BROWSER.stand_at(*STANDS)

    def serve(self):
        self.room.enter_context(serving(self.file, 99999, *self.words, port=self.room_port))

    # -- the others in the room

    def ask(self, token, line, body=''):
        """The body of the answer to one message, which goes past the line."""
        (status, body), = ask(self.room_port, message(token, line, body))
        assert status == 200, body
        return json.loads(body)

    def go_on_duty(self):
        self.ask('deskone1', 'POST /vehicles/A1/duty',
                 f'{{"place":"TQ303804","until":{int(time.time()) + 3600}}}')

    def mobilise(self, incident=1):
        self.ask('deskone1', f'POST /incidents/{incident}/mobilise', '{"vehicle":"A1"}')

    def send_out(self):
        """A vehicle on duty, and its first order."""
        self.go_on_duty()
        ask(self.room_port, call(1))
        self.mobilise()

    def report(self, number, button='position', order=0):
        """A report that another page sends."""
        return self.ask('crewofa1', 'POST /report', json.dumps({
            'button': button, 'number': number, 'order': order, 'place': 'TQ300800'},
            separators=(',', ':')))

    # -- the crew

    def sign_in(self):
        self.check('signed in', sign_in(BROWSER, self.address, 'crew', 'crewofa1'), True)
        self.check('the room is heard', bool(until(lambda: BROWSER.text('#status'))), True)
        BROWSER.find('[data-button]:enabled')
        until(self.is_placed)

    def is_placed(self):
        return BROWSER.text('#fix').startswith('By the phone')

    def is_kept(self):
        """Whether the browser has the page's files."""
        return BROWSER.run("return navigator.serviceWorker.getRegistration('/desks/crew.html')"
                           ".then((it) => Boolean(it?.active) && caches.open('desks crew'))"
                           ".then((it) => it && it.keys()).then((it) => it.length > 5)")

    def tap(self, button):
        """Presses a button as soon as the page takes it again, and waits until it is kept."""
        time.sleep(max(0, self.last_press.get(button, 0) + RESTS - time.monotonic()))
        before = BROWSER.run(SHOWN_LAST)
        BROWSER.click(f'[data-button={button}]:enabled')
        self.last_press[button] = time.monotonic()
        self.pressed.append(button)
        until(lambda: BROWSER.run(SHOWN_LAST) > before)

    def latest(self):
        """What stands of the latest press, once all are shown and it is answered."""
        def line_of_last():
            shown = BROWSER.texts('#reports li')
            is_whole = (len(shown) >= min(len(self.pressed), 20)
                        and 'Not sent yet' not in shown[0])
            return shown[0].split('\n') if is_whole else None
        return until(line_of_last)

    def waits(self, words):
        """Whether the page comes to say so of what is not sent yet."""
        return until(lambda: BROWSER.text('#waiting').startswith(words))

    def is_all_sent(self):
        return until(lambda: not BROWSER.text('#waiting'))

    # -- what became of it

    def reports(self, columns='button, outcome'):
        """What the table of reports has, once the room has ended."""
        self.room.close()
        return sql(self.file, f'SELECT {columns} FROM reports ORDER BY number').splitlines()

    def check_once(self, words=''):
        """Each press stands in the table once and in order, and acted as the table of buttons has
        it: none came late."""
        rows = [it.split('|') for it in self.reports('button, outcome, number, moment')]
        self.check(f'each press once, in order{words}', [BUTTONS[int(it[0])] for it in rows],
                   self.pressed)
        self.check(f'none late, wrong or stale{words}', [it for it in rows if int(it[1]) > 1], [])
        moments = [int(it[3]) for it in rows]
        self.check(f'as they were pressed{words}', moments, sorted(moments))


# ---- the table of buttons


def outcomes():
    """What RULES.md says of each button at each status, by the status' words."""
    table = table_of_buttons((TOP / 'docs' / 'RULES.md').read_text())
    return {words: {button.lower(): it for button, it in row.items()}
            for (_, words), row in table.items()}


TABLE = outcomes()


# What a button says of itself where the table calls it so, and which one is large at a status.
NOTES = {'skipped': 'skips a button', 'wrong': 'does not fit now'}
LARGE = {'at scene': 'leave', 'leaving': 'hospital', 'at hospital': 'return', 'returning': 'home'}


def notes_at(status, is_acknowledged=True):
    """What is said of each button that is not normal."""
    cells = dict(TABLE[status])
    if status == 'mobilised' and not is_acknowledged:
        cells['scene'] = 'skipped'
    return {it: NOTES[cells[it]] for it in BUTTONS if cells[it] in NOTES}


def notes():
    said = BROWSER.run("return [...document.querySelectorAll('#buttons button')]"
                       ".map((it) => [it.dataset.button, it.querySelector('small').textContent])")
    return {button: words for button, words in said if words in NOTES.values()}


def large():
    """The button that stands out; none where that is empty."""
    return BROWSER.run("return [...document.querySelectorAll('#buttons .main')]"
                       ".map((it) => it.dataset.button).join()")


def places(css='#buttons button'):
    """Where the buttons stand on the screen."""
    return BROWSER.run("return [...document.querySelectorAll(arguments[0])].map((it) => {"
                       "const { x, y, width, height } = it.getBoundingClientRect();"
                       "return [x, y, width, height]; })", css)


class Turn(Served):
    def check_buttons(self, status, is_acknowledged=True):
        """The status in words, what the table says of each button, and which one is large."""
        self.check_comes('the status', lambda: BROWSER.text('#status'), status)
        self.check_comes(f'the buttons: {status}', notes, notes_at(status, is_acknowledged))
        wanted = LARGE.get(status, '')
        if status == 'mobilised':
            wanted = 'scene' if is_acknowledged else 'mobile'
        self.check_comes(f'large: {status}', large, wanted)
        self.check(f'no word is cut: {status}', BROWSER.run(CUT), [])

    def test_turn(self):
        """A whole turn, each button once, from off duty to home."""
        self.check('the table has eight statuses', len(TABLE), 8)
        self.sign_in()
        self.check_buttons('off duty')
        stand = places()
        self.send_out()
        self.check_buttons('mobilised', False)
        self.check_comes('the order', lambda: BROWSER.text('#order').split('\n'),
                         ['New order: press Mobile.', 'Class 2', 'Order 1', 'Map',
                          'TQ 30000 80000', 'Incident 1 of division 1'])
        self.check('a map of it', [abs(float(it) - wanted) < 0.00001 for it, wanted in zip(
            re.fullmatch(r'geo:([-.0-9]+),([-.0-9]+)\?q=.*', BROWSER.run(
                "return document.querySelector('#order a').href")).groups(), MAPPED)],
            [True, True])
        sizes = BROWSER.run("return [...document.querySelectorAll('body, body *')].map((it) => "
                            "[parseFloat(getComputedStyle(it).fontSize), it.className])")
        self.check('in the largest letters', [max(sizes)[1], max(sizes)[0] >= 40], ['loud', True])
        for button, status in [('mobile', 'mobilised'), ('scene', 'at scene'), ('leave', 'leaving'),
                               ('hospital', 'at hospital'), ('return', 'returning'),
                               ('home', 'available')]:
            self.tap(button)
            self.check(f'{button} is shown', self.latest()[1], f'Taken: you are {status}.')
            self.check_buttons(status)
            self.check(f'the buttons stand where they stood: {status}', places(), stand)
        self.ask('deskone1', 'POST /vehicles/A1/lend',
                 f'{{"to":2,"until":{int(time.time()) + 3600}}}')
        self.check_buttons('offered')
        east, north = STANDS_AT
        self.check('the table', self.reports('button, ord, east, north, outcome'),
                   [f'{BUTTONS.index(it)}|1|{east}|{north}|0' for it in self.pressed])

    def test_post(self):
        self.go_on_duty()
        self.ask('deskone1', 'POST /points/4', '{"cover":1,"place":"TQ300800"}')
        self.ask('deskone1', 'POST /vehicles/A1/standby', '{"point":4}')
        self.sign_in()
        self.check_comes('no order', lambda: BROWSER.text('#order').split('\n'),
                         ['No order', 'Wait at standby point 4.'])

    def test_two_taps(self):
        """A finger that taps twice presses once, also at once after the phone's clock was set back;
        and trouble moves nothing under it."""
        self.send_out()
        self.sign_in()
        stand = places()
        BROWSER.run('const now = Date.now; Date.now = () => now() - 3600000')
        self.tap_twice('mobile', 150)
        self.check_comes('it rests', lambda: BROWSER.run(
            "return document.querySelector('[data-button=mobile] small').textContent"), 'pressed')
        self.check('taken', self.latest()[1], 'Taken: you are mobilised.')
        self.tap_twice('scene', 850)
        self.check('taken, too', self.latest()[1], 'Taken: you are at scene.')
        self.check('once each', len(BROWSER.all('#reports li')), 2)
        self.line.cut()
        self.check('trouble is said', bool(until(lambda: BROWSER.text('#trouble'))), True)
        self.check('and nothing moves', places(), stand)
        self.line.mend()
        self.check_once()

    def tap_twice(self, button, milliseconds):
        move = {'type': 'pointerMove', 'duration': 0, 'origin': {
            ELEMENT: BROWSER.find(f'[data-button={button}]')}, 'x': 0, 'y': 0}
        taps = 2 * [{'type': 'pointerDown', 'button': 0}, {'type': 'pointerUp', 'button': 0},
                    {'type': 'pause', 'duration': milliseconds}]
        BROWSER.act({'type': 'pointer', 'id': 'finger', 'actions': [move, *taps]})
        self.pressed.append(button)

    def test_take_back(self):
        """A press is sent after five seconds, and taken back before. (The page's clock is stopped
        meanwhile, for a busy machine may take as long.)"""
        self.send_out()
        self.sign_in()
        BROWSER.run('window.clock = performance.now.bind(performance); const now = clock();'
                    'performance.now = () => now')
        self.tap('scene')
        self.check_comes('it is shown', lambda: BROWSER.text('#held p'), 'Scene is sent in 5 s.')
        BROWSER.click('#back')
        self.pressed.pop()
        self.check_comes('it is gone', lambda: BROWSER.all('#reports li'), [])
        self.check_comes('large again', large, 'mobile')
        BROWSER.run('performance.now = clock')
        began = time.monotonic()
        self.tap('mobile')
        self.latest()
        self.check('not sooner', time.monotonic() - began >= HELD, True)
        self.check('nothing can be taken back', BROWSER.is_shown('#back'), False)
        self.check_once()


# ---- what became of it, in words


class Words(Served):
    def test_outcomes(self):
        self.send_out()
        self.sign_in()
        for button, what, words in [
                ('scene', 'skipped', 'Taken: you are at scene. A button before it was left out; '
                 'your desk sees that.'),
                ('mobile', 'wrong', 'Not taken: it does not fit, for you are at scene. '
                 'Your desk sees that.')]:
            self.tap(button)
            self.check(what, self.latest()[1], words)
        self.check('the order is no new one', 'New order' in BROWSER.text('#order'), False)
        first = self.number()
        self.tap('position')
        self.latest()
        until(lambda: time.time() > YEAR_BEGAN + first + 4)
        self.report(first + 3)
        self.tap('position')
        self.check('late', self.latest()[1], 'Not taken: a report with a later number came before '
                   'it. Your desk sees that. Press it again where it still holds.')
        until(lambda: BROWSER.run(GIVEN_LAST) > first + 3)
        self.tap('position')
        self.check('not late again', self.latest()[1], 'Taken: you are at scene.')
        self.check('the table', [OUTCOMES[int(it)] for it in self.reports('outcome')],
                   ['skipped', 'wrong', 'normal', 'late', 'normal', 'normal'])

    def number(self):
        """The number of the latest press."""
        return int(self.latest()[0].split('number ')[1])

    def test_sign_out(self):
        """Signing out is refused while something waits, and leaves nothing of the terminal."""
        self.send_out()
        self.sign_in()
        self.room.close()
        self.tap('mobile')
        self.leave()
        self.check_comes('it is refused', lambda: BROWSER.text('#refused'), 'The crew is not '
                         'signed out: what waits to be sent would be lost (1). Open its page until '
                         'the room has answered.')
        self.serve()
        BROWSER.open(f'{self.address}desks/crew.html')
        self.check('it is sent', self.latest()[1], 'Taken: you are mobilised.')
        self.leave()
        self.check_comes('signed out', lambda: BROWSER.all('#signed li'), [])
        self.check('nothing is left', [it for it in ('crewofa1', 'TQ') if it in BROWSER.run(LEFT)],
                   [])
        self.check_once()

    def leave(self):
        BROWSER.open(f'{self.address}desks/index.html#crew')
        BROWSER.click('#signed button')

    def test_stood_down(self):
        self.send_out()
        self.sign_in()
        self.ask('deskone1', 'POST /vehicles/A1/standdown')
        self.check_comes('it is said', lambda: BROWSER.text('#order').split('\n'),
                         ['Stood down: order 1 was taken away.', 'No order'])
        self.check_comes('the status', lambda: BROWSER.text('#status'), 'returning')

    def test_stale(self):
        """An order that was taken back and given again while the crew heard nothing."""
        self.send_out()
        self.sign_in()
        self.line.cut()
        self.tap('mobile')
        self.check('it waits, and is not answered', until(
            lambda: 'Not sent yet' in ''.join(BROWSER.texts('#reports li')[:1])), True)
        self.ask('deskone1', 'POST /vehicles/A1/standdown')
        self.mobilise()
        self.line.mend()
        self.check('stale', self.latest(), ['Mobile at TQ30627838, order 1, number ' +
                   self.latest()[0].split('number ')[1],
                   'Not taken: it is about an order that you no longer have. Your desk sees that.'])
        self.check('the new order', until(lambda: 'Order 2' in BROWSER.text('#order')), True)
        self.tap('mobile')
        self.check('and it is taken', self.latest()[1], 'Taken: you are mobilised.')
        self.check('the table', self.reports('ord, outcome'), ['1|4', '2|0'])

    def test_used_number(self):
        """A number that another page used is passed over, in words, and the press acts once."""
        self.send_out()
        self.sign_in()
        self.tap('mobile')
        first = self.number()
        self.report(first + 1)
        self.tap('scene')
        self.check('taken, in words', self.latest()[1], 'Taken: you are at scene. The number '
                   f"{first + 1} was another report\u2019s, and was passed over.")
        self.check('the table', self.reports('number - %d, button, outcome' % first),
                   ['0|1|0', '1|0|0', '2|2|0'])

    def test_unknown_terminal(self):
        """A room that does not know the crew says so; what was pressed waits for one that does."""
        self.send_out()
        self.sign_in()
        self.room.close()
        other = made(self.folder / 'other.db', 'A2,1,1,TQ303804,crewofa2')
        with serving(other, 99999, port=self.room_port):
            words = 'The room does not know this terminal. Sign in with its token.'
            self.check_comes('in words', lambda: BROWSER.text('#trouble'), words)
            self.tap('mobile')
            self.check('it waits', self.waits('1 button is not'), True)
        self.serve()
        self.check('it is taken', self.latest()[1], 'Taken: you are mobilised.')
        self.check('no trouble is left', until(lambda: not BROWSER.text('#trouble')), True)
        self.check_once()


# ---- where it is


class Place(Served):
    def test_by_hand(self):
        self.send_out()
        self.sign_in()
        for typed, words in [('TX300800', 'A place begins with TQ, TL, SU or SP.'),
                             ('TQ3008', 'A place has six, eight or ten digits.'),
                             ('TQ3x0800', 'After its two letters a place has digits only.')]:
            BROWSER.click('#hand')
            BROWSER.press('Control+a')
            BROWSER.type(typed)
            self.check(f'{typed}: at once', BROWSER.text('#fault'), words)
            BROWSER.click('[data-button=mobile]:enabled')
            self.check_comes(f'{typed}: not pressed', lambda: BROWSER.text('#refused'),
                             f'Not pressed, for the place is missing. {words}')
            self.check(f'{typed}: the keys are at the place',
                       BROWSER.run('return document.activeElement.id'), 'hand')
        BROWSER.press('Control+a')
        BROWSER.type('tq 303 804')
        self.tap('mobile')
        self.latest()
        self.tap('scene')
        self.latest()
        BROWSER.click('#place button')  # the order's place
        self.tap('leave')
        self.latest()
        east, north = STANDS_AT
        self.check('by hand once, then the phone, then a tap', self.reports('east, north'),
                   ['530300|180400', f'{east}|{north}', '530000|180000'])

    def test_without_a_position(self):
        self.send_out()
        self.sign_in()
        BROWSER.stand_at(55.9486, -3.1999)  # Edinburgh
        words = 'The phone is outside of the squares TQ, TL, SU and SP. Type the place.'
        self.check_comes('outside', lambda: BROWSER.text('#fix'), words)
        BROWSER.click('[data-button=mobile]:enabled')
        self.check_comes('not pressed', lambda: BROWSER.text('#refused'),
                         f'Not pressed, for the place is missing. {words}')
        BROWSER.devtools('Browser.setPermission', permission={'name': 'geolocation'},
                         setting='denied')
        BROWSER.open(f'{self.address}desks/crew.html')
        words = 'This page may not use the phone\u2019s position. Type the place.'
        self.check_comes('not allowed', lambda: BROWSER.text('#fix'), words)
        self.check('nothing was sent', self.reports(), [])


# ---- a network that comes and goes


class Network(Served):
    def test_cuts(self):
        """A line that is cut at random moments, now, at some byte, or as an answer comes, while the
        crew presses before, meanwhile and after."""
        self.send_out()
        self.sign_in()
        seed = random.randrange(1 << 32)
        dice = random.Random(seed)
        turn = iter(['mobile', 'scene', 'leave', 'hospital', 'return', 'home'])
        for _ in range(CUTS):
            time.sleep(dice.uniform(0, 1))
            how = dice.choice(['now', 'at a byte', 'as an answer comes'])
            if how == 'as an answer comes':
                self.line.loses = True
            else:
                self.line.cut(None if how == 'now' else dice.randrange(1, REPORT_BYTES))
            self.tap(next(turn, 'home'))
            self.tap('position')
            time.sleep(CUT_FOR)
            self.line.loses = False
            self.line.mend()
            if dice.random() < 0.5:
                self.tap('position')
        self.check(f'all are sent (seed {seed})', self.is_all_sent(), True)
        self.check_once(f' (seed {seed})')

    def test_lost_answer(self):
        """The room has done it and the answer is lost: the same is sent again, and done once."""
        self.send_out()
        self.sign_in()
        self.line.loses = True
        self.tap('scene')
        self.check('it was done', until(self.is_at_scene), True)
        self.check('and not heard', self.waits('1 button is not'), True)
        self.tap('position')
        self.check_comes('two wait, with their age', lambda: len(self.ages()), 2)
        self.check_comes('which grows', self.has_grown, True)
        self.line.mend()
        self.latest()
        self.check_once()

    def ages(self):
        """For how many seconds those have waited that are not sent yet, the latest first."""
        found = [re.search(r'Not sent yet, waits (\d+):(\d\d)\.$', it)
                 for it in BROWSER.texts('#reports li')]
        return [60 * int(it[1]) + int(it[2]) for it in found if it]

    def has_grown(self):
        later, first = self.ages()
        return first > later >= 2

    def is_at_scene(self):
        return self.ask('crewofa1', 'GET /order')['status'] == 3

    def test_silence(self):
        """What is shown says that it is old, and since when."""
        self.send_out()
        self.sign_in()
        self.line.cut()
        said = until(lambda: BROWSER.text('#trouble'))
        self.check('in words', re.sub(r'\d:\d\d', 'AGE', said),
                   'No answer from the room for AGE: what you see is as old as that.')
        self.check('the order stays', 'Order 1' in BROWSER.text('#order'), True)
        self.line.mend()
        self.check('and then no longer', until(lambda: not BROWSER.text('#trouble')), True)

    def test_closed_page(self):
        """A page that is closed in the middle goes on when it is opened, also without a network."""
        self.send_out()
        self.sign_in()
        self.check('its files are kept', until(self.is_kept), True)
        first = BROWSER.send('GET', '/window')
        other = BROWSER.tab('about:blank')
        BROWSER.turn_to(first)
        self.line.loses = True
        self.tap('mobile')
        until(lambda: self.line.is_cut)
        self.tap('scene')
        self.check('two wait', self.waits('2 buttons are not'), True)
        BROWSER.close(first, then=other)
        second = BROWSER.tab(f'{self.address}desks/crew.html')
        BROWSER.stand_at(*STANDS)
        self.check('it opens without a network', until(
            lambda: 'Order 1' in BROWSER.text('#order')), True)
        self.check('both wait', self.waits('2 buttons are not'), True)
        self.check_comes('what is large is as they will be', large, 'leave')
        until(self.is_placed)
        self.tap('leave')
        self.check('all three wait', self.waits('3 buttons are not'), True)
        BROWSER.close(second, then=other)
        self.line.mend()
        BROWSER.open(f'{self.address}desks/crew.html')
        self.check('all are sent', [bool(self.latest()), self.is_all_sent()], [True, True])
        self.check_once()

    def test_two_tabs(self):
        """Two pages of one crew: each press has a number of its own, and acts once."""
        self.send_out()
        self.sign_in()
        one = BROWSER.send('GET', '/window')
        two = BROWSER.tab(f'{self.address}desks/crew.html')
        BROWSER.stand_at(*STANDS)
        until(self.is_placed)
        self.line.cut()
        for nth, button in enumerate(['mobile', 'scene', 'leave', 'hospital', 'return', 'home']):
            BROWSER.turn_to((one, two)[nth % 2])
            until(lambda count=nth: len(BROWSER.all('#reports li')) == count)
            self.tap(button)
        until(lambda: len(BROWSER.all('#reports li')) == 6)
        self.line.mend()
        for it in (one, two):
            BROWSER.turn_to(it)
            self.check('all are sent', self.is_all_sent(), True)
            self.check('all are shown', len(BROWSER.all('#reports li')), 6)
        BROWSER.close(two, then=one)
        self.check_once()


class Reopened(Served):
    def open_again(self):
        """The page, opened again without a network."""
        BROWSER.open(f'{self.address}desks/crew.html')
        until(lambda: len(BROWSER.all('#reports li')) >= len(self.pressed))

    def check_shown(self, what, status, wanted):
        self.check_comes(f'{what}: the status', lambda: BROWSER.text('#status'), status)
        self.check_comes(f'{what}: large', large, wanted)

    def test_each_status(self):
        """Opened again without a network at each status, with and without a press that waits, the
        page shows what the room would say."""
        self.send_out()
        self.sign_in()
        until(self.is_kept)
        turn = [('mobile', 'mobilised', 'scene'), ('scene', 'at scene', 'leave'),
                ('leave', 'leaving', 'hospital'), ('hospital', 'at hospital', 'return'),
                ('return', 'returning', 'home'), ('home', 'available', '')]
        status, following = 'mobilised', 'mobile'
        for button, then, after in turn:
            self.line.cut()
            self.open_again()
            self.check_shown(status, status, following)
            until(self.is_placed)
            self.tap(button)
            self.open_again()
            self.check_shown(f'{status}, {button}', f'{then}, not sent yet', after)
            self.line.mend()
            self.latest()
            status, following = then, after
            self.check_shown(f'{then}, sent', then, after)
        ask(self.room_port, call(2, 'TQ400800'))
        self.mobilise(2)
        self.check_shown('another order', 'mobilised', 'mobile')
        self.line.cut()
        self.open_again()
        self.check_shown('another order, opened again', 'mobilised', 'mobile')
        self.check_comes('it is the order', lambda: 'Order 2' in BROWSER.text('#order'), True)
        self.line.mend()
        self.check_once()

    def test_home_withheld(self):
        """Home that was pressed before an order came does not end it."""
        self.send_out()
        self.sign_in()
        for button in ('scene', 'return'):
            self.tap(button)
        self.latest()
        self.line.cut()
        self.tap('home')
        ask(self.room_port, call(2, 'TQ400800'))
        self.mobilise(2)
        self.line.mend()
        self.check('it is not sent', self.latest()[1], 'Not sent: order 2 came before it.')
        self.check_shown('the order', 'mobilised', 'mobile')
        self.check('the room has it', self.ask('crewofa1', 'GET /order')['status'], 2)
        self.pressed.pop()
        self.check('the table', self.reports('button'), [str(BUTTONS.index(it))
                                                         for it in self.pressed])


# ---- the job


class Asking(TestCase):
    def test_no_path(self):
        """A room that has no jobs is not asked for one again at once, but for the order."""
        room = PlayedRoom(other(**CREW))
        self.addCleanup(room.server_close)
        self.addCleanup(room.shutdown)
        sign_in(BROWSER, self.enterContext(companion(room.port)), 'crew', 'crewofa1')

        def asked():
            return [it[1] for it in room.asked if it[1] in ('/job', '/order')]
        until(lambda: len(asked()) > 3)
        self.check('signed in by the order', asked()[:4], ['/order', '/job', '/order', '/order'])
        self.check('it is shown', 'TQ 30000 80000' in BROWSER.text('#order'), True)


class Job(Served):
    words = [*PATIENT, '--history']

    def call(self, serial, level, note, place='TQ3203480467'):
        self.ask('takerone', 'POST /call', json.dumps({
            'class': level, 'needs': [1, 0, 0], 'note': note, 'place': place, 'serial': serial},
            ensure_ascii=False, separators=(',', ':')))

    def send_out(self):
        self.go_on_duty()
        self.call(7, 3, '<b>flat 12b</b>, "key code" 4711')
        self.mobilise()

    def check_order(self, what, *wanted):
        self.check_comes(what, lambda: BROWSER.text('#order').split('\n'), list(wanted))

    def see(self):
        """Taps Seen, once the page takes it."""
        until(lambda: BROWSER.click('#order button') or not BROWSER.is_shown('#order button'))

    def test_job(self):
        """The crew is told its incident's class and the notes of its calls, and what came since it
        saw them is marked until it says so, also where the page is opened again."""
        self.send_out()
        self.sign_in()
        until(self.is_kept)
        stand = places()
        where = 'TQ 32034 80467', 'Incident 1 of division 1'
        first = '<b>flat 12b</b>, "key code" 4711'
        self.check_order('a new order', 'New order: press Mobile.', 'Class 3', 'Order 1', 'Map',
                         *where, first)
        self.call(3, 1, 'no pulse')
        self.call(9, 2, '')
        graver = 'Class 1', 'New: was class 3', 'Order 1', 'Map', *where
        self.check_order('a graver call', 'New order: press Mobile.', *graver, 'New: no pulse',
                         first, 'Seen')
        self.check('nothing moved', places(), stand)
        self.tap('mobile')
        self.latest()
        self.line.cut()
        BROWSER.open(f'{self.address}desks/crew.html')
        self.check_order('opened again, without a network', *graver, 'New: no pulse', first, 'Seen')
        self.see()
        seen = 'Class 1', 'was class 3', 'Order 1', 'Map', *where
        self.check_order('seen', *seen, 'no pulse', first)
        self.check('the keys stay', BROWSER.run('return document.activeElement.id'), 'order')
        BROWSER.open(f'{self.address}desks/crew.html')
        self.check_order('and opened again', *seen, 'no pulse', first)
        self.call(8, 3, 'he breathes')
        self.line.mend()
        self.check_order('a further call', *seen, 'no pulse', first, 'New: he breathes', 'Seen')
        self.tap('scene')
        self.tap('return')
        self.latest()
        self.check_order('over', 'No order')
        self.check_comes('nothing of it is kept', lambda: 'flat 12b' in BROWSER.run(LEFT), False)

    def test_tap_too_soon(self):
        """A tap just after something came, which nobody can have seen, says nothing."""
        self.send_out()
        self.sign_in()
        BROWSER.run('const now = performance.now(); performance.now = () => now')
        self.call(8, 3, 'no pulse')
        BROWSER.click('#order button')
        self.check('it stays marked', BROWSER.texts('#order .look'),
                   ['New order: press Mobile.', 'New: no pulse'])

    def test_other_order(self):
        """Of another order the page shows its own notes, and none of the one before."""
        self.send_out()
        self.sign_in()
        until(self.is_kept)
        self.line.cut()
        self.ask('deskone1', 'POST /vehicles/A1/standdown')
        self.call(8, 2, 'a fall', 'TQ400800')
        self.mobilise(2)
        BROWSER.open(f'{self.address}desks/crew.html')
        self.check_comes('as it was kept', lambda: 'flat 12b' in BROWSER.text('#order'), True)
        self.check_comes('and since when', lambda: BROWSER.text('#trouble').startswith(
            'No answer from the room for 0:'), True)
        self.line.mend()
        self.check_order('the new one', 'Stood down: order 1 was taken away.',
                         'New order: press Mobile.', 'Class 2', 'Order 2', 'Map', 'TQ 40000 80000',
                         'Incident 2 of division 1', 'a fall')

    def test_no_history_then(self):
        """A room that has no notes any longer: the page goes on with the order."""
        self.send_out()
        self.sign_in()
        self.check_comes('a note', lambda: 'flat 12b' in BROWSER.text('#order'), True)
        self.room.close()
        self.words = PATIENT
        self.serve()
        self.check_order('none', 'New order: press Mobile.', 'Class 3', 'Order 1', 'Map',
                         'TQ 32034 80467', 'Incident 1 of division 1')
        self.tap('mobile')
        self.check('and it is taken', self.latest()[1], 'Taken: you are mobilised.')

    def test_notice(self):
        """A new order, a change and a stand-down sound and vibrate once each, and the screen stays
        on while there is an order."""
        self.go_on_duty()
        self.sign_in()
        BROWSER.run(COUNTED)
        BROWSER.click('h1')  # a page may sound after a tap
        self.check_comes('it may sound', lambda: BROWSER.run('return mayStart'), True)
        self.call(7, 3, 'a fall')
        for what, act, wanted in [
                ('an order', self.mobilise, [1, 3, 'on']),
                ('a graver call', lambda: self.call(3, 1, 'no pulse'), [2, 6, 'on']),
                ('its own press', lambda: self.tap('mobile'), [2, 6, 'on']),
                ('a stand-down', lambda: self.ask('deskone1', 'POST /vehicles/A1/standdown'),
                 [3, 9, 'off'])]:
            act()
            self.check_comes(what, lambda: BROWSER.run('return [buzzes, tones, screen]'), wanted)
        self.check_order('it is said', 'Stood down: order 1 was taken away.', 'No order')
        BROWSER.open(f'{self.address}desks/crew.html')
        self.check_order('and opened again', 'Stood down: order 1 was taken away.', 'No order')
        until(self.is_placed)
        self.tap('home')
        self.check_order('until they say where they are', 'No order')

    def test_everyone(self):
        self.send_out()
        self.sign_in()
        self.call(3, 1, 'W' * 120)
        self.check_comes('marked', lambda: BROWSER.is_shown('#order button'), True)
        self.check('contrast, names, targets, focus', faults_everywhere(BROWSER), [])
        for size in (360, 640), (844, 390), PHONE:
            BROWSER.size(*size)
            self.call(size[0], 2, f'a note at {size[0]} pixels')
            self.check_comes(f'{size}: it is in sight', lambda: BROWSER.run(IN_SIGHT), True)


# ---- for everyone


class Everyone(Served):
    def test_everyone(self):
        self.send_out()
        self.sign_in()
        self.tap('scene')
        self.latest()
        self.tap('mobile')
        self.latest()
        self.line.cut()
        self.tap('position')
        until(lambda: BROWSER.text('#trouble'))
        self.check('contrast, names, targets, focus', faults_everywhere(BROWSER), [])
        BROWSER.size(*PHONE)
        self.line.mend()
        until(lambda: not BROWSER.text('#trouble'))
        BROWSER.run('scrollTo(0, 0)')
        bottoms = "return ['#order .loud', '#buttons .main'].map((it) => " \
                  "document.querySelector(it).getBoundingClientRect().bottom)"
        self.check_comes('order and button are seen at once', lambda: [
            it <= PHONE[1] for it in BROWSER.run(bottoms)], [True, True])

    def test_by_keys(self):
        """The focus stays on the button that was pressed, wherever it then stands."""
        self.send_out()
        self.sign_in()
        BROWSER.run("document.querySelector('[data-button=mobile]').focus()")
        BROWSER.press('Enter')
        self.pressed.append('mobile')
        self.latest()
        self.check_comes('the focus', lambda: BROWSER.run(
            'return document.activeElement.dataset.button'), 'mobile')
        self.check_once()
