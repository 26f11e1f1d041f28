"""The call taker's page in a browser, by keys and clicks, over a served room and a line that is
cut: each call acts once. Also the modules below all pages: places, words of refusals. With
EVERY_PLACE the line is cut at 30 moments, for five seconds each, and 2,000 places are read."""
# needs: chromium chromium-driver proj-bin sqlite3
# builds: dispatch_room
import contextlib
import json
import os
import random
import re
import subprocess
import time

from browser import Line, of_module, until
from pages import LEFT, PHONE, companion, faults_everywhere, sign_in
from room import PATIENT, TOP, TestCase, ask, call, free_port, made, message, serving, sql

EVERY = 'EVERY_PLACE' in os.environ
CUTS, CUT_FOR = (30, 5.0) if EVERY else (5, 1.2)  # moments, seconds
CALL_BYTES = 2600  # a call and its answer as the browser and the companion send them, some
BROWSER = None


def setUpModule():
    global BROWSER
    BROWSER = of_module(1280, 720)


# Whether the page has all that it asks for as it opens.
IS_LOADED = """const names = performance.getEntriesByType('resource').map((it) => it.name);
return ['/room/last', '/data/areas.json', '/data/places.json'].every((path) =>
  names.some((it) => it.endsWith(path)));"""
# Fields and labels that cover one another.
COVERING = """
const shown = [...document.querySelectorAll('label, input, textarea, button')]
  .filter((it) => it.checkVisibility()).map((it) => [it, it.getBoundingClientRect()]);
const covers = ([one, a], [other, b]) => !one.contains(other) && !other.contains(one)
  && a.left < b.right && b.left < a.right && a.top < b.bottom && b.top < a.bottom;
return shown.flatMap((one, nth) => shown.slice(nth + 1).filter((it) => covers(one, it))
  .map(([other]) => [one[0], other].map((it) => it.outerHTML.slice(0, 60))));
"""
DRAWN = '#map .areas *'  # what it draws last as it opens
# Why a browser keeps no call, and in which method of its store that comes; and what makes it fail.
UNKEPT = [('IDBObjectStore', 'add', 'The disk is full.'),
          ('IDBDatabase', 'transaction', 'The database connection is closing.')]
FAILS = """const [owner, method, why] = arguments, { prototype } = window[owner];
const { [method]: was } = prototype;
window.mend = () => { prototype[method] = was; };
prototype[method] = () => { throw new DOMException(why, 'InvalidStateError'); };"""


class Keys:
    """Types and counts the keys beside texts."""

    def __init__(self):
        self.count = 0

    def text(self, text):
        BROWSER.type(text)

    def press(self, *names):
        self.count += len(names)
        BROWSER.press(*names)


def send_call(place, level='2', note='', needs=None):
    """Fills the form by keys from the place on and sends it; gives how many keys it took."""
    until(lambda: BROWSER.run('return document.activeElement.id') == 'place')
    keys = Keys()
    keys.text(place)
    keys.press('Tab', level, 'Tab')
    for it in needs or ():
        keys.press(str(it), 'Tab')
    if not needs:
        keys.press('Tab', 'Tab', 'Tab')
    keys.text(note)
    keys.press('Enter')
    return keys.count


def answer(wanted, count=1):
    """The answer in large letters, once so many calls are kept and it is as wanted; what stands
    there where it does not come."""
    until(lambda: kept() >= count and BROWSER.text('#answer').startswith(wanted))
    return BROWSER.text('#answer').split('\n')


def kept():
    """How many calls the page shows, which it has kept by then."""
    return len(BROWSER.all('#calls li'))


def is_all_answered(count):
    """Whether so many calls come to be kept, and none waits."""
    return until(lambda: kept() >= count and BROWSER.text('#waiting') == '')


def passed_over():
    return [it for it in BROWSER.texts('#calls .bad') if it]


class Served(TestCase):
    """A room, its pages, and a line between them and the browser."""

    def setUp(self):
        super().setUp()
        self.file = made(self.folder / 'room.db')
        self.stack = self.enterContext(contextlib.ExitStack())
        self.room_port, _ = self.stack.enter_context(serving(self.file, 99999))
        port = free_port()
        self.enterContext(companion(self.room_port, listen=f'127.0.0.2:{port}'))
        self.line = self.enterContext(Line(('127.0.0.2', port), port))
        self.address = f'http://localhost:{port}/'

    def sign_in(self, last='0'):
        """Signs the position in; the room has no history, so its last serial is typed."""
        self.check('signed in', sign_in(BROWSER, self.address, 'taker', 'takerone'), True)
        self.check('the last serial is asked for', until(lambda: BROWSER.is_shown('#start')), True)
        BROWSER.click('#last')
        BROWSER.type(last)
        BROWSER.press('Enter')
        until(lambda: not BROWSER.is_shown('#start'))
        BROWSER.find(DRAWN)

    def calls(self, columns):
        """What the table of calls has, once the room has ended."""
        self.stack.close()
        return sql(self.file, f'SELECT {columns} FROM calls ORDER BY serial').splitlines()


class Calls(Served):
    def test_calls(self):
        self.sign_in()
        count = send_call('mill lane br', '1', 'man fallen', [2, 0, 1])
        self.check('division and incident', answer('NEW')[:2], ['NEW', 'Division 1, incident 1'])
        self.check('ten keys beside the text', count <= 10, True)
        self.check('the keys are back at the place',
                   BROWSER.run('return document.activeElement.id'), 'place')
        send_call('tq 306 8151')
        self.check_comes('a place that is none', lambda: BROWSER.text('#place-says'),
                         'A place has six, eight or ten digits.')
        BROWSER.press('Control+a')
        send_call('tq 3060 8151', '2', 'the same')
        self.check('linked', answer('LINKED', 2)[:1], ['LINKED'])
        large = BROWSER.run("return parseFloat(getComputedStyle("
                            "document.querySelector('#answer .loud')).fontSize)")
        self.check('in large letters', large >= 40, True)
        self.check('the table', self.calls('serial, division, incident, linked, east, north, '
                                           'class, need1, need2, need3, note'),
                   ['1|1|1|0|530600|181500|1|2|0|1|man fallen',
                    '2|1|1|1|530600|181510|2|1|0|0|the same'])

    def test_places(self):
        """A name that is found as one types, by words; the second by an arrow; the map."""
        self.sign_in()
        BROWSER.type('mill')
        names = ['Mill Lane Bridge · TQ 306 815', 'Hope & Anchor, Mill Lane · TQ 305 812']
        self.check_comes('names by words', lambda: BROWSER.texts('#found li'), names)
        BROWSER.press('ArrowDown', 'Enter')
        value = 'return document.querySelector("#place").value'
        self.check_comes('the second', lambda: BROWSER.run(value), 'Hope & Anchor, Mill Lane')
        BROWSER.click_at('#map', 0, 0)  # the middle of two areas of 50 km by 100 km
        found = until(lambda: re.fullmatch(r'TQ (\d{5}) (\d{5})', BROWSER.run(value)))
        self.check('a click on the map', [abs(int(it) - 50000) < 2000 for it in found.groups()],
                   [True, True])
        self.check_comes('and its division', lambda: BROWSER.text('#place-says'),
                         f'{found[0]}, division 1')
        BROWSER.press('Control+a')
        BROWSER.type('TL 300 804')
        self.check_comes('a place outside', lambda: BROWSER.text('#place-says'),
                         'TL 30000 80400 lies in no division.')

    def test_note(self):
        """What a person typed is shown as it is and counted in bytes."""
        self.sign_in()
        note = '<img src=x onerror=alert(1)> "\'&amp; <b>é😀</b>'
        BROWSER.click('#note')
        for text, words in [('', '120 of 120 bytes left'), ('é', '118 of 120 bytes left'),
                            ('😀', '114 of 120 bytes left'), ('x' * 114, '0 of 120 bytes left'),
                            ('é', '2 bytes too long')]:
            BROWSER.type(text)
            self.check_comes(f'bytes: {words}', lambda: BROWSER.text('#bytes'), words)
        BROWSER.press('Enter')
        self.check_comes('too long a note', lambda: BROWSER.text('#note-says'),
                         'The note is too long.')
        self.check('and the other faults',
                   [BROWSER.text(f'#{it}-says') for it in ('place', 'class')],
                   ['A place begins with TQ, TL, SU or SP.', 'Choose a class: 1, 2 or 3.'])
        BROWSER.click('#note')
        BROWSER.press('Control+a', 'Delete')
        BROWSER.click('#place')
        send_call('TQ300800', '3', note)
        answer('NEW')
        self.check('as it was typed', note in BROWSER.text('#calls'), True)
        self.check('to the metre', 'TQ 30000 80000' in BROWSER.text('#calls'), True)
        self.check('and no markup', BROWSER.all('#calls img, #calls b'), [])
        self.check('in the table', self.calls('hex(note)'), [note.encode().hex().upper()])

    def test_refused(self):
        """A call in no division says so, is put back into the form, and is sent anew."""
        self.sign_in()
        send_call('TL300800', '1', 'caller is <lost>')
        self.check('in words', answer('NOT TAKEN')[:2], [
            'NOT TAKEN', 'The place lies in no division of this service. Check the place.'])
        BROWSER.click('#calls button')
        BROWSER.press('Control+a')
        send_call('TQ300800', '1')
        self.check('sent anew', answer('NEW', 2)[:2], ['NEW', 'Division 1, incident 1'])
        self.check('with its note', self.calls('serial, class, note'), ['2|1|caller is <lost>'])

    def test_unkept(self):
        """A call that the browser can't keep, for its disk is full or its data was cleared, stays
        in the form, and the page says so where the answer before stood; an Enter held down sends
        one call."""
        self.sign_in()
        send_call('TQ300800', '2', 'call 1')
        answer('NEW')
        form = "return ['place', 'note'].map((it) => document.getElementById(it).value)"
        for nth, (owner, method, why) in enumerate(UNKEPT, start=2):
            place, note = f'TQ{300 + 30 * nth}800', f'call {nth}'
            BROWSER.run(FAILS, owner, method, why)
            send_call(place, '1', note)
            self.check(f'{why} It is said', answer('NOT SENT')[:2], [
                'NOT SENT', f'This browser could not keep the call: {why} The form still has it.'])
            self.check(f'{why} The form has it', BROWSER.run(form), [place, note])
            self.check(f'{why} The calls before are listed', kept(), nth - 1)
            BROWSER.run('mend()')
            BROWSER.press('Enter', 'Enter')
            self.check(f'{why} Then it is sent', answer('NEW', nth)[:2],
                       ['NEW', f'Division 1, incident {nth}'])
            self.check(f'{why} And the form is empty', BROWSER.run(form), ['', ''])
        self.check('once', self.calls('note'), ['call 1', 'call 2', 'call 3'])

    def test_sign_out(self):
        """Signing out is refused while a call waits, and leaves neither token nor calls."""
        self.sign_in()
        self.stack.close()
        send_call('TQ300800', '2', 'key code 4711')
        answer('WAITING')
        self.leave()
        self.check_comes('it is refused', lambda: BROWSER.text('#refused'), 'The call taker is not '
                         'signed out: what waits to be sent would be lost (1). Open its page until '
                         'the room has answered.')
        self.stack.enter_context(serving(self.file, 99999, port=self.room_port))
        BROWSER.open(f'{self.address}desks/taker.html')
        self.check('it is sent', answer('NEW')[:2], ['NEW', 'Division 1, incident 1'])
        self.check('it was kept', '4711' in BROWSER.run(LEFT), True)
        self.leave()
        self.check_comes('signed out', lambda: BROWSER.all('#signed li'), [])
        left = BROWSER.run(LEFT)
        self.check('nothing is left', [it for it in ('takerone', '4711') if it in left], [])

    def leave(self):
        BROWSER.open(f'{self.address}desks/index.html#taker')
        BROWSER.click('#signed button')

    def test_everyone(self):
        self.sign_in()
        send_call('TQ300800', '1', 'a call')
        answer('NEW')
        self.check("the call taker's page", faults_everywhere(BROWSER), [])
        for width in PHONE[0], 320:
            BROWSER.size(width, PHONE[1])
            self.check(f'nothing covers another: {width}', BROWSER.run(COVERING), [])
        BROWSER.size(1280, 720)
        BROWSER.open(f'{self.address}desks/index.html')
        self.check('where one signs in', faults_everywhere(BROWSER), [])


class Network(Served):
    def test_cuts(self):
        """A line that breaks at any byte of a call or its answer: each call acts once."""
        self.sign_in()
        seed = random.randrange(1 << 32)
        dice = random.Random(seed)
        for nth in range(CUTS):
            self.line.cut(after=dice.randrange(1, CALL_BYTES))
            send_call(f'TQ{300 + 3 * nth}800', '2', f'call {nth}')
            time.sleep(CUT_FOR)
            self.line.mend()
        self.check(f'all were answered (seed {seed})', is_all_answered(CUTS), True)
        self.check(f'each acted once (seed {seed})', self.calls('serial, note'),
                   [f'{it + 1}|call {it}' for it in range(CUTS)])

    def test_closed_page(self):
        """A page that is closed before its answer goes on when it is opened, by itself."""
        self.sign_in()
        first = BROWSER.send('GET', '/window')
        other = BROWSER.tab('about:blank')
        for nth, after in enumerate([None, 900, 1800]):
            BROWSER.turn_to(first)
            BROWSER.open(f'{self.address}desks/taker.html')
            until(lambda: BROWSER.run(IS_LOADED))
            self.line.cut(after)
            send_call(f'TQ{300 + 3 * nth}800', '2', f'call {nth}')
            until(lambda count=nth + 1: kept() == count)
            said = until(lambda: BROWSER.text('#answer').startswith('NEW') or self.line.is_cut
                         and 'not yet answered: 1' in BROWSER.text('#waiting'))
            self.check(f'{after}: it waits, or was answered', said, True)
            BROWSER.close(first, then=other)
            self.line.mend()
            first = BROWSER.tab(f'{self.address}desks/taker.html')
            self.check(f'{after}: the answer came', answer('NEW', nth + 1)[:2],
                       ['NEW', f'Division 1, incident {nth + 1}'])
        BROWSER.close(other, then=first)
        self.check('each acted once', self.calls('serial, note'),
                   [f'{it + 1}|call {it}' for it in range(3)])

    def test_two_tabs(self):
        """Two tabs of one position: each call has a serial of its own, and acts once."""
        self.sign_in()
        one = BROWSER.send('GET', '/window')
        two = BROWSER.tab(f'{self.address}desks/taker.html')
        BROWSER.find(DRAWN)
        self.line.cut()
        for nth in range(6):
            BROWSER.turn_to((one, two)[nth % 2])
            send_call(f'TQ{300 + 3 * nth}800', '2', f'call {nth}')
            self.check('it waits', answer('WAITING', nth + 1)[0], 'WAITING')
        self.line.mend()
        for it in (one, two):
            BROWSER.turn_to(it)
            self.check('all were answered', is_all_answered(6), True)
            self.check('all are shown', kept(), 6)
        BROWSER.close(two, then=one)
        self.check('each acted once', self.calls('serial, note'),
                   [f'{it + 1}|call {it}' for it in range(6)])

    def test_used_serials(self):
        """Serials that another browser used are passed over, in words, and no call is lost."""
        ask(self.room_port, *(call(it, 'TQ600800') for it in (1, 2)))
        self.sign_in()
        self.line.cut()
        for nth in range(2):
            send_call(f'TQ{300 + 3 * nth}800', '2', f'call {nth}')
            answer('WAITING', nth + 1)
        self.line.mend()
        self.check('all were answered', is_all_answered(2), True)
        self.check_comes('in words', passed_over,
                         ['Passed over, for other calls had them: serials 1, 2.'])
        self.check('each acted once', self.calls('serial, note'),
                   ['1|', '2|', '3|call 0', '4|call 1'])


# ---- a room that is served with history


class History(TestCase):
    def test_last(self):
        """The room says the last serial: nobody is asked, and a used one is passed over by it."""
        file = made(self.folder / 'room.db')
        with serving(file, 99999, *PATIENT, '--history') as (room_port, _):
            ask(room_port, *(call(it, 'TQ600800') for it in (1, 2, 3)))
            address = self.enterContext(companion(room_port))
            self.check('signed in', sign_in(BROWSER, address, 'taker', 'takerone'), True)
            BROWSER.find(DRAWN)
            send_call('TQ300800', '2', 'call 4')
            self.check('a first call', answer('NEW')[:1], ['NEW'])
            self.check('nobody is asked', BROWSER.is_shown('#start'), False)
            ask(room_port, *(call(it, 'TQ600800') for it in (5, 6, 7)))
            send_call('TQ400800', '2', 'call 8')
            self.check('a second call', is_all_answered(2), True)
            self.check_comes('in words', passed_over,
                             ['Passed over, for other calls had them: serials 5.'])
        self.check('their serials', sql(file, "SELECT serial FROM calls WHERE length(note) > 0"),
                   '4\n8\n')


# ---- the modules below the pages

# The seven parameters and the projection as PROJ writes them; the parameters are those of "A guide
# to coordinate systems in Great Britain" (Ordnance Survey), from OSGB36 to WGS84.
NATIONAL_GRID = ('+proj=tmerc +lat_0=49 +lon_0=-2 +k=0.9996012717 +x_0=400000 +y_0=-100000 '
                 '+ellps=airy +towgs84=446.448,-125.157,542.060,0.1502,0.2470,0.8421,-20.4894')


def module(name, expression, *given):
    """What an expression gives of a module, `it`, and of what is given, in the open page."""
    return BROWSER.run(f"const given = arguments; return import('/desks/{name}')"
                       f'.then((it) => {expression});', *given)


def proj(positions):
    """Metres east and north of WGS84 positions by PROJ."""
    command = ['cs2cs', '-f', '%.4f', '+proj=longlat +datum=WGS84', '+to', NATIONAL_GRID]
    lines = ''.join(f'{longitude!r} {latitude!r} 0\n' for latitude, longitude in positions)
    done = subprocess.run([word for it in command for word in it.split()], input=lines,
                          capture_output=True, text=True, timeout=60, check=True)
    return [list(map(float, it.split()[:2])) for it in done.stdout.splitlines()]


def typed_places(dice, count):
    """References, and what is nearly one."""
    found = ['', 'T', 'TQ', 'tq300800', 'TQ 300 800', 'TQ  300800', 'TQ300  800', 'TQ300800 ',
             ' TQ300800', 'TQ 3008 00', 'TQ3008', 'TQ30080', 'TQ 30000 80000', 'TQ300000800000']
    while len(found) < count:
        count_of_digits = dice.choice([4, 5, 6, 6, 7, 8, 8, 9, 10, 10])
        digits = ''.join(dice.choices('0123456789', k=count_of_digits))
        text = list(dice.choice(['TQ', 'TL', 'SU', 'SP', 'TR', 'T']) + digits)
        for _ in range(dice.choice([0, 1, 1, 2, 2, 3])):
            text.insert(dice.choice([2, 2 + len(digits) // 2, 3 + len(digits) // 2, len(text)]),
                        dice.choice('     x-'))
        found.append(''.join(text))
    return found


class Modules(Served):
    def setUp(self):
        super().setUp()
        BROWSER.open(f'{self.address}desks/index.html')

    def test_grid(self):
        # The guide works this position of OSGB36 out.
        degrees = [52 + 39 / 60 + 27.2531 / 3600, 1 + 43 / 60 + 4.5177 / 3600]
        east, north = module('grid.js', 'it.project(...given[0].map((x) => x * Math.PI / 180))',
                             degrees)
        self.check("the guide's example", [f'{east:.3f}', f'{north:.3f}'],
                   ['651409.903', '313177.270'])
        dice = random.Random(1)
        positions = [[dice.uniform(50.8, 52.9), dice.uniform(-2.1, 1.2)] for _ in range(200)]
        ours = module('grid.js', 'given[0].map((at) => it.gridOf(...at))', positions)
        apart = [max(abs(one - other) for one, other in zip(*pair))
                 for pair in zip(ours, proj(positions))]
        self.check('as PROJ has it, to a centimetre', [len(apart), max(apart) < 0.01], [200, True])

    def test_references(self):
        """A reference is read where the room takes it, and as the same place."""
        texts = typed_places(random.Random(2), 2000 if EVERY else 300)
        faults = module('grid.js', 'given[0].map((text) => it.read(text).fault ?? "")', texts)
        bodies = [json.dumps({'class': 2, 'needs': [1, 0, 0], 'note': '', 'place': it,
                              'serial': nth}, separators=(',', ':'))
                  for nth, it in enumerate(texts, 1)]
        answers = ask(self.room_port, *(message('takerone', 'POST /call', it) for it in bodies))
        room = [status == 400 for status, _ in answers]
        self.check('as many', len(room), len(texts))
        self.check('read as the room does', [it for it, fault, is_bad in zip(texts, faults, room)
                                             if bool(fault) != is_bad], [])
        self.check('of either kind', [sum(room) > 30, len(room) - sum(room) > 30], [True, True])
        taken = [it for it, (status, _) in zip(texts, answers) if status == 200]
        places = module('grid.js', 'given[0].map((text) => it.read(text).place.join("|"))', taken)
        self.check('as the same place', places, self.calls("east || '|' || north"))

    def test_back_to_references(self):
        found = module('grid.js', '[6, 8, 10].map((n) => it.reference([530312, 180409], n))')
        self.check('digits', found, ['TQ303804', 'TQ30318040', 'TQ3031280409'])
        self.check('outside', module('grid.js', 'it.reference([600000, 180409])'), '')

    def test_refusals(self):
        """Words of its own for each number that the interface has."""
        table = (TOP / 'docs' / 'HTTP.md').read_text()
        numbers = [int(it) for it in re.findall(r'^\| (\d+) \| \w+ \| \d{3} \|', table, re.M)]
        words = module('refusals.js', 'given[0].map(it.wordsOf)', [0, *numbers])
        self.check('the numbers of the interface', len(numbers), 32)
        self.check('words of their own', len(set(words)), len(numbers) + 1)
        self.check('and none only by its number', [it for it in words if 'with number' in it
                                                    and 'refused' in it], [])
