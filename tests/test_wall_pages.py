"""The wall with up to nine divisions on two sizes of screens: pages that turn, keys, letters that
are read from five metres, and what a picture of many costs. With EVERY_PLACE each number of
divisions is tried on both screens, and pages turn by themselves again after they were stopped."""
# needs: chromium chromium-driver
import os
import random
import time

from browser import of_module, until
from room import TestCase
from walls import NOW, incident, pictures, plan_of, played, refresh, report, vehicle, wall

EVERY = 'EVERY_PLACE' in os.environ
SIZES = SMALL, LARGE = [(1366, 768), (1920, 1080)]
# Divisions on a screen.
SCREENS = [(it, size) for it in (1, 2, 4, 9) for size in SIZES] if EVERY else [
    (1, SMALL), (4, LARGE), (9, SMALL)]
# A capital has to be a 360th of the distance high (MUTCD 2009, section 2A.13: an inch for 30 feet):
# 13.9 mm at five metres, of the 934 mm that a screen of 75 inches and 16:9 is high.
LEAST = 5000 / 360 / 934
LONGEST, WIDEST = 2147483647, 'WWWWWWWW'
BROWSER = None


def setUpModule():
    global BROWSER
    BROWSER = of_module()


# ---- rooms


def entry(rank, number, name='', age=60):
    return {'number': number, 'rank': rank, 'since': NOW - age, 'vehicle': name}


def queue_of(division):
    """A queue with an entry of each rank, none for division 3, and the longest that can be."""
    letter = 'ABCDEFGHJ'[division - 1]
    if division == 3:
        return []
    return [entry(1, LONGEST, age=200), entry(1, 2, age=190), entry(2, LONGEST, WIDEST, 9000),
            entry(3, 3, f'{letter}101'), entry(4, 28500000 + division, f'{letter}102'),
            entry(5, 9, f'{letter}103', 86400 * 99), entry(6, 0, f'{letter}104'),
            entry(7, 1), entry(8, 9, f'{letter}105')]


def wide_room(divisions, vehicles=200, incidents=40):
    """A room with so many vehicles and incidents in all, which stays as it is."""
    dice = random.Random(1)

    def desk(number):
        west = 500000 + (number - 1) % 3 * (60000 // min(divisions, 3))
        south = 140000 + (number - 1) // 3 * (60000 // -(-divisions // 3))
        letter = 'ABCDEFGHJ'[number - 1]

        def at():
            return [west + dice.randrange(20000), south + dice.randrange(20000)]
        return {
            'vehicles': [vehicle(f'{letter}{100 + it}', dice.randrange(8), it % 3 + 1, at(),
                                 dice.choice([None, 2, 3])) for it in range(vehicles // divisions)],
            'incidents': [incident(it, at(), [it % 2, 0, 0], it % 3 + 1)
                          for it in (LONGEST, *range(2, incidents // divisions + 1))],
            'points': [{'cover': 1, 'held': 0, 'number': it, 'place': at()} for it in (1, 2)],
            'queue': queue_of(number),
            f'vehicles/{letter}102/reports': [
                report(28500000 + number, 'hospital', order=LONGEST)]}

    desks = {f'desknumber{it}': desk(it) for it in range(1, divisions + 1)}
    return lambda token, what: desks[token][what]


def large_room():
    """A room of 500 vehicles and 1,000 incidents in which each reading finds another picture: all
    vehicles move, an eighth of them has another status, half of the incidents lack others."""
    readings = []

    def answer_of(token, what):
        readings.append(what)
        west, name = (500000, 'A') if token == 'desknumber1' else (530000, 'B')
        turn = len(readings) // 8

        def at(it, moved=0):
            return [west + (it * 7919 + moved) % 30000, 140000 + it * 104729 % 60000]

        def status(it):
            return (it // 8 + turn if it % 8 == 0 else it) % 8

        return {
            'vehicles': [vehicle(f'{name}{it}', status(it), it % 3 + 1, at(it, turn * 997),
                                 it + 1 if 2 <= status(it) <= 5 else None) for it in range(250)],
            'incidents': [incident(it + 1, at(it + 1000), [(it + turn) % 4 // 3, it % 2, 0],
                                   it % 3 + 1) for it in range(500)],
            'points': [],
            'queue': [entry(1, it + 1, age=1000 - it) for it in range(300)],
        }[what]

    return answer_of


# ---- what is seen

# What the page of queues shows, and which of its texts are not seen whole.
PAGE = """
const sheet = document.querySelector('#queues').getBoundingClientRect();
const isIn = (box, {left, right, top, bottom}) => box.left >= left - 1 && box.right <= right + 1
  && box.top >= top - 1 && box.bottom <= bottom + 1;
const boxesOf = (node) => {
  const range = document.createRange();
  range.selectNodeContents(node);
  return [...range.getClientRects()];
};
const cells = [...document.querySelectorAll('#queues th, #queues td')];
return {label: document.querySelector('.page').textContent,
  isStale: !document.querySelector('#stale').hidden,
  rows: [...document.querySelectorAll('.queue tbody tr')].map((it) =>
    [Number(it.closest('.queue').dataset.division), Number(it.dataset.rank),
      it.querySelector('.who').textContent]),
  heads: [...document.querySelectorAll('.queue')].map((it) => Number(it.dataset.division)),
  cut: cells.filter((it) => !boxesOf(it).every((box) =>
    isIn(box, sheet) && isIn(box, it.getBoundingClientRect()))).map((it) => it.textContent)};
"""
# The height of a callsign's capitals, as a part of the screen's.
CAPITALS = """
const name = document.querySelector('.vehicle.mark .name'), style = getComputedStyle(name);
const pen = document.createElement('canvas').getContext('2d');
pen.font = `${style.fontWeight} 100px ${style.fontFamily}`;
return pen.measureText('H').actualBoundingBoxAscent / 100 * parseFloat(style.fontSize)
  * name.getCTM().a / innerHeight;
"""
# The names of areas that do not lie above all marks, or on one.
COVERED = """
const boxOf = (it) => it.getBoundingClientRect();
const marks = [...document.querySelectorAll('.mark .shape')].map(boxOf);
const names = document.querySelector('#map .names');
return [...names.children].filter((it) => {
  const box = boxOf(it);
  return names.nextSibling || marks.some((mark) => mark.left < box.right && mark.right > box.left
    && mark.top < box.bottom && mark.bottom > box.top);
}).map((it) => it.textContent);
"""
# Callsigns that do not stand in their marks; and how wide each is, as a part of its own width.
OUTSIDE = """
return [...document.querySelectorAll('.vehicle.mark')].filter((it) => {
  const [name, shape] = ['.name', '.shape'].map((css) => it.querySelector(css).getBBox());
  return name.x < shape.x || name.x + name.width > shape.x + shape.width
    || name.y < shape.y - 2 || name.y + name.height > shape.y + shape.height + 2;
}).map((it) => it.textContent);
"""
SQUEEZED = """
return [...document.querySelectorAll('.vehicle.mark .name')].map((it) => {
  const free = it.cloneNode(true);
  free.removeAttribute('textLength');
  it.after(free);
  const part = it.getBBox().width / free.getBBox().width;
  free.remove();
  return [it.textContent, part];
});
"""
NAMES = """
return [...document.querySelectorAll('.vehicle.mark .name')]
  .filter((it) => it.getBoundingClientRect().width > 0).map((it) => it.textContent).sort();
"""


def who_of(entry):
    return {1: f'Incident {entry["number"]}', 7: f'Point {entry["number"]}'}.get(
        entry['rank'], entry['vehicle'])


def page():
    return BROWSER.run(PAGE)


class Walls(TestCase):
    def show(self, answer_of, divisions, size=SMALL):
        room = played(self, answer_of, 0)
        address = self.enterContext(wall(room.port, plan_of(self.folder, divisions)))
        BROWSER.size(*size)
        BROWSER.open(address)
        until(self.is_fresh)

    def is_fresh(self):
        """Whether a picture is shown, and no warning takes room from it."""
        return pictures(BROWSER) and not page()['isStale']


class Pages(Walls):
    def turned(self, key):
        """The page after a key that turns it."""
        before = page()['label']
        BROWSER.press(key)
        until(lambda: page()['label'] != before)
        return page()

    def whole_pages(self):
        """Each page from the first until it comes again, and then one on, one back and one on. None
        where a warning took room from one of them, as a busy machine may bring."""
        until(self.is_fresh)
        BROWSER.press('0')  # the first page
        found = self.all_pages()
        turned = [self.turned(it) for it in ('ArrowRight', 'ArrowLeft', 'PageDown')]
        return None if any(it['isStale'] for it in found + turned) else (found, turned)

    def all_pages(self):
        found = [page()]
        while len(found) < 60:
            one = self.turned('ArrowRight')
            if one['label'].startswith('stopped:\n1\u2013'):
                break
            found.append(one)
        return found

    def check_pages(self, divisions, size):
        self.show(wide_room(divisions), divisions, size)
        BROWSER.press('Space')  # no turning
        what = f'{divisions} divisions at {size}'
        found, (second, first, again) = until(self.whole_pages)
        wanted = [[division, it['rank'], who_of(it)] for division in range(1, divisions + 1)
                  for it in queue_of(division)]
        self.check(f'{what}: each entry once, in the order of the room',
                   [it for one in found for it in one['rows']], wanted)
        self.check(f'{what}: each division', sorted({it for one in found for it in one['heads']}),
                   list(range(1, divisions + 1)))
        self.check(f'{what}: nothing is cut off', [it for one in found for it in one['cut']], [])
        self.check(f'{what}: pages', len(found) > 1, True)
        self.check(f'{what}: which are shown', found[0]['label'],
                   f'stopped:\n1\u2013{len(found[0]["rows"])} of {len(wanted)}')
        self.check(f'{what}: back', first['rows'], found[0]['rows'])
        self.check(f'{what}: and on', again['rows'], second['rows'])

    def test_pages(self):
        for divisions, size in SCREENS:
            self.check_pages(divisions, size)

    def test_by_themselves(self):
        self.show(wide_room(2), 2)
        BROWSER.press('0')
        first = page()['rows'][0]
        self.check('a page turns', until(lambda: page()['rows'][0] != first), True)
        BROWSER.press('Space')
        second = page()['rows'][0]
        time.sleep(9)
        self.check('not while it is stopped', page()['rows'][0], second)
        if EVERY:
            BROWSER.press('Space')
            self.check('and then again', until(lambda: page()['rows'][0] != second), True)

    def test_divisions(self):
        """A key or a click shows one division: its queue, its area and its marks."""
        self.show(wide_room(9), 9)
        chosen = "return [...document.querySelectorAll('#pages [aria-pressed=true]')]" \
                 ".map((it) => it.textContent)"
        areas = "return document.querySelectorAll('.areas rect').length"
        letters = "return [...new Set([...document.querySelectorAll('.vehicle.mark .name')]" \
                  ".map((it) => it.textContent[0]))].sort().join('')"
        title = "return document.querySelector('h1').textContent"
        for act, heads, wanted in [
                (lambda: BROWSER.press('5'), [5], [['59'], 1, 'E', 'Division 5']),
                (lambda: BROWSER.press('3'), [3], [['30'], 1, 'C', 'Division 3']),
                (lambda: BROWSER.click('[data-division="7"]'), [7], [['79'], 1, 'G', 'Division 7']),
                (lambda: BROWSER.press('0'), None, [['all'], 9, 'ABCDEFGHJ', 'Control room']),
                (lambda: BROWSER.press('9', 'Escape'), None,
                 [['all'], 9, 'ABCDEFGHJ', 'Control room'])]:
            act()
            self.check_comes(f'{wanted[-1]}: what is shown', lambda: [
                BROWSER.run(it) for it in (chosen, areas, letters, title)], wanted)
            self.check(f'{wanted[-1]}: its queue', page()['heads'] if heads else None, heads)
        refresh(BROWSER, 1)
        BROWSER.press('8')
        refresh(BROWSER, 1)
        self.check('it stays chosen', page()['heads'], [8])

    def test_a_division_that_is_not_there(self):
        self.show(wide_room(2), 2)
        BROWSER.press('7')
        self.check('all stay', page()['heads'][0], 1)
        self.check('none is chosen', BROWSER.run(
            "return document.querySelector('#pages [aria-pressed=true]').textContent"), 'all')


class Letters(Walls):
    def test_five_metres(self):
        """200 vehicles, 40 incidents and two points a division."""
        for divisions, size in SCREENS:
            what = f'{divisions} divisions at {size}'
            self.show(wide_room(divisions), divisions, size)
            wanted = [f'{"ABCDEFGHJ"[division]}{100 + it}' for division in range(divisions)
                      for it in range(200 // divisions)]
            # (a warning, as a busy machine may bring, takes room from the map while it is there)
            self.check_comes(f'{what}: each callsign whole', lambda: BROWSER.run(NAMES), wanted)
            self.check_comes(f'{what}: high enough', lambda: self.too_low(LEAST), [])
            self.check_comes(f"{what}: areas' names", lambda: BROWSER.run(COVERED), [])
        BROWSER.press('5')
        self.check_comes('a division of nine: twice as high', lambda: self.too_low(2 * LEAST), [])

    def test_long_callsigns(self):
        """A callsign of any length stands in its mark, and no letter is squeezed to a half."""
        names = sorted('A12345678'[:it] for it in range(1, 9))
        lists = {'vehicles': [vehicle(name, 1, 1, [510000 + 9000 * nth, 150000])
                              for nth, name in enumerate(names)],
                 'incidents': [], 'points': [], 'queue': []}
        self.show(lambda token, what: lists[what], 1, LARGE)
        self.check_comes('each whole', lambda: BROWSER.run(NAMES), names)
        self.check('in its mark', BROWSER.run(OUTSIDE), [])
        self.check('not squeezed', [it for it in BROWSER.run(SQUEEZED) if it[1] < 0.5], [])

    def too_low(self, least):
        """How high capitals are, where they are too low."""
        height = BROWSER.run(CAPITALS)
        return [height] if height < least else []


class Many(Walls):
    """What many cost, to an order of magnitude; bench/desks/run says how much."""

    def test_many(self):
        self.show(large_room(), 2, (1280, 720))
        self.check('a picture costs less than a second of a processor', self.cost() < 1, True)
        for what, css, wanted in [('vehicles', '.vehicle.mark', 500), ('lines', '.sent line', 280),
                                  ('incidents', '.incident.mark', 1000)]:
            self.check(what, len(BROWSER.all(css)), wanted)

    def test_a_busy_day(self):
        self.show(wide_room(9, 200, 300), 9, (1920, 1080))
        self.check('200 vehicles and 300 incidents cost less than a second', self.cost() < 1, True)

    def cost(self):
        return BROWSER.cheapest(3, lambda: refresh(BROWSER, 1))
