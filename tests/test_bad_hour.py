"""A bad hour on the allocator's page and on the wall: sixty incidents of class 1 to which nobody is
sent, nine divisions, two hundred vehicles and numbers of five digits, measured in a browser on
three sizes of screens. The rooms are played. Pictures go to the folder $PICTURES, if it is set."""
# needs: chromium chromium-driver
import base64
import os
import pathlib

from browser import of_module, until
from pages import PHONE, companion, small_targets, weak_texts
from room import TestCase
import test_allocator
import walls
from test_allocator import Lists, PlayedRoom, entry, incident, refresh, show, vehicle, words_of

SIZES = [(1280, 800), (1920, 1080), PHONE]
PICTURES = os.environ.get('PICTURES')
FIRST = 99940  # the number of the first incident
BROWSER = None


def setUpModule():
    global BROWSER
    BROWSER = test_allocator.BROWSER = of_module()


def picture(name, size):
    if PICTURES:
        path = pathlib.Path(PICTURES) / f'{name}-{size[0]}x{size[1]}.png'
        path.write_bytes(base64.b64decode(test_allocator.patiently(BROWSER.picture)))


def bad_hour():
    """The lists of one division: of sixty incidents of class 1 the highest numbers are the oldest,
    and ten of class 2 are older still."""
    unsent = [incident(FIRST + it, 1, lack=(2, 1, 0), needs=(2, 1, 0), age=200 + 45 * it, calls=3)
              for it in range(60)]
    others = [incident(11 + it, 2, lack=(0, 0, 0), age=9000) for it in range(10)]
    oldest = sorted(unsent, key=lambda it: it['opened'])
    return Lists(
        {f'GET /incidents/{it["number"]}/propose': (200, {'proposals': []}) for it in unsent},
        queue=[entry(1, it['number'], age=test_allocator.NOW - it['opened']) for it in oldest]
        + [entry(4, 12345, f'LONGNAM{it}') for it in range(9)],
        incidents=[*others, *unsent],
        vehicles=[vehicle(f'A{it}', 3 + it % 3, it % 3 + 1, incident=11 + it % 10)
                  for it in range(200)])


WORST = [f'Incident {FIRST + 59 - it}' for it in range(10)]
# The first lines of a list that are seen whole, by what they are about.
SEEN = """
const list = document.querySelector(`.${arguments[0]} .lines`);
const bounds = list.getBoundingClientRect();
const isSeen = (box) => box.top >= 0 && box.bottom <= innerHeight + 1 && box.left >= bounds.left
  && box.right <= bounds.right + 1 && (getComputedStyle(list).overflowY === 'visible'
  || box.bottom <= bounds.bottom + 1);
return [...list.children].filter((it) => isSeen(it.getBoundingClientRect()))
  .map((it) => it.querySelector('.what').textContent);
"""
# Numbers that are not seen whole: of lines, what each is about with its age and class; and the
# alarm's words.
CUT = """
const parts = '.lines .what, .lines .age, .lines .sign, #alarm .words';
return [...document.querySelectorAll(parts)].filter((it) => {
  if (!it.textContent) return false;
  const text = document.createRange();
  text.selectNodeContents(it);
  const { left, right } = text.getBoundingClientRect();
  const row = (it.closest('li') ?? it.parentNode).getBoundingClientRect();
  const after = [...(it.closest('li')?.children ?? [])].filter((other) => other !== it
    && other.textContent && other.getBoundingClientRect().left < right - 1
    && other.getBoundingClientRect().right > left + 1
    && other.getBoundingClientRect().top < it.getBoundingClientRect().bottom - 1
    && other.getBoundingClientRect().bottom > it.getBoundingClientRect().top + 1);
  return left < row.left - 1 || right > row.right + 1 || after.length
    || it.scrollWidth > it.clientWidth + 1 && getComputedStyle(it).overflow !== 'visible';
}).map((it) => it.textContent);
"""
HEIGHT = 'return document.querySelector(arguments[0]).getBoundingClientRect().height / innerHeight'
LETTERS = 'return parseFloat(getComputedStyle(document.documentElement).fontSize)'
LINES = """const words = document.querySelector('#alarm .words'), text = document.createRange();
text.selectNodeContents(words);
return new Set([...text.getClientRects()].map((it) => Math.round(it.top))).size;"""


class Desk(TestCase):
    def show(self):
        room = PlayedRoom(bad_hour())
        self.addCleanup(room.server_close)
        self.addCleanup(room.shutdown)
        show(self.enterContext(companion(room.port)))
        return room

    def test_bad_hour(self):
        self.show()
        letters = {}
        for size in SIZES:
            BROWSER.size(*size)
            refresh(1)
            self.check_size(size)
            letters[size] = BROWSER.run(LETTERS)
            picture('allocator', size)
        small, large, phone = letters.values()
        self.check('letters grow with the screen', [large > small, small >= 15, phone >= 15],
                   3 * [True])
        self.check('targets on a phone', small_targets(BROWSER), [])

    def check_size(self, size):
        nobody = '' if size == PHONE else ', nobody sent'
        self.check_comes(f'{size}: the alarm', lambda: words_of('#alarm .words'),
                         f'60 of class 1{nobody}: oldest {FIRST + 59}, 47:35')
        self.check(f'{size}: in one line', BROWSER.run(LINES), 1)
        self.check(f'{size}: in a tenth of the height', BROWSER.run(HEIGHT, '#alarm') <= 0.1, True)
        for name in 'queue', 'incidents':
            if size != PHONE or name == 'queue':  # there one list stands below the other
                self.check(f'{size}: the ten worst are seen: {name}',
                           BROWSER.run(SEEN, name)[:10], WORST)
        self.check(f'{size}: no number is cut', BROWSER.run(CUT), [])
        self.check(f'{size}: nothing is wider', BROWSER.run(
            'return document.documentElement.scrollWidth'), size[0])
        self.check(f'{size}: contrast', weak_texts(BROWSER), [])

    def test_look(self):
        """Looking at an alarm silences it for two minutes, by the room's clock."""
        room = self.show()
        BROWSER.press('v')
        self.check_comes('the next oldest', lambda: words_of('#alarm .words'),
                         f'59 of class 1, nobody sent: oldest {FIRST + 58}, 46:50')
        BROWSER.press('Escape')
        room.moment += 90
        refresh(2)
        self.check('not yet', words_of('#alarm .words').startswith('59 of class 1'), True)
        room.moment += 90
        self.check_comes('and calls again', lambda: words_of('#alarm .words').startswith(
            '60 of class 1'), True)


# ---- the wall


class Wall(TestCase):
    def show(self, size):
        def answer_of(token, what):
            division = int(token.removeprefix('desknumber'))
            count = 60 if division == 4 else 1
            incidents = [walls.incident(FIRST + it, level=1 if division == 4 else 2)
                         for it in range(count)]
            return {'vehicles': [walls.vehicle(f'V{division}{it}', it % 8) for it in range(22)],
                    'points': [], 'incidents': incidents,
                    'queue': [{'number': it['number'], 'rank': 1, 'vehicle': '',
                               'since': walls.NOW - 200 - 45 * (it['number'] - FIRST)}
                              for it in reversed(incidents)]}[what]

        room = walls.played(self, answer_of)
        address = self.enterContext(walls.wall(room.port, walls.plan_of(self.folder, 9)))
        BROWSER.size(*size)
        BROWSER.open(address)
        until(lambda: walls.pictures(BROWSER))

    def test_worst_first(self):
        """Division 4 has it worst: its incidents stand above the pages, which turn below them."""
        for size in SIZES[:2]:
            self.show(size)
            wanted = [f'4 \u00b7 {FIRST + 59 - it}' for it in range(8)]
            lines = ("return [...document.querySelectorAll('#urgent .who')]"
                     ".map((it) => it.textContent)")
            self.check_comes(f'{size}: the worst', lambda: BROWSER.run(lines), wanted)
            self.check(f'{size}: how many', BROWSER.text('#urgent th'),
                       'Nobody sent: 68, the worst 8')
            below = "return [...document.querySelectorAll('#queues .who')].map((it) => " \
                    "it.textContent)"
            first = BROWSER.run(below)
            BROWSER.press('PageDown')
            self.check(f'{size}: a page turns', BROWSER.run(below) != first, True)
            self.check(f'{size}: and the worst stay', BROWSER.run(lines), wanted)
            self.check(f'{size}: both are seen', BROWSER.run(
                "return ['#urgent', '#queues tr'].every((it) => document.querySelector(it)"
                ".getBoundingClientRect().bottom <= innerHeight)"), True)
            picture('wall', size)
