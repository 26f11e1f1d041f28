"""The pictures of the documents: what tools/pictures.py writes is what is committed, each text
stands by itself, each arrow has its head in what is drawn, the statuses are those of the rules, the
floors those of crates.txt, and each picture is shown by a document."""
# needs: python3 librsvg2-bin netpbm
import filecmp
import pathlib
import re
import subprocess
import sys

from documents import table_of_buttons
from room import TOP, TestCase

sys.path.insert(0, str(TOP / 'tools'))
from picture_files.drawing import Drawing

DOCS = TOP / 'docs'
SOURCES = DOCS / 'pictures'
SHOWN = re.compile(r'!\[([^\]]*)\]\(([^)\s]+)\)')

# The status of each button that acts, as RULES.md says.
BUTTONS = {'Scene': 3, 'Leave': 4, 'Hospital': 5, 'Return': 6, 'Home': 1}
# From and to which status each request of a desk leads: on and off duty, mobilise, stand down,
# lend, and withdraw, decline or accept.
REQUESTS = {(0, 1), (1, 0), (6, 0), (1, 2), (6, 2), (2, 6), (1, 7), (6, 7), (7, 1)}


def drawings():
    """Each picture by its name, as it is drawn."""
    return {it.stem: Drawing(it.read_text()) for it in sorted(SOURCES.glob('*.txt'))}


def led(kinds):
    """From which status to which one the lines of these kinds lead."""
    rows = re.findall(r'^(?:arrow|join) (\w+) s(\d)\b.* s(\d)\b', text_of('statuses'), re.M)
    return {(int(one), int(other)) for kind, one, other in rows if kind in kinds}


def text_of(name):
    return (SOURCES / f'{name}.txt').read_text()


def rules():
    """What each button comes to at each status, by the table of RULES.md."""
    table = table_of_buttons((DOCS / 'RULES.md').read_text())
    return {(status, button): it for (status, _), row in table.items() for button, it in row.items()}


def closed(edges):
    """What each stands on, directly or not."""
    found = {}

    def below(name):
        if name not in found:
            found[name] = set(edges[name]).union(*(below(it) for it in edges[name]))
        return found[name]

    return {name: below(name) for name in edges}


# The colours of heads, by the kinds of their arrows; and how much larger than the page is drawn.
GREEN, BLUE, RED, GREY = (21, 128, 61), (29, 78, 216), (185, 28, 28), (71, 85, 105)
COLOURS = {'button': GREEN, 'skipped': GREEN, 'request': BLUE, 'stop': RED}
ZOOM = 2
BEHIND, BESIDE = 6, 2.2  # where a head is wider than its line: behind its tip, beside the line


class Raster:
    """A picture as it is drawn, in pixels."""

    def __init__(self, name):
        drawn = subprocess.run(['rsvg-convert', f'--zoom={ZOOM}', DOCS / f'{name}.svg'],
                               capture_output=True, check=True).stdout
        plain = subprocess.run(['pngtopnm', '-mix', '-background=white'], input=drawn,
                               capture_output=True, check=True).stdout
        kind, width, _, most, self.bytes = re.fullmatch(
            rb'(P6)\s+(\d+)\s+(\d+)\s+(\d+)\s(.*)', plain, re.S).groups()
        assert (kind, most) == (b'P6', b'255'), 'another form of picture'
        self.width = int(width)

    def at(self, x, y):
        place = 3 * (round(y * ZOOM) * self.width + round(x * ZOOM))
        return tuple(self.bytes[place:place + 3])


def sides(points):
    """Two places within the head of an arrow, beside its line."""
    x, y = points[-1]
    from_x, from_y = next(it for it in reversed(points) if it != points[-1])
    long = max(abs(x - from_x), abs(y - from_y))
    across, down = (x - from_x) / long, (y - from_y) / long
    return [(x - BEHIND * across + side * BESIDE * down, y - BEHIND * down + side * BESIDE * across)
            for side in (1, -1)]


def is_near(one, other):
    return all(abs(a - b) <= 24 for a, b in zip(one, other))


class Heads(TestCase):
    """Each arrow ends in a head: its colour is found on both sides of its line."""

    def test_heads(self):
        for name, drawing in drawings().items():
            raster = Raster(name) if drawing.arrows else None
            for kind, points in drawing.arrows:
                found = [raster.at(*it) for it in sides(points)]
                is_head = all(is_near(it, COLOURS.get(kind, GREY)) for it in found)
                with self.subTest(f'{name}: {kind} to {points[-1]}'):
                    self.assertTrue(is_head, found)

    def test_lines_have_none(self):
        """The statuses' first line, whose end has no head."""
        raster = Raster('statuses')
        self.check('the paper is white', raster.at(94 - BEHIND, 590 - BESIDE), (255, 255, 255))
        self.check('the line is green', is_near(raster.at(74, 590), GREEN), True)


class Grounds(TestCase):
    def test_dark(self):
        """Each picture has colours for a dark ground, for all that it has on a white one."""
        for name in drawings():
            style = (DOCS / f'{name}.svg').read_text()
            light, _, dark = style.partition('@media (prefers-color-scheme: dark) {')
            for kind in set(re.findall(r'^(?:rect|path|text)[.\w]*', light, re.M)):
                if f'{kind} {{ fill' in light or f'{kind} {{ stroke: #' in light:
                    self.check(f'{name}: {kind}', kind in dark, True)


class Pictures(TestCase):
    def test_what_is_written_is_committed(self):
        written = pathlib.Path(self.folder)
        subprocess.run([sys.executable, TOP / 'tools' / 'pictures.py', written], check=True)
        files = sorted(it for it in written.rglob('*') if it.is_file())
        self.assertTrue(files, 'tools/pictures.py writes nothing')
        for file in files:
            place = file.relative_to(written)
            with self.subTest(place):
                self.assertTrue(filecmp.cmp(file, DOCS / place, shallow=False),
                                'it is not what tools/pictures.py writes')
        drawn = {f'{it.stem}.svg' for it in SOURCES.iterdir()}
        self.check('a picture of each text', {it.name for it in files} >= drawn, True)

    def test_texts(self):
        """No text reaches over another one, or over the page or the box that it stands in."""
        for name, drawing in drawings().items():
            self.check(f'{name} has texts', len(drawing.texts) > 5, True)
            for at, (text, *place) in enumerate(drawing.texts):
                with self.subTest(f'{name}: {text}'):
                    self.look(drawing, place, drawing.texts[:at])

    def look(self, drawing, place, others):
        left, top, right, bottom = place
        is_on_page = left >= 0 and top >= 0 and right <= drawing.width and bottom <= drawing.height
        self.assertTrue(is_on_page, 'it is not on the page')
        for other, *its in others:
            is_apart = left >= its[2] or its[0] >= right or top >= its[3] or its[1] >= bottom
            self.assertTrue(is_apart, f'it reaches over {other}')
        for x, y, width, height in drawing.boxes.values():
            is_apart = left >= x + width or x >= right or top >= y + height or y >= bottom
            is_within = left >= x + 2 and right <= x + width - 2 and top >= y and (
                bottom <= y + height)
            self.assertTrue(is_apart or is_within, 'it reaches over the edge of a box')

    def test_statuses(self):
        table = rules()
        self.check('the table', len(table), 56)
        for kinds, word in [(['button'], 'normal'), (['skipped'], 'skipped')]:
            wanted = {(status, BUTTONS[button]) for (status, button), it in table.items()
                      if it == word}
            self.check(word, led(kinds), wanted)
        self.check('requests', led(['request']), REQUESTS)
        said = re.search(r'Statuses: (.*?)\.\s', (DOCS / 'RULES.md').read_text(), re.S)[1]
        wanted = dict(it.split(' ', 1) for it in ' '.join(said.split()).split(', '))
        boxes = re.findall(r'^box \w+ s(\d) .* : (\d) \| (.*)$', text_of('statuses'), re.M)
        self.check('names', {number: name for _, number, name in boxes}, wanted)
        self.check('numbers', [one for one, _, _ in boxes], [it for _, it, _ in boxes])

    def test_floors(self):
        """The lines of the floors say all of crates.txt, and none of them could be left out."""
        rows = [it for it in (TOP / 'crates.txt').read_text().splitlines() if it[:1] != '#']
        named = {it.partition(':')[0]: it.partition(':')[2].split() for it in rows}
        own = {name: {it for it in rest if it in named} for name, rest in named.items()}
        drawn = {it: set() for it in own}
        for one, other in re.findall(r'^curve thin (\w+)\.s.* (\w+)\.n', text_of('floors'), re.M):
            drawn[one].add(other)
        below, wanted = closed(drawn), closed(own)
        for one, rest in drawn.items():
            self.check(f'{one} stands on', sorted(below[one]), sorted(wanted[one]))
            spare = {it for it in rest if any(it in below[other] for other in rest)}
            self.check(f'{one} has no line too many', spare, set())
        at = {name: box[1] for name, box in Drawing(text_of('floors')).boxes.items()}
        for one, rest in drawn.items():
            self.check(f'{one} is above', [it for it in rest if at[it] <= at[one]], [])

    def test_shown(self):
        """Each picture is shown by a document, with words for who can't see it."""
        pages = [*TOP.glob('*.md'), *DOCS.glob('*.md'), *(TOP / 'examples').glob('*/*.md')]
        shown = {}
        for page in pages:
            for caption, link in SHOWN.findall(page.read_text()):
                shown.setdefault((page.parent / link).resolve(), []).append(caption)
                self.check(f'{page.name}: {link}', len(caption.split()) > 4, True)
        for name in drawings():
            self.check(f'{name} is shown', DOCS / f'{name}.svg' in shown, True)
