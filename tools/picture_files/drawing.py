"""A drawing as text, and the SVG that it is. A line of the text is one thing:

  size WIDTH HEIGHT                        of the whole, first of all
  title TEXT                               what stands for it where it is not seen
  box KIND NAME X Y WIDTH HEIGHT : TEXT | TEXT     its lines stand in its middle
  frame KIND X Y WIDTH HEIGHT : TEXT       what lies behind boxes; its text is at its top
  text KIND X Y ANCHOR : TEXT | TEXT       ANCHOR is start, middle or end
  line KIND PLACE ..                       straight from place to place
  arrow KIND PLACE ..                      the same, with a head at its end
  curve KIND PLACE ..                      from place to place, upright at each of them
  join KIND PLACE .. BOX                   a line to where it meets, at a dot, one to the box

A place is X,Y or BOX.SIDE or BOX.SIDE+OFFSET: SIDE is n, e, s or w, and the offset goes from its
middle to the right or down. Between two places ^Y leads up or down to Y and then across, and >X
across to X and then up or down. A line that begins with # is none of these."""
import html
import re

# What the characters of ASCII from the space on take of their size, in hundredths, in DejaVu Sans,
# the widest of the fonts that are named below.
WIDTHS = [int(it) for it in """
32 41 46 84 64 96 78 28 40 40 50 84 32 37 32 34 64 64 64 64 64 64 64 64 64 64 34 34 84
84 84 54 100 69 69 70 78 64 58 78 76 30 30 66 56 87 75 79 61 79 70 64 62 74 69 99 69 62
69 40 34 40 84 50 50 62 64 55 64 62 36 64 64 28 28 58 28 98 64 62 64 64 42 53 40 64 60
82 60 60 53 64 34 64 84""".split()]
FONTS = 'DejaVu Sans, Verdana, Helvetica, Arial, sans-serif'
SIZES = {'heading': 17, 'small': 13}
SIZE = 15

STYLE = """\
text { font-family: %s; font-size: %dpx; fill: #1b2733 }
text.heading { font-size: 17px; font-weight: bold }
text.small { font-size: 13px }
text.button { fill: #14532d } text.request { fill: #1d4ed8 } text.stop { fill: #b91c1c }
rect { fill: #f8fafc; stroke: #475569; stroke-width: 1.3 }
path { fill: none; stroke: #475569; stroke-width: 1.6 }
rect.paper { fill: #ffffff; stroke: none }
rect.disk, rect.table { fill: #fdf0d5; stroke: #a16207 }
rect.memory, rect.store { fill: #e3effd; stroke: #1d4ed8 }
rect.work, rect.core { fill: #e5f6ea; stroke: #15803d }
rect.outside, rect.program { fill: #f1ecfb; stroke: #6d28d9 }
rect.http { fill: #fde8ef; stroke: #be185d }
rect.lane { fill: #f8fafc; stroke: #cbd5e1 }
rect.dashed { fill: #ffffff; stroke-dasharray: 5 4 }
path.button { stroke: #15803d; stroke-width: 2.2 }
path.skipped { stroke: #15803d; stroke-dasharray: 5 4 }
path.request { stroke: #1d4ed8; stroke-width: 2 }
path.stop { stroke: #b91c1c; stroke-width: 2; stroke-dasharray: 7 4 }
path.thin { stroke: #64748b; stroke-width: 1.2 }
path.head { stroke: none; fill: #475569 }
path.head.button, path.head.skipped, circle { fill: #15803d }
path.head.request { fill: #1d4ed8 }
path.head.stop { fill: #b91c1c }
@media (prefers-color-scheme: dark) {
text { fill: #e6edf3 }
text.button { fill: #86efac } text.request { fill: #93c5fd } text.stop { fill: #fca5a5 }
rect { fill: #1c2430; stroke: #94a3b8 }
path { stroke: #94a3b8 }
rect.paper { fill: #0d1117 }
rect.disk, rect.table { fill: #3a2a0c; stroke: #d9a441 }
rect.memory, rect.store { fill: #14284b; stroke: #7aa2f7 }
rect.work, rect.core { fill: #10301c; stroke: #4ade80 }
rect.outside, rect.program { fill: #2a1f47; stroke: #a78bfa }
rect.http { fill: #43182b; stroke: #f472b6 }
rect.lane { fill: #161b22; stroke: #475569 }
rect.dashed { fill: #0d1117 }
path.button, path.skipped { stroke: #4ade80 }
path.request { stroke: #7aa2f7 }
path.stop { stroke: #f87171 }
path.thin { stroke: #8b98a9 }
path.head { stroke: none; fill: #94a3b8 }
path.head.button, path.head.skipped, circle { fill: #4ade80 }
path.head.request { fill: #7aa2f7 }
path.head.stop { fill: #f87171 }
}""" % (FONTS, SIZE)


def size_of(kind):
    return next((SIZES[it] for it in kind.split('.') if it in SIZES), SIZE)


def width_of(text, kind):
    """How wide a text is at most."""
    units = sum(WIDTHS[ord(it) - ord(' ')] for it in text)
    return units * size_of(kind) / 100 * (1.12 if 'heading' in kind else 1)


def number(value):
    """A number as it is written: a tenth is enough."""
    return f'{value:.1f}'.removesuffix('.0')


class Drawing:
    """What a text says: elements of SVG, back to front, and where each text stands."""

    def __init__(self, text):
        self.boxes, self.behind, self.lines, self.front = {}, [], [], []
        self.texts = []  # each text with its box: left, top, right, bottom
        self.arrows = []  # each with its kind and its points
        self.title = ''
        for row in text.splitlines():
            if row and not row.startswith('#'):
                word, _, rest = row.partition(' ')
                getattr(self, f'on_{word}')(rest)

    def on_size(self, rest):
        self.width, self.height = map(float, rest.split())

    def on_title(self, rest):
        self.title = rest

    def on_box(self, rest):
        where, _, caption = rest.partition(' : ')
        kind, name, *sides = where.split()
        x, y, width, height = map(float, sides)
        self.boxes[name] = x, y, width, height
        self.rect(self.front, kind, x, y, width, height)
        rows = caption.split(' | ') if caption else []
        kinds = ['' if at == 0 else 'small' for at in range(len(rows))]
        if 'small' in kind.split('.'):
            kinds = ['small'] * len(rows)
        top = y + height / 2 - sum(size_of(it) + 4 for it in kinds) / 2
        for text, it in zip(rows, kinds):
            top += size_of(it) + 4
            self.write(text, it, x + width / 2, top - 5, 'middle')

    def on_frame(self, rest):
        where, _, caption = rest.partition(' : ')
        kind, *sides = where.split()
        x, y, width, height = map(float, sides)
        self.rect(self.behind, kind, x, y, width, height)
        if caption:
            self.write(caption, 'heading', x + 12, y + 22, 'start')

    def on_text(self, rest):
        where, _, caption = rest.partition(' : ')
        kind, x, y, anchor = where.split()
        for at, text in enumerate(caption.split(' | ')):
            self.write(text, kind, float(x), float(y) + at * (size_of(kind) + 4), anchor)

    def on_line(self, rest):
        self.path(*self.places(rest))

    def on_arrow(self, rest):
        kind, points = self.places(rest)
        self.arrows.append((kind, points))
        (x, y), (from_x, from_y) = points[-1], points[-2]
        long = max(abs(x - from_x), abs(y - from_y), 1)
        across, down = (x - from_x) / long, (y - from_y) / long
        # the line ends within its head
        self.path(kind, [*points[:-1], (x - 5 * across, y - 5 * down)])
        ends = [(x, y)] + [(x - 9 * across + side * 4.5 * down, y - 9 * down - side * 4.5 * across)
                           for side in (1, -1)]
        corners = ' '.join(f'{number(a)},{number(b)}' for a, b in ends)
        self.lines.append(f'<path class="head {kind}" d="M {corners} z"/>')

    def on_curve(self, rest):
        kind, points = self.places(rest)
        data = 'M {},{}'.format(*map(number, points[0]))
        for (x, y), (to_x, to_y) in zip(points, points[1:]):
            middle = number((y + to_y) / 2)
            data += f' C {number(x)},{middle} {number(to_x)},{middle} {number(to_x)},{number(to_y)}'
        self.lines.append(f'<path class="{kind}" d="{data}"/>')

    def on_join(self, rest):
        kind, points = self.places(rest.rpartition(' ')[0])
        self.path(kind, points)
        x, y = points[-1]
        self.lines.append(f'<circle class="{kind}" cx="{number(x)}" cy="{number(y)}" r="3.5"/>')

    # ---- parts

    def rect(self, part, kind, x, y, width, height):
        part.append(f'<rect class="{" ".join(kind.split("."))}" x="{number(x)}" y="{number(y)}" '
                    f'width="{number(width)}" height="{number(height)}" rx="5"/>')

    def write(self, text, kind, x, y, anchor):
        width, size = width_of(text, kind), size_of(kind)
        left = x - {'start': 0, 'middle': width / 2, 'end': width}[anchor]
        self.texts.append((text, left, y - 0.8 * size, left + width, y + 0.25 * size))
        self.front.append(f'<text class="{" ".join(kind.split("."))}" x="{number(x)}" '
                          f'y="{number(y)}" text-anchor="{anchor}">{html.escape(text)}</text>')

    def path(self, kind, points):
        data = ' L '.join(f'{number(x)},{number(y)}' for x, y in points)
        self.lines.append(f'<path class="{kind}" d="M {data}"/>')

    def places(self, rest):
        """The kind, and the points that the words after it lead by."""
        kind, *words = rest.split()
        points, turn = [], None
        for word in words:
            if word[0] in '^>':
                turn = word[0], float(word[1:])
                continue
            x, y = self.place(word)
            if turn:
                way, at = turn
                points += ([(points[-1][0], at), (x, at)] if way == '^'
                           else [(at, points[-1][1]), (at, y)])
                turn = None
            points.append((x, y))
        # (where a turn ends at the place there is no leg after it)
        return kind, [it for it, before in zip(points, [None, *points]) if it != before]

    def place(self, word):
        if ',' in word:
            x, y = word.split(',')
            return float(x), float(y)
        name, side, offset = re.fullmatch(r'(\w+)\.([nesw])([+-][\d.]+)?', word).groups()
        x, y, width, height = self.boxes[name]
        along = float(offset or 0)
        return {'n': (x + width / 2 + along, y), 's': (x + width / 2 + along, y + height),
                'w': (x, y + height / 2 + along), 'e': (x + width, y + height / 2 + along)}[side]

    def svg(self):
        width, height = number(self.width), number(self.height)
        return '\n'.join([
            f'<svg xmlns="http://www.w3.org/2000/svg" width="{width}" height="{height}" '
            f'viewBox="0 0 {width} {height}" role="img">',
            f'<title>{html.escape(self.title)}</title>',
            f'<style>\n{STYLE}\n</style>',
            f'<rect class="paper" x="0" y="0" width="{width}" height="{height}"/>',
            *self.behind, *self.lines, *self.front, '</svg>', ''])
