"""The pictures, as SVG: how a side fares by errors and by desks, and the table of promises."""
import html

import promises
import table
from summary import SHOWN

COLOURS = {'room': '#2060a0', '1992': '#c03020'}
ROW, LEFT, WIDTH = 30, 165, 155
COLUMNS = 'never_reached', 'in_vain', 'at_two', 'orders_to_busy', 'forgotten_hours'
# The rows, by their names.
ROWS = {None: 'as they are', table.STILL: 'where nothing slows'} | {
    it.name: it.short for it in promises.ALL}


class Picture:
    def __init__(self, width: int, height: int):
        self.head = (f'<svg xmlns="http://www.w3.org/2000/svg" viewBox="0 0 {width} {height}" '
                     f'width="{width}" height="{height}" font-family="sans-serif" font-size="13">'
                     f'<rect width="{width}" height="{height}" fill="#fff"/>')
        self.parts = []

    def add(self, name: str, text: str = '', **values) -> None:
        found = ' '.join(f'{key.replace("_", "-")}="{it}"' for key, it in values.items())
        self.parts.append(f'<{name} {found}>{html.escape(text)}</{name}>')

    def text(self, x, y, text: str, anchor='start', colour='#202020') -> None:
        self.add('text', text, x=round(x, 1), y=round(y, 1), text_anchor=anchor, fill=colour)

    def line(self, x, y, to_x, to_y, colour='#d0d0d0', width=1, dashes='none') -> None:
        self.add('line', x1=round(x, 1), y1=round(y, 1), x2=round(to_x, 1), y2=round(to_y, 1),
                 stroke=colour, stroke_width=width, stroke_dasharray=dashes)

    def dot(self, x, y, colour, is_full=True) -> None:
        self.add('circle', cx=round(x, 1), cy=round(y, 1), r=4, stroke=colour,
                 fill=colour if is_full else '#fff')

    def svg(self) -> str:
        return '\n'.join([self.head, *self.parts, '</svg>']) + '\n'


def along(found: table.Table, what: str, figure: str, says: str) -> str:
    """A figure by the errors or by the desks, with what waits slowing the room and without."""
    curves = {(side, slows): found.along(what, side, slows, figure)
              for side in COLOURS for slows in (True, False)}
    drawn, ticks = Picture(480, 300), list(curves['room', True])
    most = max(it.most for cells in curves.values() for it in cells.values()) or 1
    across = lambda at: 60 + 390 * (at - ticks[0]) / ((ticks[-1] - ticks[0]) or 1)
    up = lambda size: 250 - 200 * size / most
    for size in (0, most / 2, most):
        drawn.line(60, up(size), 450, up(size))
        drawn.text(52, up(size) + 4, f'{size:g}', 'end')
    for at in ticks:
        drawn.text(across(at), 270, f'{at:g}', 'middle')
    drawn.text(8, 20, f'{SHOWN[figure]}; dashed: nothing slows')
    drawn.text(60, 290, says)
    for nth, (side, colour) in enumerate(COLOURS.items()):
        drawn.text(340 + 60 * nth, 290, side, colour=colour)
        for slows in (True, False):
            curve(drawn, curves[side, slows], across, up, colour, slows)
    return drawn.svg()


def curve(drawn: Picture, cells: dict, across, up, colour: str, slows: bool) -> None:
    ends = list(cells.items())
    for (at, it), (to_at, to) in zip(ends, ends[1:]):
        drawn.line(across(at), up(it.median), across(to_at), up(to.median), colour, 2,
                   'none' if slows else '5 4')
    for at, it in ends if slows else ():
        drawn.line(across(at), up(it.least), across(at), up(it.most), colour)
        drawn.dot(across(at), up(it.median), colour)


def of_memory(seen: list[list[int]]) -> str:
    """The memory of the room, in KiB, by how many vehicles were sent."""
    drawn, most = Picture(480, 220), max(it for _, it in seen)
    spots = [(60 + 390 * many / seen[-1][0], 180 - 130 * kib / most) for many, kib in seen]
    for kib in (0, most):
        drawn.line(60, 180 - 130 * kib / most, 450, 180 - 130 * kib / most)
        drawn.text(52, 184 - 130 * kib / most, f'{kib / 1024:.1f}', 'end')
    for spot, after in zip(spots, spots[1:]):
        drawn.line(*spot, *after, COLOURS['room'], 2)
    drawn.text(8, 20, "the room's memory, in MiB")
    drawn.text(60, 204, 'by how many vehicles were sent')
    drawn.text(450, 204, f'{seen[-1][0]:,}', 'end')
    return drawn.svg()


def of_promises(found: table.Table) -> str:
    """The table as a picture: a row a promise, a dot and an interval for 1992 with it and the room
    without it; hollow where that makes no difference."""
    drawn = Picture(LEFT + WIDTH * len(COLUMNS), 94 + ROW * len(ROWS))
    drawn.text(8, 24, 'Room without one', colour=COLOURS['room'])
    drawn.text(8, 44, '1992 with one', colour=COLOURS['1992'])
    for nth, says in enumerate(ROWS.values()):
        y = 78 + ROW * nth
        drawn.text(8, y + 4, says)
        drawn.line(8, y + ROW / 2, LEFT + WIDTH * len(COLUMNS) - 20, y + ROW / 2, '#eeeeee')
    drawn.text(8, 84 + ROW * len(ROWS), f'{found.seeds} days at {times(found.rate)}, each number '
               'that is assumed drawn from its range: median and interval. Hollow: no sure '
               'difference.')
    for column, figure in enumerate(COLUMNS):
        of_figure(drawn, found, figure, LEFT + WIDTH * column)
    return drawn.svg()


def times(rate: float) -> str:
    says = {1: '', 2: 'twice '}.get(rate, f'{rate:g} times ')
    return f'{says}the assumed errors'


def of_figure(drawn: Picture, found: table.Table, figure: str, left: int) -> None:
    """A column of it: a figure."""
    cells = {(side, name): found.row(side, name)[figure] for side in COLOURS for name in ROWS}
    most = max(it.most for it in cells.values()) or 1
    least = min(it.least for it in cells.values())
    across = lambda it: left + 10 + (WIDTH - 40) * (it - least) / ((most - least) or 1)
    drawn.text(left + 4, 24, SHOWN[figure])
    drawn.text(across(least), 44, f'{least:g}', 'middle', '#707070')
    drawn.text(across(most), 44, f'{most:g}', 'middle', '#707070')
    for (side, name), it in cells.items():
        y = 74 + ROW * list(ROWS).index(name) + (7 if side == '1992' else -3)
        drawn.line(across(it.least), y, across(it.most), y, COLOURS[side])
        drawn.dot(across(it.median), y, COLOURS[side], it.matters or name is None)
