"""The crates as floors: each stands above all that it stands on, with a line to each of these that
isn't below another one."""

# A family of crates by how their names begin, the longest first, and the kind of its boxes.
FAMILIES = [('dispatch_room', 'program'), ('room_http', 'http'), ('room_store', 'store'),
            ('room_tables', 'table'), ('room_core', 'core'), ('room_queue', 'core'),
            ('room_alloc', 'core'), ('room_incident', 'core'), ('room_fleet', 'core')]
# What the colours are, at the foot of the picture.
LEGEND = {'program': 'the program', 'http': 'its messages', 'store': 'the store',
          'table': 'the tables', 'core': 'the decisions', 'ground': 'the meaning'}
WIDTH, MARGIN, GAP = 960, 14, 16
FLOOR, HEIGHT, LETTER = 62, 27, 7.9
NOTE = 24  # what the line below the boxes takes
BEND = 4  # what a line that passes a floor takes of it


def stands_on(text):
    """The crates by their names, each with those of ours that it stands on directly."""
    rows = [it.partition(':') for it in text.splitlines() if it and not it.startswith('#')]
    named = {name: rest.split() for name, _, rest in rows}
    own = {name: [it for it in rest if it in named] for name, rest in named.items()}
    below = {}
    for name, rest in own.items():  # lowest first
        below[name] = set(rest).union(*(below[it] for it in rest))
    return {name: [it for it in rest if not any(it in below[other] for other in rest)]
            for name, rest in own.items()}


def floors_of(edges):
    """The floor of each crate, above all below it: so that each floor fits the page, and then so
    that lines are short."""
    floors = {}
    for name, rest in edges.items():
        floors[name] = 1 + max((floors[it] for it in rest), default=-1)
    top = max(floors.values())
    above = {name: [it for it in edges if name in edges[it]] for name in edges}
    better = True
    while better:
        better = False
        for name in edges:
            least = 1 + max((floors[it] for it in edges[name]), default=-1)
            most = min((floors[it] for it in above[name]), default=top + 1)
            here = floors[name]
            costs = [(cost(edges, floors | {name: it}), it) for it in range(least, most)]
            if min(costs)[0] < cost(edges, floors):
                floors[name] = min(costs)[1]
            better = better or floors[name] != here
    return floors


def cost(edges, floors):
    """How much too wide floors are, and then how long all lines are together."""
    widths = dict.fromkeys(floors.values(), 2 * MARGIN)
    for name, floor in floors.items():
        widths[floor] += width_of(name) + GAP
    length = 0
    for name, rest in edges.items():
        for it in rest:
            length += floors[name] - floors[it]
            for floor in range(floors[it] + 1, floors[name]):
                widths[floor] = widths.get(floor, 2 * MARGIN) + BEND + GAP
    return sum(max(0, it - WIDTH) for it in widths.values()), length


class Layout:
    """The places of boxes and of the bends of lines, a list for each floor, top first."""

    def __init__(self, edges):
        self.edges, self.floors = edges, floors_of(edges)
        top = max(self.floors.values())
        self.rows = [[] for _ in range(top + 1)]
        for name in reversed(edges):
            self.rows[top - self.floors[name]].append(name)
        self.chains = {}
        for name, rest in edges.items():
            for it in rest:
                bends = [(name, it, at) for at in range(self.floors[name] - 1, self.floors[it], -1)]
                for bend in bends:
                    self.rows[top - bend[2]].append(bend)
                self.chains[name, it] = [name, *bends, it]
        self.up, self.down = {}, {}
        for chain in self.chains.values():
            for one, other in zip(chain, chain[1:]):
                self.down.setdefault(one, []).append(other)
                self.up.setdefault(other, []).append(one)
        self.order()
        self.move()

    def order(self):
        """Orders each floor so that few lines cross: by the middle of what each box stands on or
        carries, down and up again, and then by swaps of neighbours. It begins from several
        orders."""
        first, best = [list(it) for it in self.rows], None
        for begin in range(24):
            self.rows = [row[begin % len(row):] + row[:begin % len(row)] for row in first]
            for turn in range(12):
                sides = [self.up, self.down][turn % 2]
                for row in self.rows[1:] if turn % 2 == 0 else self.rows[-2::-1]:
                    self.sort(row, sides)
                self.swap()
                found = self.crossings(), self.detours(), [list(it) for it in self.rows]
                best = found if best is None else min(best, found, key=lambda it: it[:2])
        self.rows = best[2]

    def detours(self):
        """How far lines lead across, in pages."""
        at = self.positions()
        return sum(abs(at[one] - at[other]) for one, rest in self.down.items() for other in rest)

    def sort(self, row, sides):
        at = self.positions()
        middle = {it: (sum(at[other] for other in sides[it]) / len(sides[it]) if it in sides
                       else at[it]) for it in row}
        row.sort(key=middle.get)

    def positions(self):
        return {it: (at + 0.5) / len(row) for row in self.rows for at, it in enumerate(row)}

    def swap(self):
        """Swaps neighbours while fewer lines cross by it."""
        better = True
        while better:
            better = False
            at = {it: place for row in self.rows for place, it in enumerate(row)}
            for row in self.rows:
                for place in range(len(row) - 1):
                    one, other = row[place], row[place + 1]
                    if self.between(at, one, other) > self.between(at, other, one):
                        row[place], row[place + 1] = other, one
                        at[one], at[other] = place + 1, place
                        better = True

    def between(self, at, left, right):
        """How many lines of two neighbours cross."""
        return sum(at[one] > at[other] for sides in (self.up, self.down)
                   for one in sides.get(left, []) for other in sides.get(right, []))

    def crossings(self):
        at = {it: place for row in self.rows for place, it in enumerate(row)}
        return sum(at[low] > at[lower] for row in self.rows
                   for place, one in enumerate(row) for other in row[place + 1:]
                   for low in self.down.get(one, []) for lower in self.down.get(other, []))

    def move(self):
        """Moves each box towards the middle of what it is joined to, as far as its floor has
        room."""
        self.x = {it: WIDTH * (place + 0.5) / len(row)
                  for row in self.rows for place, it in enumerate(row)}
        for turn in range(300):
            rows = self.rows if turn % 2 else self.rows[::-1]
            for row in rows:
                wanted = [self.wish(it) for it in row]
                for it, x in zip(row, apart(wanted, [width_of(it) for it in row])):
                    self.x[it] = x

    def wish(self, it):
        """Where it would stand best: a box in the middle of what it is joined to, a bend where its
        line would be straight."""
        if isinstance(it, str):
            joined = self.up.get(it, []) + self.down.get(it, [])
        else:
            joined = self.chains[it[:2]]
        return sum(self.x[other] for other in joined) / len(joined)


def width_of(it):
    return len(it) * LETTER + 16 if isinstance(it, str) else BEND


def apart(wanted, widths):
    """Places nearest to the wanted ones, in their order and not over each other, on the page.
    (Neighbours that would overlap are put together, and stand round the middle of their wishes.)"""
    starts, at = [], 0
    for width in widths:
        starts.append(at + width / 2)
        at += width + GAP
    free = WIDTH - 2 * MARGIN - (at - GAP)
    blocks = []
    for wish, start in zip(wanted, starts):
        blocks.append([wish - start, 1])
        while len(blocks) > 1 and blocks[-2][0] > blocks[-1][0]:
            mean, count = blocks.pop()
            blocks[-1] = [(blocks[-1][0] * blocks[-1][1] + mean * count) / (blocks[-1][1] + count),
                          blocks[-1][1] + count]
    shifts = [min(max(mean, MARGIN), MARGIN + free) for mean, count in blocks for _ in range(count)]
    return [shift + start for shift, start in zip(shifts, starts)]


def kind_of(name):
    return next((kind for prefix, kind in FAMILIES if name.startswith(prefix)), 'ground')


def drawing(text):
    """The drawing of the crates that crates.txt names."""
    layout = Layout(stands_on(text))
    top = 16
    y = {it: top + at * FLOOR for at, row in enumerate(layout.rows) for it in row}
    foot = top + len(layout.rows) * FLOOR
    height = foot + HEIGHT + top + NOTE
    yield f'size {WIDTH} {height}'
    yield 'title The crates, each above all that it stands on'
    for row in layout.rows:
        for it in row:
            if isinstance(it, str):
                width = width_of(it)
                yield (f'box {kind_of(it)}.small {it} {layout.x[it] - width / 2:.1f} {y[it]} '
                       f'{width:.1f} {HEIGHT} : {it}')
    for chain in layout.chains.values():
        bends = [f'{layout.x[it]:.1f},{y[it] + at}' for it in chain[1:-1] for at in (0, HEIGHT)]
        ends = port(layout, chain[0], chain[1], 's'), port(layout, chain[-1], chain[-2], 'n')
        yield ' '.join(['curve thin', ends[0], *bends, ends[1]])
    width = (WIDTH - 2 * MARGIN + GAP) / len(LEGEND) - GAP
    for at, (kind, caption) in enumerate(LEGEND.items()):
        x = MARGIN + at * (width + GAP)
        yield f'box {kind}.small {kind} {x:.1f} {foot} {width:.1f} {HEIGHT} : {caption}'
    yield (f'text small {MARGIN} {foot + HEIGHT + NOTE} start : Each box is a folder of crates/, '
           'with its code in src/, its definitions in specs/ and its proofs in proofs/.')


def port(layout, box, other, side):
    """Where a line leaves a box: side by side, in the order of what they lead to."""
    joined = (layout.down if side == 's' else layout.up)[box]
    place = sorted(joined, key=layout.x.get).index(other)
    step = min(24, (width_of(box) - 30) / len(joined))
    return f'{box}.{side}{(place - (len(joined) - 1) / 2) * step:+.1f}'
