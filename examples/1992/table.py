#!/usr/bin/env python3
"""The table of promises, one at a time, and from where on a side fails, by errors and by desks: of
each figure the median of all days, and the interval without the lowest and the highest.

  table.py      plays all its days anew, and keeps what came of them in days.csv

That takes minutes. tools/pictures.py then draws docs/1992.svg of it."""
import dataclasses
import statistics

import runs
from promises import ALL, KEPT
from summary import SHOWN

SEEDS = 20  # days of each row
RATE = 1  # of the errors, times those assumed
RATES = 0, 1, 2, 3, 4
DESKS = 1, 2, 3, 4
FEW = 3  # days of each point of the pictures by errors and by desks
FAILS = 10  # emergencies of a day that nobody reaches: with more a side fails
SURE = 0.9  # of the days have to differ in the same way, for a promise to matter to a figure
SIDES = {'1992': frozenset(), 'room': KEPT}
STILL = 'still'  # the row of a side as it is, where nothing slows


@dataclasses.dataclass(frozen=True)
class Cell:
    """A figure over all days; and whether it differs from that of the side as it is."""
    median: float
    least: float
    most: float
    matters: bool


def cell(found: list[float], base: list[float]) -> Cell:
    ordered = sorted(found)
    cut = 1 if len(found) > 2 else 0
    more = sum(a > b for a, b in zip(found, base))
    less = sum(a < b for a, b in zip(found, base))
    return Cell(round(statistics.median(found), 1), ordered[cut], ordered[-1 - cut],
                max(more, less) >= SURE * len(found))


class Table:
    """What came of days: by rows, which are a side as it is, where nothing slows, and with one
    promise given to it or taken from it; and of both sides by errors and desks."""

    def __init__(self, seeds=SEEDS, rate=RATE, given=(), rates=RATES):
        self.seeds, self.rate, self.given = seeds, rate, dict(given)
        self.days, self.by, self.found = {}, {'errors': {}, 'desks': {}}, {}
        for side, kept in SIDES.items():
            self.days[side, None] = self.of_seeds(kept, rate, seeds)
            self.days[side, STILL] = self.of_seeds(kept, rate, seeds, slow=0)
            for it in ALL:
                self.days[side, it.name] = self.of_seeds(kept ^ {it.name}, rate, seeds)
            for slows in (True, False):
                for it in rates:
                    self.by['errors'][side, slows, it] = self.few(kept, it, slows)
                for it in DESKS:
                    self.by['desks'][side, slows, it] = self.few(kept, 1, slows, desks=it)

    def every(self) -> list[runs.Day]:
        """All its days, each once."""
        found = [*self.days.values(), *self.by['errors'].values(), *self.by['desks'].values()]
        return list(dict.fromkeys(day for days in found for day in days))

    def play(self, known: dict[runs.Day, dict]) -> 'Table':
        """Has the days played of which it isn't known what came of them."""
        self.found = runs.play(self.every(), known)
        return self

    def of_seeds(self, kept, rate: float, seeds: int, **more) -> list[runs.Day]:
        given = tuple(sorted((self.given | more).items()))
        return [runs.Day(kept, rate, seed, given) for seed in range(seeds)]

    def few(self, kept, rate: float, slows: bool, desks=None) -> list[runs.Day]:
        """Days of a point of a picture, with what waits slowing the room or not."""
        more = {'desks': desks or self.given.get('desks', 2)} | ({} if slows else {'slow': 0})
        return self.of_seeds(kept, rate, min(FEW, self.seeds), **more)

    def of(self, days, name: str) -> list[float]:
        return [self.found[it][name] for it in days]

    def row(self, side: str, name: str | None) -> dict[str, Cell]:
        base = self.days[side, None]
        return {it: cell(self.of(self.days[side, name], it), self.of(base, it)) for it in SHOWN}

    def differing(self, name: str | None) -> dict[str, tuple[Cell, Cell]]:
        """The figures of a row in which the two sides differ: those of 1992, and of the room."""
        found = {}
        for it in SHOWN:
            one, other = (self.of(self.days[side, name], it) for side in SIDES)
            if cell(one, other).matters:
                found[it] = cell(one, other), cell(other, one)
        return found

    def along(self, what: str, side: str, slows: bool, name: str) -> dict[float, Cell]:
        """A figure of a side by the errors or by the desks."""
        found = {at: self.of(days, name) for (of, how, at), days in self.by[what].items()
                 if (of, how) == (side, slows)}
        return {at: cell(it, it) for at, it in found.items()}

    def fails(self, what: str, side: str, slows: bool) -> list[float]:
        """At which errors, or with how many desks, a side fails."""
        found = self.along(what, side, slows, 'never_reached')
        return [at for at, it in found.items() if it.median > FAILS]


if __name__ == '__main__':
    runs.write(runs.DAYS, Table().play({}).found)
