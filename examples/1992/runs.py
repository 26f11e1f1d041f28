"""The days that are played, each by what it keeps, its rate of errors and its seed; as many at once
as there are processors. What came of those of the table is kept in days.csv."""
import concurrent.futures
import csv
import dataclasses
import os
import pathlib

import parameters
import promises
import summary
from model import Model
from world import World

DAYS = pathlib.Path(__file__).resolve().parent / 'days.csv'


@dataclasses.dataclass(frozen=True)
class Day:
    """A day of the model: the promises that it keeps, how many times the errors come, and the seed
    by which all that is not given is drawn from its range."""
    kept: frozenset[str]
    rate: float
    seed: int
    given: tuple = ()  # names and values, in order

    def figures(self) -> dict:
        settings = parameters.at_rate(parameters.drawn(self.given, self.seed), self.rate)
        found = summary.figures(World(settings, 1, lambda it: Model(it, self.kept)).play())
        return {name: found[name] for name in summary.SHOWN}

    def row(self) -> dict:
        """How a table of days names it."""
        return {'kept': ' '.join(it.name for it in promises.ALL if it.name in self.kept),
                'rate': f'{self.rate:g}', 'seed': self.seed,
                'given': ' '.join(f'{name}={value}' for name, value in self.given)}


def day_of(row: dict) -> Day:
    return Day(frozenset(row['kept'].split()), float(row['rate']), int(row['seed']),
               tuple(map(parameters.setting, row['given'].split())))


def figures_of(day: Day) -> dict:
    return day.figures()


def play(days, known: dict[Day, dict]) -> dict[Day, dict]:
    """The figures of each day. Those that are known are not played."""
    new = [it for it in days if it not in known]
    found = dict(known)
    if new:
        with concurrent.futures.ProcessPoolExecutor(len(os.sched_getaffinity(0))) as pool:
            found |= zip(new, pool.map(figures_of, new))
    return {it: found[it] for it in days}


def write(path: pathlib.Path, found: dict[Day, dict]) -> None:
    """A row for each day."""
    with path.open('w', newline='') as file:
        writer = csv.writer(file, lineterminator='\n')
        writer.writerow(['kept', 'rate', 'seed', 'given', *summary.SHOWN])
        writer.writerows([*day.row().values(), *(f'{value:g}' for value in it.values())]
                         for day, it in found.items())


def read(path: pathlib.Path = DAYS) -> dict[Day, dict]:
    """What write wrote."""
    with path.open(newline='') as file:
        return {day_of(row): {name: float(row[name]) for name in summary.SHOWN}
                for row in csv.DictReader(file)}
