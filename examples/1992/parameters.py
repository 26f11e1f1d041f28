"""Every number of the story, of parameters.csv: its name, its value, the range from which a day of
the table draws it, whether a run multiplies it by its rate of errors, where it is from, and what it
is."""
import argparse
import csv
import dataclasses
import pathlib
import random
import types

SOURCES = {'accounts': 'the accounts, from memory', 'assumed': 'assumed'}


@dataclasses.dataclass(frozen=True)
class Parameter:
    name: str
    value: int | float
    least: int | float
    most: int | float
    is_error: bool
    source: str
    what: str

    @property
    def is_share(self) -> bool:
        return isinstance(self.value, float)

    def read(self, text: str) -> int | float:
        """A value of it: a share from 0 to 1, or a whole number."""
        value = float(text) if self.is_share else int(text)
        if not 0 <= value <= (1 if self.is_share else 10 ** 9):
            raise ValueError
        return value

    def drawn(self, seed: int) -> int | float:
        """A value from its range, the same for one seed."""
        draws = random.Random(f'{seed} range {self.name}')
        if self.is_share:
            return round(draws.uniform(self.least, self.most), 3)
        return draws.randint(self.least, self.most)


def parameter(row: dict[str, str]) -> Parameter:
    numbers = (row[it] for it in ('value', 'least', 'most'))
    return Parameter(row['name'], *(float(it) if '.' in row['value'] else int(it)
                                    for it in numbers),
                     row['with rate'] == 'yes', SOURCES[row['source']], row['what'])


with pathlib.Path(__file__).with_name('parameters.csv').open(newline='') as file:
    ALL = {row['name']: parameter(row) for row in csv.DictReader(file)}
ERRORS = [it for it in ALL.values() if it.is_error]


def setting(text: str) -> tuple[str, int | float]:
    """A word NAME=VALUE of the command line."""
    name, _, value = text.partition('=')
    if name not in ALL:
        raise argparse.ArgumentTypeError(f'{name!r} is no parameter: {", ".join(ALL)}')
    try:
        return name, ALL[name].read(value)
    except ValueError:
        kind = 'a share from 0 to 1' if ALL[name].is_share else 'a whole number'
        raise argparse.ArgumentTypeError(f'{name} is {kind}, not {value!r}') from None


def values(given) -> dict[str, int | float]:
    """The value of each parameter: that which is given, or else its default."""
    return {name: it.value for name, it in ALL.items()} | dict(given)


def drawn(given, seed: int) -> dict[str, int | float]:
    """The same, but what is not given is drawn from its range."""
    found = {name: it.drawn(seed) for name, it in ALL.items()}
    return found | {'seed': seed} | dict(given)


def at_rate(found: dict[str, int | float], rate: float) -> types.SimpleNamespace:
    """The values of a run, in which errors come at so many times their rates."""
    errors = {it.name: min(1.0, rate * found[it.name]) for it in ERRORS}
    return types.SimpleNamespace(**found | errors)
