"""What must be read to believe a promise: the clauses of its rows, and definitions below them."""
import functools
import itertools
from dataclasses import dataclass

from promise_files.rows import PROMISES, Tree, rows


@dataclass(frozen=True)
class Reading:
    """Definitions with their files, those that the clauses are part of among them."""
    found: frozenset

    @property
    def files(self):
        return sorted({it.file for it in self.found})

    @property
    def lines(self):
        return sum(len(it.text.splitlines()) for it in self.found)

    def __or__(self, other):
        return Reading(self.found | other.found)

    def of(self, file):
        """The part of it that stands in a file."""
        return Reading(frozenset(it for it in self.found if it.file == file))


@functools.cache
def tree():
    return Tree()


def clause_text(place):
    """The text of a clause: the contract of a function; of a record or a part of one its line, and
    those below it that are further in."""
    if place.file.suffix == '.rt':
        return (place.function or function_at(place)).contract
    first, *rest = place.file.read_text().split('\n')[place.line - 1:]
    margin = len(first) - len(first.lstrip())
    inner = itertools.takewhile(lambda it: it[:margin + 1].isspace(), rest)
    return '\n'.join([first, *inner])


def function_at(place):
    crate = tree().crate(place.file.parent.parent.name)
    return next(it for it in crate.functions if (it.file, it.line) == (place.file, place.line))


def reading_of(row):
    """What is to be read of a row: the definitions that its clause names, to the last. A clause
    that is a definition is read itself."""
    place = tree().place(row)
    last = row.stands.rpartition('::')[2]
    found = set(tree().definitions.below(place.file, clause_text(place)))
    if place.file.suffix == '.antt' and (own := tree().definitions.find(place.file, last)):
        found.add(own)
    return Reading(frozenset(found))


@functools.cache
def readings():
    """What is to be read of each promise, by its number."""
    found = {it: Reading(frozenset()) for it in PROMISES}
    for row in rows():
        if row.section in found and row.name:
            found[row.section] |= reading_of(row)
    return found


def all_of():
    return functools.reduce(Reading.__or__, readings().values())
