#!/usr/bin/env python3
"""Plays a generated day of 1992 on two sides, the proved room and a model without its promises, and
makes a page of it: the day as a map, and a table of the promises one at a time, over days that draw
every assumed number from its range. It wants the built program, and asks nothing of the network.

  play.py FOLDER                                      makes FOLDER/index.html
  play.py FOLDER --map-rate 1 --set slow=0            the assumed errors, and nothing slows
  play.py FOLDER --seeds 3 --rates 1,4 --set calls=3000

Days of the table that table.py has played are not played again, but with --anew. Beside the page
stand the map's list (day.list) and the room before it (before.db): a copy of that room and
`dispatch_room replay COPY <day.list` play the day once more, over each stop."""
import argparse
import csv
import functools
import pathlib
import shutil
import sys
import tempfile

import page
import parameters
import runs
import summary
import table
from model import Model
from proved_room import BUILT, MEMORY, NoRoom, ProvedRoom
from story import Story
from world import World

KEPT = 'day.list', 'before.db', 'plan.csv', 'fleet.csv'


def rates(text: str) -> tuple[float, ...]:
    """Rates with commas between them."""
    try:
        found = tuple(sorted({float(it) for it in text.split(',')}))
    except ValueError:
        found = ()
    if not found or not 0 <= found[0] <= found[-1] <= 30:
        raise argparse.ArgumentTypeError(f'{text!r} is no list of rates, as 0,0.5,1')
    return found


def words():
    parser = argparse.ArgumentParser(prog='play.py', description=__doc__,
                                     formatter_class=argparse.RawDescriptionHelpFormatter)
    parser.add_argument('folder', metavar='FOLDER', type=pathlib.Path, help='where the page goes')
    parser.add_argument('--set', metavar='NAME=VALUE', type=parameters.setting, action='append',
                        default=[], help='another value of a parameter; the page names them all')
    parser.add_argument('--rate', type=float, default=table.RATE,
                        help='how many times the assumed errors come in the table (%(default)s)')
    parser.add_argument('--map-rate', type=float, default=2,
                        help='the same, in the day of the map (%(default)s)')
    parser.add_argument('--rates', type=rates, default=table.RATES, metavar='RATE,..',
                        help='the same, for the picture of where a side fails')
    parser.add_argument('--seeds', type=int, default=table.SEEDS,
                        help='days of a row of the table (%(default)s)')
    parser.add_argument('--anew', action='store_true', help='play all days of the table')
    parser.add_argument('--program', default=str(BUILT if BUILT.exists() else 'dispatch_room'),
                        help='the program (the one built in this tree, or on the PATH)')
    return parser.parse_args()


# ---- runs


def played(settings, rate: float, room) -> World:
    """The day of the map, on a side."""
    world = World(parameters.at_rate(settings, rate), 1, room)
    world.rate, world.story = rate, Story(world)
    return world.play()


def played_in_room(settings, rate: float, program: str, keep: pathlib.Path) -> World:
    """The same in the program. The files of its day are kept in a folder."""
    with tempfile.TemporaryDirectory(dir=MEMORY if MEMORY.is_dir() else None) as name:
        folder = pathlib.Path(name)
        world = played(settings, rate, functools.partial(ProvedRoom, program=program,
                                                         folder=folder))
        world.cost = world.desks.room.room.end()
        for file in KEPT:
            shutil.copy(folder / file, keep / file)
    return world


def write_sides(path: pathlib.Path, sides: dict[str, World]) -> None:
    """The figures of the map's day, a row for each side."""
    found = [{'side': name} | summary.figures(it) for name, it in sides.items()]
    with path.open('w', newline='') as file:
        writer = csv.DictWriter(file, list(found[0]), lineterminator='\n')
        writer.writeheader()
        writer.writerows(found)


def main() -> int:
    given = words()
    values = parameters.values(given.set)
    try:
        if not shutil.which(given.program):
            raise NoRoom(f'{given.program}: there is no such program; ./dispatch_room builds it')
        given.folder.mkdir(parents=True, exist_ok=True)
        sides = {'room': played_in_room(values, given.map_rate, given.program, given.folder),
                 '1992': played(values, given.map_rate, lambda it: Model(it, frozenset()))}
        found = table.Table(given.seeds, given.rate, given.set, given.rates).play(
            {} if given.anew else runs.read())
        page.write(given.folder, found, sides, values)
        runs.write(given.folder / 'days.csv', found.found)
        write_sides(given.folder / 'day.csv', sides)
    except (NoRoom, page.NoClause, OSError) as fault:
        print(f'play.py: {fault}', file=sys.stderr)
        return 1
    seconds, memory = sides['room'].cost
    print(f'{sides["room"].desks.room.room.messages} messages, {seconds:.1f} processor seconds of '
          f'the room, {memory // 1024} MiB\n{given.folder / "index.html"}')
    return 0


if __name__ == '__main__':
    sys.exit(main())
