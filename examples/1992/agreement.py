#!/usr/bin/env python3
"""Whether the model with all promises is the proved room: days, each with every number drawn from
its range, that are played in both. It wants the built program.

  agreement.py              ten days at twice the assumed errors, those of the seeds 0 to 9
  agreement.py 7 --rate 1 --set calls=300 --set vehicles=60

Each day has a row of figures for either. Of a day on which they answer otherwise the first question
is printed, and the command fails."""
import argparse
import csv
import functools
import pathlib
import sys
import tempfile

import parameters
import summary
from model import Model
from promises import KEPT
from proved_room import BUILT, MEMORY, ProvedRoom
from rooms import Incident
from world import World


class Both:
    """The proved room, and beside it the model, which is asked the same."""
    is_log = False

    def __init__(self, world, program: str, folder: pathlib.Path):
        self.world, self.asked, self.parted = world, 0, []
        self.room, self.model = ProvedRoom(world, program, folder), Model(world, KEPT)

    def __getattr__(self, name: str):
        def ask(*given):
            room, model = (getattr(it, name)(*given) for it in (self.room, self.model))
            self.asked += 1
            if plain(room) != plain(model):
                self.parted.append(f'at second {self.world.now} {name}{given}: the room answers '
                                   f'{plain(room)}, the model {plain(model)}')
            return room
        return ask


def plain(answer):
    """An answer as it can be compared; incidents come in no order."""
    if isinstance(answer, list) and answer and isinstance(answer[0], Incident):
        return sorted((it.key, it.place, it.grade, it.opened) for it in answer)
    return answer


def day(settings, program: str) -> tuple[Both, dict, dict]:
    """A day in both: what they were asked, the room's figures, and those of the model by itself."""
    with tempfile.TemporaryDirectory(dir=MEMORY if MEMORY.is_dir() else None) as folder:
        world = World(settings, 1, functools.partial(Both, program=program,
                                                     folder=pathlib.Path(folder))).play()
        world.desks.room.room.room.end()
    model = World(settings, 1, lambda it: Model(it, KEPT)).play()
    return world.desks.room, summary.figures(world), summary.figures(model)


def words():
    parser = argparse.ArgumentParser(prog='agreement.py', description=__doc__,
                                     formatter_class=argparse.RawDescriptionHelpFormatter)
    parser.add_argument('seeds', metavar='SEED', type=int, nargs='*', default=range(10))
    parser.add_argument('--set', metavar='NAME=VALUE', type=parameters.setting, action='append',
                        default=[], help='a value of a parameter on all days')
    parser.add_argument('--rate', type=float, default=2, help='times the errors (%(default)s)')
    parser.add_argument('--program', default=str(BUILT if BUILT.exists() else 'dispatch_room'))
    return parser.parse_args()


def main() -> int:
    given, out, status = words(), csv.writer(sys.stdout, lineterminator='\n'), 0
    out.writerow(['seed', 'side', 'answers', 'otherwise', *summary.SHOWN])
    for seed in given.seeds:
        settings = parameters.at_rate(parameters.drawn(given.set, seed), given.rate)
        both, *found = day(settings, given.program)
        for side, it in zip(('room', 'model'), found):
            out.writerow([seed, side, both.asked, len(both.parted),
                          *(it[name] for name in summary.SHOWN)])
        sys.stdout.flush()
        if both.parted:
            print(both.parted[0], file=sys.stderr)
            status = 1
    return status


if __name__ == '__main__':
    sys.exit(main())
