#!/usr/bin/env python3
"""Nine days later, on 4 November 1992, the system stopped: a piece of memory had been kept for each
vehicle that was sent, for three weeks, and the machine that stood by had never been tried. Here as
many vehicles are sent in the proved room while its memory is watched; then three machines are one
room (examples/three), and the one that leads is killed while vehicles are sent.

  november.py           keeps what it saw in november.json, of which the page is made
  november.py --many 2000 --orders 40 --file FILE"""
import argparse
import collections
import contextlib
import http.client
import json
import os
import pathlib
import signal
import subprocess
import tempfile
import time
import types

import parameters
import people
from people import Call, Report
from proved_room import BUILT, HERE, MEMORY, ProvedRoom, crew_of, desk, make, reference, taker
from rooms import Incident

import members
import three

SEEN = HERE / 'november.json'
MANY = 42_000  # three weeks of 2,000 a day
BETWEEN = 43  # seconds between two of them
LOOKS = 42  # at the room's memory
ORDERS = 200  # of the second part, half of them before a machine is killed
WAITS = 10.0  # seconds that a terminal waits for one machine


# ---- the memory of one room


def world_of(many_crews: int):
    """Crews on duty for as long as it takes, with nothing else in the world."""
    settings = parameters.at_rate(parameters.values({'vehicles': many_crews}), 0)
    city = people.City(settings.side, 1)
    crews = people.crews(settings, city)
    for it in crews.values():
        it.until = (MANY + 1) * BETWEEN
    return types.SimpleNamespace(settings=settings, city=city, crews=crews, now=0)


def place_of(nth: int) -> people.Place:
    """No two of a day are near enough for one incident."""
    return 510_000 + 300 * (nth % 130), 160_000 + 300 * (nth // 130 % 130)


def send(world, room: ProvedRoom, nth: int) -> None:
    """A call, the vehicle that is proposed for it, and its crew's day until it is free again."""
    call = Call(nth, place_of(nth), 2, 1)
    incident = Incident(room.call(call), call.place, call.grade, world.now)
    crew = world.crews[room.proposed(incident)]
    number = room.mobilise(incident, crew.callsign)
    for button in 'mobile', 'scene', 'return':
        crew.reports += 1
        room.report(crew, Report(crew.reports, button, number, call.place))


def resident(pid: int) -> int:
    """The memory of a process, in KiB."""
    lines = pathlib.Path(f'/proc/{pid}/status').read_text().split('\n')
    return next(int(it.split()[1]) for it in lines if it.startswith('VmRSS:'))


def memory(program: str, many: int) -> list[tuple[int, int]]:
    """After how many mobilisations the room had how much memory."""
    found = []
    with tempfile.TemporaryDirectory(dir=MEMORY if MEMORY.is_dir() else None) as folder:
        world = world_of(60)
        room = ProvedRoom(world, program, pathlib.Path(folder))
        for it in world.crews.values():
            room.on_duty(it, it.home)
        for nth in range(many):
            world.now += BETWEEN
            send(world, room, nth)
            if (nth + 1) % 20 == 0:
                room.close_done(1)
            if (nth + 1) % (many // LOOKS) == 0 or nth + 1 == many:
                found.append((nth + 1, resident(room.room.process.pid)))
        room.room.end()
    return found


# ---- three machines


class Terminal:
    """Asks a machine, and where that gives no answer, the next one."""

    def __init__(self, *addresses: str):
        self.addresses, self.at, self.answered = addresses, 0, []

    def ask(self, token: str, line: str, body: dict | None = None) -> tuple[int, dict]:
        """The status and the content of an answer."""
        until = time.monotonic() + 120
        while time.monotonic() < until:
            with contextlib.suppress(OSError, ValueError, http.client.HTTPException):
                status, content = self.exchange(token, line, body)
                if status != 503:
                    self.answered.append(time.monotonic())
                    return status, content
            self.at = (self.at + 1) % len(self.addresses)
            time.sleep(0.02)
        raise TimeoutError(f'no machine answers: {line}')

    def exchange(self, token: str, line: str, body: dict | None) -> tuple[int, dict]:
        connection = http.client.HTTPConnection(self.addresses[self.at], timeout=WAITS)
        with contextlib.closing(connection):
            connection.request(*line.split(), json.dumps(body) if body else None,
                               {'X-Terminal': token, 'Connection': 'close'})
            answer = connection.getresponse()
            return answer.status, json.loads(answer.read())

    def silence(self) -> float:
        """The longest time between two answers."""
        return max(b - a for a, b in zip(self.answered, self.answered[1:]))


@contextlib.contextmanager
def machines(program: str, folder: pathlib.Path, ports: int, world):
    """Three machines over a folder, each a member of etcd and a companion with its room; gives
    where terminals come, and what kills all of a machine at once, without a word before."""
    found, started = members.machines(folder, ports), collections.defaultdict(list)

    def start(number: int, words) -> None:
        started[number].append(three.start(words, stdout=subprocess.DEVNULL,
                                           stderr=subprocess.DEVNULL))

    def kill(number: int) -> None:
        for it in started.pop(number, []):
            with contextlib.suppress(ProcessLookupError):
                os.killpg(it.pid, signal.SIGKILL)
            it.wait()

    make(program, folder / 'first.db', world.city, world.crews)
    try:
        for it in found:
            start(it.number, it.member())
        for it in found:
            three.until_done(it.begin(folder / 'first.db'))
            start(it.number, it.companion('--program', program))
        yield [it.terminals for it in found], kill
    finally:
        for it in found:
            kill(it.number)


def send_all(terminal: Terminal, crews: dict, halfway) -> dict[str, tuple[int, int]]:
    """Sends each crew to an incident of its own; gives its order's number, and the incident."""
    orders, until = {}, int(time.time()) + 86_400
    for it in crews.values():
        terminal.ask(desk(1), f'POST /vehicles/{it.callsign}/duty',
                     {'place': reference(it.home), 'until': until})
    del terminal.answered[:]
    for nth, name in enumerate(crews):
        if nth == len(crews) // 2:
            halfway()
        form = {'class': 1, 'needs': [1, 0, 0], 'note': '', 'place': reference(place_of(nth)),
                'serial': nth + 1}
        incident = terminal.ask(taker(1), 'POST /call', form)[1]['incident']
        status, answer = terminal.ask(desk(1), f'POST /incidents/{incident}/mobilise',
                                      {'vehicle': name})
        # (one that no answer came for may have been given all the same, and is refused again)
        orders[name] = answer['order'] if status == 200 else 1, incident
    return orders


def lost(terminal: Terminal, orders: dict[str, tuple[int, int]]) -> int:
    """How many of the orders crews don't get when they ask."""
    found = 0
    for name, wanted in orders.items():
        order = terminal.ask(crew_of(name), 'GET /order')[1]['order'] or {}
        found += (order.get('order'), order.get('incident')) != wanted
    return found


def leading(addresses: list[str]) -> int:
    """Which machine has the member of etcd that leads, once all have begun."""
    while True:
        found = [Terminal(it).ask('', 'GET /health')[1]['etcd']['leads'] for it in addresses]
        if True in found:
            return found.index(True)
        time.sleep(0.1)


def killed(program: str, many: int, ports: int) -> dict[str, int | float]:
    """What became of the orders where that of three machines is killed whose member of etcd leads,
    as the others then have to choose."""
    world = world_of(many)
    with (tempfile.TemporaryDirectory() as folder,
          machines(program, pathlib.Path(folder), ports, world) as (addresses, kill)):
        first = leading(addresses)
        others = [it for it in addresses if it != addresses[first]]
        terminal = Terminal(addresses[first], *others)
        orders = send_all(terminal, world.crews, lambda: kill(first + 1))
        return {'orders': len(orders), 'silence': round(terminal.silence(), 2),
                'lost': max(lost(Terminal(it), orders) for it in others)}


def main() -> None:
    parser = argparse.ArgumentParser(prog='november.py', description=__doc__,
                                     formatter_class=argparse.RawDescriptionHelpFormatter)
    parser.add_argument('--many', type=int, default=MANY, help='vehicles that are sent')
    parser.add_argument('--orders', type=int, default=ORDERS, help='those by three machines')
    parser.add_argument('--file', type=pathlib.Path, default=SEEN)
    parser.add_argument('--ports', type=int, default=8080, help='those behind it are taken')
    parser.add_argument('--program', default=str(BUILT if BUILT.exists() else 'dispatch_room'))
    given = parser.parse_args()
    seen = {'memory': memory(given.program, given.many)}
    seen |= killed(given.program, given.orders, given.ports)
    given.file.write_text(json.dumps(seen) + '\n')


if __name__ == '__main__':
    main()
