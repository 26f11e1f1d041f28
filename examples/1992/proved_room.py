"""The proved room: the program plays a list that is written as the day goes, each message at its
moment, and answers at once, so desks and crews act on what it answers."""
import dataclasses
import json
import os
import pathlib
import shutil
import subprocess
import sys

import people
from people import Call, Crew, Order, Place, Report
from rooms import ON_JOB, Incident, Line, Room

HERE = pathlib.Path(__file__).resolve().parent
sys.path.append(str(HERE.parent / 'three'))

import digest  # noqa: E402

MIDNIGHT = 720_057_600  # of 26 October 1992
BUILT = HERE.parent.parent / 'crates' / 'dispatch_room' / 'out' / 'dispatch_room'
# A room lies in memory where there is such a folder: else each change waits for a disk.
MEMORY = pathlib.Path('/dev/shm')


class NoRoom(Exception):
    """Why there is no room, or none any more."""


@dataclasses.dataclass(frozen=True)
class Exchange:
    """A message at a second of the day, and its answer."""
    moment: int
    token: str
    line: str
    body: dict | None
    status: int
    content: dict


def reference(place: people.Place) -> str:
    return f'TQ{place[0] - 500_000:05}{place[1] - 100_000:05}'


def desk(division: int) -> str:
    return f'deskof{division:02}'


def taker(position: int) -> str:
    return f'takerof{position:02}'


def crew_of(callsign: str) -> str:
    return f'crewof{callsign}'


def plan(city: people.City) -> str:
    """The text of the plan. A place on two edges is of the lower division, as in the city."""
    rows = ['what,number,a,b,c,d', 'zone,0,"GMT0BST,M3.5.0/1,M10.5.0",,,']
    for division, sides in city.areas().items():
        rows += [f'area,{division},{",".join(map(str, sides))}',
                 f'desk,{division},{desk(division)},,,']
    rows += [f'position,{it},{taker(it)},,,' for it in range(1, people.POSITIONS + 1)]
    return '\n'.join(rows) + '\n'


def fleet(crews: dict[str, Crew]) -> str:
    rows = [f'{it.callsign},{it.division},1,{reference(it.home)},{crew_of(it.callsign)}'
            for it in crews.values()]
    return '\n'.join(['callsign,division,kind,place,token', *rows]) + '\n'


def make(program: str, room: pathlib.Path, city: people.City, crews: dict[str, Crew]) -> None:
    """Makes a room, of a plan and a fleet beside it."""
    for task, name, text in (('init', 'plan', plan(city)), ('import', 'fleet', fleet(crews))):
        file = room.parent / f'{name}.csv'
        file.write_text(text)
        try:
            done = subprocess.run([program, task, room, file], stdin=subprocess.DEVNULL,
                                  capture_output=True)
        except OSError as fault:
            raise NoRoom(f'{program}: {fault.strerror}') from None
        if done.returncode:
            raise NoRoom(f'{program} {task}: {done.stderr.decode().strip()}')


class PlayedRoom:
    """A run of the program over a new room in a folder. It leaves the room before the day
    (before.db), the room after it (room.db), and the list of all messages (day.list)."""

    def __init__(self, program: str, folder: pathlib.Path, city, crews):
        self.program, self.folder, self.messages = program, folder, 0
        self.see = lambda exchange: None  # what is shown each exchange
        self.room = folder / 'room.db'
        make(program, self.room, city, crews)
        shutil.copy(self.room, folder / 'before.db')
        self.list = (folder / 'day.list').open('wb')
        self.start()

    def start(self) -> None:
        """Starts the program over the room as it stands in the file."""
        head, pipe = digest.head_of(self.room).encode(), subprocess.PIPE
        self.process = subprocess.Popen([self.program, 'replay', self.room, '--answers'],
                                        stdin=pipe, stdout=pipe, stderr=pipe)
        self.put(head)

    def kill(self) -> None:
        """Kills it, without a word before."""
        self.process.kill()
        self.process.communicate()

    def put(self, text: bytes) -> None:
        """Tells the room something, and keeps it in the list."""
        self.list.write(text)
        try:
            self.process.stdin.write(text)
            self.process.stdin.flush()
        except BrokenPipeError:
            self.ended()

    def ask(self, now: int, token: str, line: str, body: dict | None = None) -> Exchange:
        """Sends a message at a moment; gives it with the room's answer."""
        text = json.dumps(body, separators=(',', ':')) if body else ''
        message = (f'{line} HTTP/1.1\r\nHost: room\r\nX-Terminal: {token}\r\n'
                   f'Content-Length: {len(text)}\r\n\r\n{text}').encode()
        self.messages += 1
        self.put(b'message %d %d\n%s\n' % (MIDNIGHT + now, len(message), message))
        head = self.process.stdout.readline().split()
        if len(head) != 3:
            self.ended()
        answer = self.process.stdout.read(int(head[2]) + 1)
        self.list.write(b'answer %s\n' % head[1])
        content = json.loads(answer.partition(b'\r\n\r\n')[2])
        found = Exchange(now, token, line, body, int(head[1]), content)
        self.see(found)
        return found

    def ended(self):
        """Says why there is no answer."""
        raise NoRoom(f'the room ended: {self.process.stderr.read().decode().strip()}')

    def end(self) -> tuple[float, int]:
        """Ends the program; gives its processor seconds and the most memory it had, in KiB."""
        self.list.close()
        self.process.stdin.close()
        said = self.process.stderr.read().decode().strip()
        _, status, used = os.wait4(self.process.pid, 0)
        self.process.returncode = os.waitstatus_to_exitcode(status)
        self.process.stdout.close()
        self.process.stderr.close()
        if self.process.returncode:
            raise NoRoom(f'the room ended: {said}')
        return used.ru_utime + used.ru_stime, used.ru_maxrss


class ProvedRoom(Room):
    """What is asked of it, as messages."""

    def __init__(self, world, program: str, folder: pathlib.Path):
        self.world = world
        self.room = PlayedRoom(program, folder, world.city, world.crews)

    def ask(self, token: str, line: str, body: dict | None = None) -> Exchange:
        return self.room.ask(self.world.now, token, line, body)

    def desk_asks(self, crew: Crew, verb: str, body: dict | None = None) -> Exchange:
        return self.ask(desk(crew.division), f'POST /vehicles/{crew.callsign}/{verb}', body)

    # ---- callers and crews

    def call(self, call: Call) -> tuple[int, int]:
        body = {'class': call.grade, 'needs': [call.needs, 0, 0], 'note': '',
                'place': reference(call.place), 'serial': call.serial}
        answer = self.ask(taker(call.position), 'POST /call', body).content
        return answer['division'], answer['incident']

    def report(self, crew: Crew, report: Report) -> int:
        return self.ask(crew_of(crew.callsign), 'POST /report', {
            'button': report.button, 'number': report.number, 'order': report.order,
            'place': reference(report.place)}).content['status']

    def terminal(self, crew: Crew) -> tuple[Order | None, int]:
        shown = self.ask(crew_of(crew.callsign), 'GET /order').content
        order = shown['order']
        return order and Order(order['order'], (order['division'], order['incident']),
                               tuple(order['place'])), shown['status']

    # ---- shifts and orders

    def on_duty(self, crew: Crew, place: Place) -> None:
        self.desk_asks(crew, 'duty', {'place': reference(place), 'until': MIDNIGHT + crew.until})

    def off_duty(self, crew: Crew) -> None:
        self.desk_asks(crew, 'off')

    def stand_down(self, crew: Crew) -> None:
        self.desk_asks(crew, 'standdown')

    def lacking(self, division: int) -> list[Incident]:
        rows = self.ask(desk(division), 'GET /incidents').content['incidents']
        return [Incident((division, it['number']), tuple(it['place']), it['class'],
                         it['opened'] - MIDNIGHT) for it in rows if it['lack'][0]]

    def proposed(self, incident: Incident) -> str | None:
        division, number = incident.key
        line = f'GET /incidents/{number}/propose'
        found = self.ask(desk(division), line).content.get('proposals')
        return found[0]['vehicle'] if found else None

    def mobilise(self, incident: Incident, vehicle: str) -> int | None:
        division, number = incident.key
        line = f'POST /incidents/{number}/mobilise'
        return self.ask(desk(division), line, {'vehicle': vehicle}).content.get('order')

    def close_done(self, division: int) -> None:
        rows = self.ask(desk(division), 'GET /vehicles').content['vehicles']
        worked_on = {it['incident'] for it in rows}
        for it in self.ask(desk(division), 'GET /incidents').content['incidents']:
            if not any(it['lack']) and it['number'] not in worked_on:
                self.ask(desk(division), f'POST /incidents/{it["number"]}/close')

    # ---- what desks see

    def queue(self, division: int) -> list[dict]:
        return self.ask(desk(division), 'GET /queue').content['queue']

    def lines(self, division: int) -> list[tuple[Line, bool]]:
        return [(Line(it['rank'], it['since'] - MIDNIGHT, it['number'], it['vehicle']), True)
                for it in self.queue(division)[:self.world.settings.screen]]

    def waiting(self, division: int) -> int:
        return len(self.queue(division))

    def clear(self, division: int, line: Line) -> None:
        self.ask(desk(division), f'POST /queue/{line.vehicle}/{line.number}/clear')

    def vehicles(self, division: int) -> dict[str, tuple[bool, Place]]:
        rows = self.ask(desk(division), 'GET /vehicles').content['vehicles']
        return {it['vehicle']: (it['status'] in ON_JOB, tuple(it['place']))
                for it in rows if it['status']}

    # ---- a stop

    def stop(self) -> None:
        self.room.kill()
        self.room.start()
