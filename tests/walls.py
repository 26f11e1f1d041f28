"""What the tests of the wall share: the wall over a room that is played, and its pictures in a
browser."""
import contextlib
import json
import select
import socket
import threading

from browser import until
from pages import announced
from room import PATIENCE, TOP

WALL = TOP / 'examples' / 'wall' / 'wall.py'


def wall(port, plan, *divisions):
    """A wall over the room at a port, of all divisions or of some."""
    return announced('wall', WALL, f'127.0.0.1:{port}', plan, *map(str, divisions),
                     '--listen', '127.0.0.1:0')


def plan_of(folder, divisions):
    """A plan of up to nine divisions in rows of three, whose desks are desknumber1 and so on."""
    across = min(divisions, 3)
    width, height = 60000 // across, 60000 // -(-divisions // 3)
    rows = ['what,number,a,b,c,d', 'zone,0,UTC0,,,']
    for number in range(1, divisions + 1):
        west = 500000 + (number - 1) % 3 * width
        south = 140000 + (number - 1) // 3 * height
        rows += [f'area,{number},{west},{south},{west + width - 1},{south + height - 1}',
                 f'desk,{number},desknumber{number},,,']
    plan = folder / 'plan.csv'
    plan.write_text('\n'.join(rows) + '\n')
    return plan


# ---- what is seen on the page


def pictures(browser):
    return int(browser.run('return document.documentElement.dataset.pictures ?? 0'))


def refresh(browser, times):
    """Waits for so many pictures more."""
    wanted = pictures(browser) + times
    until(lambda: pictures(browser) >= wanted)


# ---- a room that is played


class PlayedRoom(threading.Thread):
    """Answers like a room, each connection after a while in which another one could come: what the
    function has no answer to, by a KeyError, is no path. Keeps the heads that it was sent, and
    counts connections that came while another was open, or that were not closed."""

    def __init__(self, answer_of, waits=0.01):
        super().__init__(daemon=True)
        self.answer_of, self.waits = answer_of, waits
        self.listener = socket.create_server(('127.0.0.1', 0))
        self.port = self.listener.getsockname()[1]
        self.heads, self.overlaps = [], 0
        self.start()

    def run(self):
        with contextlib.suppress(OSError, ValueError):  # until it is closed
            while True:
                connection, _ = self.listener.accept()
                with connection, contextlib.suppress(ConnectionError):  # it was given up
                    self.serve(connection)

    def serve(self, connection):
        head = b''
        while not head.endswith(b'\r\n\r\n'):
            piece = connection.recv(4096)
            if not piece:
                return
            head += piece
        self.heads.append(head.decode())
        line, *fields = head.decode().split('\r\n')
        token = next(it for it in fields if it.startswith('X-Terminal: ')).split(' ')[1]
        status, body = self.answer(token, line.split(' ')[1].removeprefix('/'))
        self.overlaps += self.is_called(self.waits) and not has_ended(connection)
        connection.sendall(b'HTTP/1.1 %s\r\nDate: Wed, 25 Nov 2026 12:00:00 GMT\r\n'
                           b'Content-Type: application/json\r\nConnection: close\r\n'
                           b'Content-Length: %d\r\n\r\n' % (status, len(body)) + body)
        ready, _, _ = select.select([connection, self.listener], [], [], PATIENCE)
        self.overlaps += connection not in ready or connection.recv(1) != b''

    def answer(self, token, what):
        """The status and the body of an answer: 36 where the room has no such path."""
        try:
            content = {what.split('/')[-1]: self.answer_of(token, what)}
        except KeyError:
            return b'404 Not Found', b'{"error":"NoPath","number":36}'
        return b'200 OK', json.dumps(content).encode()

    def is_called(self, seconds):
        return bool(select.select([self.listener], [], [], seconds)[0])


def has_ended(connection):
    """Whether the other side has closed it, as it does where it waited for too long."""
    try:
        return not connection.recv(1, socket.MSG_PEEK | socket.MSG_DONTWAIT)
    except BlockingIOError:
        return False


def played(test, answer_of, *waits):
    """A played room, which ends with the test."""
    room = PlayedRoom(answer_of, *waits)
    test.addCleanup(room.listener.close)
    return room


NOW = 1795608000  # the moment of the played room's answers


def vehicle(name, status=1, kind=1, place=(530000, 180000), incident=None):
    return {'home': 1, 'incident': incident, 'kind': kind, 'place': place, 'post': None,
            'shift_end': NOW, 'status': status, 'vehicle': name}


def report(number, button='leave', outcome='skipped', order=1, place=(531000, 181000), **more):
    """A report of a vehicle, as a room with --history gives it."""
    return {'button': button, 'cleared': False, 'moment': NOW - 600, 'number': number,
            'order': order, 'outcome': outcome, 'place': place, 'status': 4} | more


def incident(number, place=(530000, 180000), lack=(1, 0, 0), level=2):
    return {'calls': 1, 'class': level, 'lack': lack, 'needs': [1, 1, 1], 'number': number,
            'opened': NOW - 60, 'place': place}
