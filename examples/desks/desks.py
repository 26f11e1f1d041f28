#!/usr/bin/env python3
"""Serves the pages of the desks beside a served room, for a trial on one machine: a call taker's,
an allocator's and a crew's. What a page asks of the room is handed on as it is, over a connection
of its own. It is not proved, and listens on loopback only: for other machines see nginx.conf.

  desks.py 127.0.0.1:8080 --plan examples/plan.csv --places examples/desks/places.csv

The pages are then at http://127.0.0.1:8082/."""
import argparse
import csv
import http.client
import json
import pathlib
import sys

HERE = pathlib.Path(__file__).resolve().parent
WALL = HERE.parent / 'wall'
sys.path.append(str(WALL))
from page_server import KINDS, Page, PageServer, Refused, area_of, loopback

ANSWER_WITHIN = 3.0  # seconds that the room may be silent for
NEXT_AFTER = 2.0  # seconds that one machine of three may be silent for
LONGEST_ANSWER = 16 << 20  # bytes
LONGEST_BODY = 64 << 10  # bytes that are handed on; the room itself takes 1024
LONGEST_READ = 16 << 20  # bytes that are read, so that the refusal of more arrives

# ---- the words of the command line


def words():
    parser = argparse.ArgumentParser(prog='desks.py', description=__doc__,
                                     formatter_class=argparse.RawDescriptionHelpFormatter)
    parser.add_argument('rooms', metavar='ADDRESS', type=loopback, nargs='+',
                        help='where the room is served; of three machines that are one, each')
    parser.add_argument('--plan', metavar='FILE', type=pathlib.Path,
                        help="the room's plan, for the map of areas")
    parser.add_argument('--places', metavar='FILE', type=pathlib.Path,
                        help='names of places and their references: a CSV with name,place')
    parser.add_argument('--listen', metavar='ADDRESS', type=loopback, default='127.0.0.1:8082',
                        help='where the pages are served (%(default)s)')
    parser.add_argument('--write', metavar='FOLDER', type=pathlib.Path,
                        help='writes areas.json and places.json there for nginx, and ends')
    return parser, parser.parse_args()


# ---- what the pages know of the service: its areas and its places, and no token


def rows_of(path, *members):
    """The rows of a CSV file with these members at least."""
    try:
        with path.open(encoding='utf-8-sig', newline='') as file:
            rows = list(csv.DictReader(file))
    except (OSError, ValueError, csv.Error) as error:
        raise Refused(f'{path} can not be read: {error}') from None
    for number, row in enumerate(rows, 2):
        if any(row.get(it) is None for it in members):
            raise Refused(f'{path}:{number}: wanted {",".join(members)}')
    return rows


def areas_of(plan):
    rows = rows_of(plan, 'what', 'number', 'a', 'b', 'c', 'd') if plan else []
    try:
        return {'areas': [area_of(it) for it in rows if it['what'] == 'area']}
    except ValueError:
        raise Refused(f'{plan} is no plan') from None


def places_of(file):
    rows = rows_of(file, 'name', 'place') if file else []
    return {'places': [[it['name'].strip(), it['place'].strip()] for it in rows]}


def write(folder, known):
    folder.mkdir(parents=True, exist_ok=True)
    for name, content in known.items():
        (folder / name).write_bytes(content)
        print(f'written: {folder / name}')


# ---- files

# Modules of the wall that the pages share.
SHARED = 'ground.js', 'nodes.js', 'ranks.js', 'words.js'


def files():
    """The pages' files by their paths, which are those below examples/."""
    own = [it for it in HERE.iterdir() if it.suffix in KINDS]
    shared = [WALL / it for it in SHARED]
    return {f'/{it.parent.name}/{it.name}': it for it in [*own, *shared]}


# ---- the room


def ask(rooms, method, *request):
    """What the room says to a request, by the first machine that answers of those that are it. One
    that does not is asked last from then on. What may have been done is asked again only where
    that changes nothing: questions, and calls and reports, which are known by their numbers."""
    is_safe = method != 'POST' or request[0] in ('/call', '/report')
    for room in list(rooms):
        found = ask_one(room, NEXT_AFTER if len(rooms) > 1 else ANSWER_WITHIN, method, *request)
        status, _, content = found
        if status not in (502, 503, 504):
            break
        rooms[:] = [*(it for it in rooms if it != room), room]  # which all threads see at once
        if not is_safe and status != 502 and b'"kept":"no"' not in content:
            break
    return found


def ask_one(room, within, method, path, token, body):
    """The status, the Date and the content of a machine's answer to one request, over a connection
    of its own. Where none comes: 504 where it is silent or breaks off, 502 where it is not
    there."""
    connection = http.client.HTTPConnection(*room, timeout=within)
    fields = {'Connection': 'close'} | ({} if token is None else {'X-Terminal': token})
    try:
        connection.connect()
    except OSError:
        return 502, None, refusal('Unanswered', 0)
    try:
        connection.request(method, path, body, fields)
        with connection.getresponse() as answer:
            content = answer.read(LONGEST_ANSWER)
            return answer.status, answer.headers['Date'], content
    except (OSError, http.client.HTTPException):
        return 504, None, refusal('Unanswered', 0)
    except ValueError:  # what no request of HTTP can have, as letters of no ASCII in a path
        return 400, None, refusal('BadMessage', 30)
    finally:
        connection.close()


def refusal(name, number):
    """A refusal in the room's form."""
    return json.dumps({'error': name, 'number': number}, separators=(',', ':')).encode()


# ---- serving


class DesksPage(Page):
    """Answers a browser: a file, what the pages know of the service, or what the room says."""

    def handle_one(self):
        if not self.is_own():
            self.answer(403, 'text/plain', b'These pages are for this machine only.\n')
        elif self.path.startswith('/room/'):
            self.hand_on()
        elif self.command not in ('GET', 'HEAD'):
            self.answer(405, 'text/plain', b'Files are only read.\n', Allow='GET, HEAD')
        elif self.path == '/':
            self.answer(302, 'text/plain', b'', Location='/desks/index.html')
        elif self.path in self.server.known:
            self.answer(200, 'application/json', self.server.known[self.path])
        elif file := files().get(self.path):
            self.answer(200, KINDS[file.suffix], file.read_bytes())
        else:
            self.answer(404, 'text/plain', b'There is no such page.\n')

    do_GET = do_HEAD = do_POST = do_PUT = do_PATCH = do_DELETE = do_OPTIONS = handle_one

    def is_own(self):
        """Whether the request names this server as its host, and is of no other site's page."""
        origin = self.headers.get('Origin')
        site = self.headers.get('Sec-Fetch-Site', 'none')
        return (self.is_named_so() and origin in (None, f'http://{self.headers.get("Host")}')
                and site in ('none', 'same-origin'))

    def hand_on(self):
        """Hands a request on to the room, and its answer back."""
        length = self.headers.get('Content-Length', '0')
        if 'Transfer-Encoding' in self.headers:
            return self.answer(501, 'application/json', refusal('Coding', 34))
        if not length.isdecimal():
            return self.answer(400, 'application/json', refusal('BadMessage', 30))
        body = self.rfile.read(min(int(length), LONGEST_READ)) or None
        if int(length) > LONGEST_BODY:
            return self.answer(413, 'application/json', refusal('BodyTooLong', 32))
        path, token = self.path.removeprefix('/room'), self.headers.get('X-Terminal')
        status, date, content = ask(self.server.rooms, self.command, path, token, body)
        return self.answer(status, 'application/json', content, Date=date)


class Desks(PageServer):
    """The pages' server."""

    def __init__(self, address, rooms, known):
        super().__init__(address, DesksPage)
        self.rooms = rooms
        self.known = {f'/data/{name}': content for name, content in known.items()}


def main():
    parser, found = words()
    try:
        known = {'areas.json': json.dumps(areas_of(found.plan)).encode(),
                 'places.json': json.dumps(places_of(found.places)).encode()}
        if found.write:
            return write(found.write, known)
        desks = Desks(found.listen, found.rooms, known)
    except (Refused, OSError) as error:
        parser.error(str(error))
    return desks.serve('desks')


if __name__ == '__main__':
    main()
