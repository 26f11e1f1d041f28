#!/usr/bin/env python3
"""Reads the log of a room from standard input, and serves what it counts to Prometheus at
http://127.0.0.1:8083/metrics, until the log ends. It is not proved.

  journalctl --follow --lines=0 --output=cat --unit=dispatch-room | metrics.py
  metrics.py --print <room.log         writes it once, of all that is in the log

With --room it also asks the room whether it answers, and with --desks how long the queues are. It
only gets, one connection at a time, whenever Prometheus asks, but not within five seconds of the
last time."""
import argparse
import bisect
import collections
import contextlib
import datetime
import http.client
import http.server
import itertools
import json
import pathlib
import re
import sys
import threading
import time

READ_EVERY = 5.0  # seconds between two readings of the room
ANSWER_WITHIN = 3.0  # seconds that the room may be silent for
LONGEST_ANSWER = 16 << 20  # bytes

# ---- the lines of the log

LINE = re.compile(r'(\d{4}-\d\d-\d\dT\d\d:\d\d:\d\dZ) (?:none|(?:desk|position|crew) \w+) '
                  r'(\S+) (\S+) (\d{3}) (\d+) ms')
METHODS = {'GET', 'POST', 'HEAD', '-'}
# The paths of the room, with N, C, DAY, PLACE and METRES for numbers, callsigns, days, grid references
# and distances. What else a client makes up is 'other', so that nobody outside decides how much there
# is to keep.
PATHS = """
    - /call /report /order /job /last /queue /queue/C/N/clear /loans /moves /offers /points
    /points/N /times/DAY /times/DAY/classes /closed/DAY/from/N /closed/DAY/vehicle/C/from/N
    /closed/DAY/near/PLACE/METRES/from/N /incidents /incidents/N /incidents/N/propose
    /incidents/N/mobilise /incidents/N/needs /incidents/N/merge /incidents/N/close /vehicles
    /vehicles/C/duty /vehicles/C/off /vehicles/C/standdown /vehicles/C/standby /vehicles/C/lend
    /vehicles/C/withdraw /vehicles/C/decline /vehicles/C/accept /vehicles/C/recall
    /vehicles/C/giveback /vehicles/C/reports
    """.split()
OTHER = 'other'
FORMS = {r'\bN\b': r'\\d{1,10}', r'\bC\b': '[A-Z0-9]{1,8}', r'\bDAY\b': r'\\d{4}-\\d\\d-\\d\\d',
         r'\bPLACE\b': r'[A-Z]{2}\\d{6,10}', r'\bMETRES\b': r'\\d{1,5}'}


def pattern(path):
    """What matches the paths of a form."""
    for word, form in FORMS.items():
        path = re.sub(word, form, path)
    return re.compile(path)


PATTERNS = [(it, pattern(it)) for it in PATHS]
FIXED = {it for it, form in PATTERNS if form.pattern == it}


def path_of(text, status):
    """The form of a path that the room has. It has none with parameters, and the log cuts them off: a
    path in which no name or number stands is 404 only then."""
    path = next((path for path, form in PATTERNS if form.fullmatch(text)), OTHER)
    return OTHER if status == '404' and path in FIXED else path


# Milliseconds, up to which the histogram counts.
BOUNDS = [1, 2, 5, 10, 20, 50, 100, 200, 500, 1000, 2000, 5000]


class Times:
    """How long messages took, in milliseconds."""

    def __init__(self):
        self.counts, self.sum = [0] * (len(BOUNDS) + 1), 0

    def add(self, millis):
        """The log cuts off what is less than a millisecond, so 1 ms is above the bound of 1."""
        self.counts[bisect.bisect_right(BOUNDS, millis)] += 1
        self.sum += millis


class Log:
    """What was counted in the log so far."""

    def __init__(self):
        self.lock = threading.Lock()
        self.requests = collections.Counter()
        self.times = collections.defaultdict(Times)
        self.last_answer = None
        self.starts = self.others = 0

    def take(self, line):
        """Counts one line, be it a message's or another of the program or the system."""
        found = LINE.fullmatch(line)
        with self.lock:
            if found:
                self.take_message(*found.groups())
            elif line == 'serving':
                self.starts += 1
            else:
                self.others += 1

    def take_message(self, moment, method, target, status, millis):
        path = path_of(target, status)
        self.requests[method if method in METHODS else OTHER, path, status] += 1
        self.times[path].add(int(millis))
        self.last_answer = int(datetime.datetime.fromisoformat(moment).timestamp())


# ---- asking the room


class Unanswered(Exception):
    """The room gave no answer of a room."""


def get_queue(room, fields):
    """The status and the content of a GET of the queue."""
    connection = http.client.HTTPConnection(room, timeout=ANSWER_WITHIN)
    try:
        connection.request('GET', '/queue', headers={'Connection': 'close'} | fields)
        with connection.getresponse() as answer:
            return answer.status, answer.read(LONGEST_ANSWER)
    except (OSError, http.client.HTTPException) as error:
        raise Unanswered from error
    finally:
        connection.close()


def test_answer(room):
    """Fails where no room answers: one refuses who shows no token."""
    status, _ = get_queue(room, {})
    if status != 403:
        raise Unanswered


def length_of(room, desk, token):
    """How long a desk's queue is; none where the room refuses its token."""
    status, content = get_queue(room, {'X-Terminal': token})
    if status != 200:
        print(f'metrics: desk {desk}: the room answers with status {status}', file=sys.stderr)
        return None
    try:
        return len(json.loads(content)['queue'])
    except (ValueError, KeyError, TypeError, RecursionError) as error:
        raise Unanswered from error


class Room:
    """A served room, and the desks whose queues are looked at, by their tokens."""

    def __init__(self, address, desks):
        self.address, self.desks = address, desks
        self.lock = threading.Lock()
        self.at, self.seen = float('-inf'), None

    def look(self):
        """Whether the room answers, and each queue's length; not more often than it is let."""
        with self.lock:
            if time.monotonic() - self.at >= READ_EVERY:
                self.at, self.seen = time.monotonic(), self.ask()
            return self.seen

    def ask(self):
        try:
            test_answer(self.address)
            lengths = {it: length_of(self.address, it, token) for it, token in self.desks.items()}
            return True, {it: length for it, length in lengths.items() if length is not None}
        except Unanswered:
            return False, {}


# ---- the text that Prometheus reads


def sample(name, value, **labels):
    text = ','.join(f'{label}="{it}"' for label, it in labels.items())
    return f'{name}{{{text}}} {value}\n' if text else f'{name} {value}\n'


def family(name, kind, about, *samples):
    """The samples of one name, with what they are; nothing where there is none."""
    name = f'dispatch_room_{name}'
    lines = ''.join(sample(name + it.pop('end', ''), **it) for it in samples)
    return lines and f'# HELP {name} {about}\n# TYPE {name} {kind}\n{lines}'


def histogram(path, times):
    """The samples of a histogram in seconds."""
    counts = list(itertools.accumulate(times.counts))
    for bound, count in zip([*(f'{it / 1000:g}' for it in BOUNDS), '+Inf'], counts):
        yield {'end': '_bucket', 'value': count, 'path': path, 'le': bound}
    yield {'end': '_sum', 'value': times.sum / 1000, 'path': path}
    yield {'end': '_count', 'value': counts[-1], 'path': path}


def text_of_log(log):
    with log.lock:
        requests = [{'value': count, 'method': method, 'path': path, 'status': status}
                    for (method, path, status), count in sorted(log.requests.items())]
        took = [it for path in sorted(log.times) for it in histogram(path, log.times[path])]
        last = [{'value': log.last_answer}] if log.last_answer is not None else []
        return ''.join([
            family('requests_total', 'counter', 'Messages that were answered.', *requests),
            family('request_duration_seconds', 'histogram',
                   'Time from the message whole to its answer written.', *took),
            family('last_answer_timestamp_seconds', 'gauge', 'When the last answer was.', *last),
            family('starts_total', 'counter', 'How often the room began to be served.',
                   {'value': log.starts}),
            family('other_lines_total', 'counter', 'Lines that are of no message.',
                   {'value': log.others})])


def text_of_room(room):
    answers, lengths = room.look()
    queues = [{'value': length, 'desk': desk} for desk, length in lengths.items()]
    return (family('up', 'gauge', 'Whether the room answers.', {'value': int(answers)})
            + family('queue_length', 'gauge', 'Entries in the queue of a desk.', *queues))


# ---- serving it


class Page(http.server.BaseHTTPRequestHandler):
    """Answers Prometheus."""
    timeout = 10
    server_version, sys_version = 'metrics', ''

    def do_GET(self):
        if self.path != '/metrics':
            self.send_error(404)
            return
        room = self.server.room
        text = text_of_log(self.server.log) + (text_of_room(room) if room else '')
        self.send_response(200)
        self.send_header('Content-Type', 'text/plain; version=0.0.4; charset=utf-8')
        self.send_header('Content-Length', str(len(text)))
        self.end_headers()
        self.wfile.write(text.encode())

    def log_message(self, *_):
        """Says nothing."""


def serve(port, log, room):
    """Serves from now on, on loopback only."""
    server = http.server.ThreadingHTTPServer(('127.0.0.1', port), Page)
    server.daemon_threads, server.log, server.room = True, log, room
    threading.Thread(target=server.serve_forever, daemon=True).start()
    print(f'metrics: http://127.0.0.1:{server.server_port}/metrics', flush=True)


def address(text):
    """An address with a port."""
    try:
        http.client.HTTPConnection(text)
    except http.client.HTTPException as error:
        raise argparse.ArgumentTypeError(str(error)) from None
    return text


def desks_in(text):
    """The tokens of a file, by the names of their desks."""
    try:
        rows = [it.split() for it in pathlib.Path(text).read_text().splitlines()]
    except (OSError, ValueError) as error:
        raise argparse.ArgumentTypeError(f'{text}: {error}') from None
    for place, row in enumerate(rows, 1):
        if len(row) != 2 or not re.fullmatch(r'\w+', row[0]) or not row[1].isalnum():
            raise argparse.ArgumentTypeError(f'{text}:{place}: a name and a token are wanted')
    return dict(rows)


def words():
    parser = argparse.ArgumentParser(prog='metrics.py', description=__doc__,
                                     formatter_class=argparse.RawDescriptionHelpFormatter)
    parser.add_argument('--port', metavar='PORT', type=int, default=8083,
                        help='where to serve, of 127.0.0.1 (default: %(default)s)')
    parser.add_argument('--room', metavar='ADDRESS', type=address,
                        help='where the room is served, as 127.0.0.1:8080')
    parser.add_argument('--desks', metavar='FILE', type=desks_in, default={},
                        help='desks whose queues are looked at, a line each, name and token')
    parser.add_argument('--print', action='store_true', dest='prints',
                        help='write the text to standard output at the end of the log, and end')
    found = parser.parse_args()
    if found.desks and not found.room:
        parser.error('--desks wants --room')
    return parser, found


def main():
    parser, found = words()
    log = Log()
    if not found.prints:
        try:
            serve(found.port, log, found.room and Room(found.room, found.desks))
        except (OSError, OverflowError) as error:
            parser.error(f'port {found.port}: {error}')
    sys.stdin.reconfigure(encoding='utf-8', errors='replace')
    with contextlib.suppress(KeyboardInterrupt):
        for line in sys.stdin:
            log.take(line.rstrip('\n'))
    if found.prints:
        print(text_of_log(log), end='')


if __name__ == '__main__':
    main()
