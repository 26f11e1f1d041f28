"""What examples/metrics counts in a room's log, by lines that were worked out by hand and over a
served room; Prometheus' own tool reads the text, and plays the rules."""
# needs: python3 prometheus
# builds: dispatch_room
import contextlib
import json
import os
import re
import subprocess
import sys
import time
import urllib.error
import urllib.request

from browser import OPENER
from documents import blocks
from room import PATIENT, PROGRAM, TOP, TestCase, ask, call, free_port, made, message

METRICS = TOP / 'examples' / 'metrics' / 'metrics.py'
RULES = METRICS.with_name('rules.yml')

# A log, and what is to be counted in it: the last column of each line that is a message's says in
# which bound of the histogram it is, and 08:15:09 of that day is 1774772109 (GNU date).
LOG = """\
Started The control room of an ambulance service.
serving
2026-03-29T08:15:00Z position 1 POST /call 200 1 ms
2026-03-29T08:15:02Z desk 1 GET /queue 200 0 ms
2026-03-29T08:15:03Z desk 2 GET /queue 200 4 ms
2026-03-29T08:15:04Z none GET /queue 403 5000 ms
2026-03-29T08:15:05Z crew A1 POST /report 200 0 ms
2026-03-29T08:15:06Z desk 1 HEAD /queue 200 0 ms
2026-03-29T08:15:07Z desk 1 POST /incidents/7/close 404 19 ms
2026-03-29T08:15:07Z desk 1 POST /incidents/12/close 200 20 ms
2026-03-29T08:15:08Z none - - 400 0 ms
2026-03-29T08:15:08Z none DELETE /queue" 405 0 ms
2026-03-29T08:15:09Z none GET /incidents/a1/close 404 0 ms
2026-03-29T08:15:09Z desk 1 GET /offers 404 0 ms
storage
2026-03-29T08:15:10Z desk 1 GET /queue 200 4
"""
COUNTED = """\
dispatch_room_requests_total{method="-",path="-",status="400"} 1
dispatch_room_requests_total{method="GET",path="/queue",status="200"} 2
dispatch_room_requests_total{method="GET",path="/queue",status="403"} 1
dispatch_room_requests_total{method="GET",path="other",status="404"} 2
dispatch_room_requests_total{method="HEAD",path="/queue",status="200"} 1
dispatch_room_requests_total{method="POST",path="/call",status="200"} 1
dispatch_room_requests_total{method="POST",path="/incidents/N/close",status="200"} 1
dispatch_room_requests_total{method="POST",path="/incidents/N/close",status="404"} 1
dispatch_room_requests_total{method="POST",path="/report",status="200"} 1
dispatch_room_requests_total{method="other",path="other",status="405"} 1
dispatch_room_last_answer_timestamp_seconds 1774772109
dispatch_room_starts_total 1
dispatch_room_other_lines_total 3
"""
BOUNDS = ['0.001', '0.002', '0.005', '0.01', '0.02', '0.05', '0.1', '0.2', '0.5', '1', '2', '5',
          '+Inf']
# How many messages took less than each bound, and how long all took by the log.
TOOK = {
    '-': ([1] * 13, 0), '/call': ([0] + [1] * 12, 0.001), '/report': ([1] * 13, 0),
    '/queue': ([2, 2] + [3] * 10 + [4], 5.004), 'other': ([3] * 13, 0),
    '/incidents/N/close': ([0] * 4 + [1] + [2] * 8, 0.039),
}


def printed(log):
    """What is written of a log that has ended."""
    done = subprocess.run([sys.executable, METRICS, '--print'], input=log.encode(),
                          capture_output=True, timeout=180)
    assert (done.returncode, done.stderr) == (0, b''), done
    return done.stdout.decode()


def promtool(*words, given=''):
    """The status of Prometheus' tool, and what it said."""
    done = subprocess.run(['promtool', *words], input=given.encode(), capture_output=True,
                          timeout=180)
    return done.returncode, (done.stdout + done.stderr).decode()


def samples(text):
    """The values of a text by what stands before them."""
    lines = [it.rpartition(' ') for it in text.splitlines() if not it.startswith('#')]
    return {name: float(value) for name, _, value in lines}


class Lines(TestCase):
    def test_counts(self):
        text = printed(LOG)
        self.check('Prometheus reads it', promtool('check', 'metrics', given=text), (0, ''))
        name = 'dispatch_room_request_duration_seconds'
        wanted = samples(COUNTED)
        for path, (counts, total) in TOOK.items():
            for bound, count in zip(BOUNDS, counts):
                wanted[f'{name}_bucket{{path="{path}",le="{bound}"}}'] = count
            wanted[f'{name}_sum{{path="{path}"}}'] = total
            wanted[f'{name}_count{{path="{path}"}}'] = counts[-1]
        found = samples(text)
        for it in wanted | found:
            self.check(it, found.get(it), wanted.get(it))

    def test_a_reader_that_can_refuse(self):
        """What is no such text is refused by Prometheus' tool."""
        for what, text in [('no value', 'dispatch_room_up\n'), ('no name', '{} 1\n'),
                           ('a label twice', 'a{b="1",b="2"} 1\n'), ('a quote', 'a{b="} 1\n')]:
            self.check(what, promtool('check', 'metrics', given=text)[0] != 0, True)

    def test_nothing(self):
        text = printed('')
        self.check('Prometheus reads it', promtool('check', 'metrics', given=text), (0, ''))
        self.check('nothing was answered', samples(text),
                   {'dispatch_room_starts_total': 0, 'dispatch_room_other_lines_total': 0})

    def test_paths(self):
        """Each path of the interface is counted by its own name."""
        document = (TOP / 'docs' / 'HTTP.md').read_text()
        paths = set(re.findall(r'`(?:GET|POST) (/[\w/]+)`', document))
        self.check('there are paths', {'/call', '/times/DAY', '/queue/C/N/clear'} < paths, True)
        shown = {'DAY': '2026-03-29', 'C': 'A1', 'N': '7', 'PLACE': 'TQ3203480467',
                 'METRES': '500'}
        asked = [re.sub('[A-Z]+', lambda it: shown[it[0]], path) for path in paths]
        log = ''.join(f'2026-03-29T08:15:00Z desk 1 GET {it} 200 0 ms\n' for it in asked)
        found = samples(printed(log))
        for path in sorted(paths):
            name = f'dispatch_room_requests_total{{method="GET",path="{path}",status="200"}}'
            self.check(path, found.get(name), 1)

    def test_paths_of_others(self):
        """Whatever a client makes up, there is no more to keep."""
        asked = [f'/{it}' for it in range(100)] + ['/queue/', '/callx', '/vehicles/a1/off', '*']
        log = ''.join(f'2026-03-29T08:15:00Z none GET {it} 404 0 ms\n' for it in asked)
        names = [it for it in samples(printed(log)) if 'requests_total' in it]
        self.check('names', names,
                   ['dispatch_room_requests_total{method="GET",path="other",status="404"}'])


class Words(TestCase):
    def test_mistakes(self):
        desks = self.folder / 'desks'
        desks.write_text('1 deskone1\n2\n')
        address = ['--room', '127.0.0.1:9']
        for words, reported in [(['--desks', desks, *address], f'{desks}:2: a name and a token'),
                                (['--desks', '/nowhere', *address], '/nowhere: '),
                                (['--desks', '/dev/null/x', *address], 'Not a directory'),
                                (['--room', 'localhost:http'], 'nonnumeric port'),
                                (['--port', '99999'], 'port 99999')]:
            done = subprocess.run([sys.executable, METRICS, *words], stdin=subprocess.DEVNULL,
                                  capture_output=True, timeout=180)
            said = done.stderr.decode()
            self.check(f'{words}', [done.returncode, reported in said, 'deskone1' in said],
                       [2, True, False])


def fetched(url):
    with OPENER.open(urllib.request.Request(url), timeout=180) as answer:
        return answer.headers['Content-Type'], answer.read().decode()


def report(number):
    """A report of a crew that is off duty: it is out of turn, and its desk has to see to it."""
    body = f'{{"button":"scene","number":{number},"order":0,"place":"TQ300800"}}'
    return message('crewofa1', 'POST /report', body)


class Served(TestCase):
    """A room whose log is read while it is served."""

    def setUp(self):
        super().setUp()
        self.port = free_port()
        self.reads, self.writes = os.pipe()
        self.addCleanup(os.close, self.writes)

    def serve(self):
        """The room, whose log goes on where it ends."""
        room = made(self.folder / 'room.db', 'A1,1,1,TQ303804,crewofa1')
        process = self.enterContext(subprocess.Popen(
            [PROGRAM, 'serve', room, f'127.0.0.1:{self.port}', *PATIENT, '--log'],
            stdin=subprocess.DEVNULL, stdout=subprocess.PIPE, stderr=self.writes))
        self.addCleanup(process.kill)
        self.check('it is served', process.stdout.readline(), b'serving\n')
        return process

    @contextlib.contextmanager
    def metrics(self, *words):
        command = [sys.executable, METRICS, '--port', '0', *words]
        process = subprocess.Popen(command, stdin=self.reads, stdout=subprocess.PIPE,
                                   stderr=subprocess.PIPE)
        os.close(self.reads)
        try:
            yield process.stdout.readline().decode().removeprefix('metrics: ').strip()
        finally:
            process.kill()
            self.said = process.communicate()[1].decode()

    def test_served(self):
        desks = self.folder / 'desks'
        desks.write_text('one deskone1\ntwo desktwo2\nlost deskxxx9\n')
        room = self.serve()
        with self.metrics('--room', f'127.0.0.1:{self.port}', '--desks', desks) as url:
            statuses = [it for it, _ in ask(self.port, call(1), call(2, 'TQ350800'), call(2))]
            self.check('two calls, and a serial that another has', statuses, [200, 200, 409])
            ask(self.port, report(1), report(2))
            self.check('a path with parameters is none of the room',
                       ask(self.port, message('deskone1', 'GET /offers?x'))[0][0], 404)
            queues = [len(json.loads(body)['queue']) for desk in ('deskone1', 'desktwo2')
                      for _, body in ask(self.port, message(desk, 'GET /queue'))]
            self.check('the queues have the reports', queues, [2, 0])
            kind, text = self.caught_up(url)
            self.check('kind', kind, 'text/plain; version=0.0.4; charset=utf-8')
            self.check('Prometheus reads it', promtool('check', 'metrics', given=text), (0, ''))
            found = samples(text)
            self.check('it answers', found['dispatch_room_up'], 1)
            self.check('queues', {it: found[it] for it in found if 'queue_length' in it},
                       {'dispatch_room_queue_length{desk="one"}': 2,
                        'dispatch_room_queue_length{desk="two"}': 0})
            self.check_calls(found)
            self.check('the last answer is of now',
                       abs(found['dispatch_room_last_answer_timestamp_seconds'] - time.time()) < 60,
                       True)
            self.check('there is no token in it', 'deskone1' in text, False)
            self.check('no other page', self.status(url[:-1]), 404)
            self.check_end(room, url)
        self.check('a desk that is refused', 'desk lost: the room answers with status 403'
                   in self.said, True)

    def caught_up(self, url):
        """What is fetched once the log was read up to the queues that were asked for, which comes
        behind the answers, and the room was not silent for too long as it was asked."""
        until, name = time.monotonic() + 180, 'dispatch_room_requests_total'
        while True:
            kind, text = fetched(url)
            found = samples(text)
            asked = found.get(f'{name}{{method="GET",path="/queue",status="200"}}', 0)
            if found['dispatch_room_up'] and asked >= 2 or time.monotonic() > until:
                return kind, text
            time.sleep(0.1)

    def check_calls(self, found):
        calls = {it: found[it] for it in found if 'requests_total' in it and '/call' in it}
        name = 'dispatch_room_requests_total{method="POST",path="/call",status="%d"}'
        self.check('calls', calls, {name % 200: 2, name % 409: 1})
        bucket = 'dispatch_room_request_duration_seconds_bucket{path="/call",le="+Inf"}'
        self.check('times of calls', found[bucket], 3)
        self.check('a path with parameters', {it: found[it] for it in found if '"404"' in it},
                   {'dispatch_room_requests_total{method="GET",path="other",status="404"}': 1})

    def check_end(self, room, url):
        """The room ends; it is asked again after five seconds."""
        room.kill()
        room.wait()
        time.sleep(5.5)
        _, text = fetched(url)
        found = samples(text)
        self.check('it does not answer', found['dispatch_room_up'], 0)
        self.check('no queues', [it for it in found if 'queue_length' in it], [])

    def status(self, url):
        try:
            with OPENER.open(url, timeout=180) as answer:
                return answer.status
        except urllib.error.HTTPError as answer:
            return answer.code


# Each rule: values of a metric, one every 15 seconds, and whether people are called at two minutes.
PLAYED = [
    ('DispatchRoomDoesNotAnswer', 'dispatch_room_up', '1x20', False),
    ('DispatchRoomDoesNotAnswer', 'dispatch_room_up', '1 1 1 0x20', True),
    ('DispatchRoomDoesNotAnswer', 'dispatch_room_up', '1 1 1 1 1 1 0 1x20', False),
    ('DispatchRoomDoesNotAnswer', 'other_up', '1x20', True),
    ('DispatchRoomStartsAgain', 'dispatch_room_starts_total', '1x20', False),
    ('DispatchRoomStartsAgain', 'dispatch_room_starts_total', '1 2 2 2 2 2 2 2 2', False),
    ('DispatchRoomStartsAgain', 'dispatch_room_starts_total', '1+1x20', True),
    ('DispatchRoomFails', 'dispatch_room_requests_total{status="200"}', '1+1x20', False),
    ('DispatchRoomFails', 'dispatch_room_requests_total{status="503"}', '0x20', False),
    ('DispatchRoomFails', 'dispatch_room_requests_total{status="503"}', '0 0 1x20', True),
]


class Rules(TestCase):
    def test_form(self):
        self.check('rules', promtool('check', 'rules', RULES)[0], 0)
        text = RULES.read_text()
        self.check('each is played', set(re.findall('alert: (.*)', text)),
                   {name for name, *_ in PLAYED})
        table = METRICS.with_name('README.md').read_text()
        for name in set(re.findall(r'dispatch_room_\w+', text)):
            self.check(f'{name} is in the table', f'| `{name}` |' in table, True)

    def test_configuration(self):
        """What the page says to write into Prometheus' own file, beside the rules."""
        page = blocks(METRICS.with_name('README.md').read_text())
        [shown] = [it.text for it in page if it.text.startswith('scrape_configs:')]
        (self.folder / 'rules.yml').write_text(RULES.read_text())
        for what, text, wanted in [('as shown', shown, 0),
                                   ('with a name that is none', shown.replace('job_', 'jab_'), 1)]:
            file = self.folder / 'prometheus.yml'
            file.write_text(text)
            self.check(what, promtool('check', 'config', file)[0], wanted)

    def test_played(self):
        """(What Prometheus reads of a test of rules is YAML, of which JSON is a part.)"""
        for number, (name, series, values, fires) in enumerate(PLAYED):
            reported = self.played(number, name, series, values)
            self.check(f'{name}: {series} {values}', f'alertname="{name}"' in reported, fires)

    def played(self, number, name, series, values):
        """What the tool says where its test expects no alert."""
        test = {'rule_files': [str(RULES)], 'evaluation_interval': '15s', 'tests': [{
            'interval': '15s', 'input_series': [{'series': series, 'values': values}],
            'alert_rule_test': [{'eval_time': '2m', 'alertname': name, 'exp_alerts': []}]}]}
        file = self.folder / f'test{number}.yml'
        file.write_text(json.dumps(test))
        status, reported = promtool('test', 'rules', file)
        self.assertEqual(status != 0, f'alertname="{name}"' in reported)
        return reported
