"""The log of a served room: a line for each message, at its answer's own moment, and never a token.
A log that can't be written changes nothing."""
# needs: python3
# builds: dispatch_room
import datetime
import io
import os
import re
import subprocess

from room import (PATIENT, PROGRAM, TestCase, call, free_port, made, message, read_dated, serving,
                  talk)

CREW = 'A1,1,1,TQ303804,crewofa1'
REPORT = '{"button":"position","number":1,"order":0,"place":"TQ300800"}'
LINE = re.compile(r'(\d{4}-\d\d-\d\dT\d\d:\d\d:\d\dZ) (.+) (\d+) ms')

# A body that is refused has a line more, behind its own.
REFUSED = 'position 1 POST /call 400'
WRONG = 'POST /call: "serial" is missing'

# Messages, and what their lines say between the moment and the time that they took.
REPORTED = [
    (call(1), 'position 1 POST /call 200'),
    (message('deskone1', 'GET /queue'), 'desk 1 GET /queue 200'),
    (message('crewofa1', 'POST /report', REPORT), 'crew A1 POST /report 200'),
    (message('deskone1', 'GET /times/2026-03-29'), 'desk 1 GET /times/2026-03-29 200'),
    # refused: after the terminal is known, and before
    (message('deskone1', 'POST /incidents/7/close'), 'desk 1 POST /incidents/7/close 404'),
    (message('deskone1', 'POST /call', '{}'), 'desk 1 POST /call 403'),
    (message('takerone', 'POST /call', '{}'), REFUSED),
    (message('deskone2', 'GET /queue'), 'none GET /queue 403'),
    (message('deskone1', 'GET /deskone'), 'none GET /deskone 404'),
    (message('deskone1', 'DELETE /queue'), 'none DELETE /queue 405'),
    # no path has parameters, and here they show a token
    (message('deskone1', 'GET /queue?token=deskone1'), 'none GET /queue 404'),
    # what is no message
    (b'deskone1\r\n\r\n', 'none - - 400'),
]
TOKENS = ['deskone1', 'takerone', 'crewofa1', 'deskone2']


def dated(port, *messages):
    """The answers that come to messages on one connection, each with its moment."""
    stream = io.BytesIO(talk(port, *messages))
    return list(iter(lambda: read_dated(stream), None))


def written(moment):
    """A moment as the log writes it."""
    return datetime.datetime.fromtimestamp(moment, datetime.UTC).strftime('%Y-%m-%dT%H:%M:%SZ')


class LogTestCase(TestCase):
    def setUp(self):
        super().setUp()
        self.room = made(self.folder / 'room.db', CREW)
        self.messages = [it for it, _ in REPORTED]

    def logged(self, *words):
        """The answers to all messages on one connection, and the lines of the log."""
        with serving(self.room, 1, *PATIENT, *words) as (port, process):
            answers = dated(port, *self.messages)
            process.wait(timeout=180)
            return answers, process.stderr.read().decode()


class Lines(LogTestCase):
    def test_lines(self):
        """Each message has its line, in the order in which they were answered; a refused body has one
        more."""
        answers, log = self.logged('--log')
        lines = log.splitlines()
        refused = [entry for _, entry in REPORTED].index(REFUSED)
        self.check('what is wrong with the body', lines.pop(refused + 1), WRONG)
        self.assertEqual((len(answers), len(lines)), (len(REPORTED), len(REPORTED)))
        for (moment, status, _), line, (_, entry) in zip(answers, lines, REPORTED):
            with self.subTest(entry):
                at, said, took = LINE.fullmatch(line).groups()
                self.assertEqual((at, said), (written(moment), entry))
                self.assertEqual(said.endswith(f' {status}'), True)
                self.assertLess(int(took), 100_000)

    def test_tokens(self):
        """No token is in it, known or not, wherever a message shows it but in its path."""
        _, log = self.logged('--log')
        for token in TOKENS:
            self.check(token, token in log, False)

    def test_head(self):
        """An answer without content has a line too."""
        self.messages = [message('deskone1', 'HEAD /queue')]
        _, log = self.logged('--log')
        self.check('its line', LINE.fullmatch(log.rstrip('\n'))[2], 'desk 1 HEAD /queue 200')

    def test_none(self):
        """Where none is asked for, none is written."""
        answers, log = self.logged()
        self.check('all is answered', len(answers), len(REPORTED))
        self.check('nothing is reported', log, '')


class Unwritten(LogTestCase):
    """A log that can't be written is given up, and the room is served as without it."""

    def served(self, **named):
        port = free_port()
        words = [PROGRAM, 'serve', self.room, f'127.0.0.1:{port}', '--connections', '2', *PATIENT]
        with subprocess.Popen([*words, '--log'], stdin=subprocess.DEVNULL, stdout=subprocess.PIPE,
                              **named) as process:
            self.check('it is served', process.stdout.readline(), b'serving\n')
            for turn in 'first', 'second':
                statuses = [status for _, status, _ in dated(port, *self.messages)]
                wanted = [int(entry.split()[-1]) for _, entry in REPORTED]
                self.check(f'the {turn} connection', statuses, wanted)
            self.check('its end', process.wait(timeout=180), 0)

    def test_nobody_reads(self):
        reads, writes = os.pipe()
        os.close(reads)
        with open(writes, 'wb') as stderr:
            self.served(stderr=stderr)

    def test_full(self):
        with open('/dev/full', 'wb') as stderr:
            self.served(stderr=stderr)

    def test_closed(self):
        self.served(preexec_fn=lambda: os.close(2))
