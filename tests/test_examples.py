"""The dry run from outside: the examples byte by byte, a stream cut at each byte, the refusals
that its room can give, and what the program says where its input or output fails."""
# builds: dispatch_room dispatch_room_dry_run_main
import os
import subprocess
import time

from refused_streams import REFUSALS
from room import CUT, DRY_RUN, FAULT, PROGRAM, TOP, WELL, TestCase, answer, dry_run, refusal

EXAMPLES = TOP / 'examples'


def example(name):
    """The requests of an example, and the answers to them."""
    return [(EXAMPLES / f'{name}.{it}').read_bytes() for it in ('http', 'out')]


def dry_run_of_two(first, second):
    """The dry run over a stream that comes in two pieces."""
    pipe = subprocess.PIPE
    process = subprocess.Popen([PROGRAM], stdin=pipe, stdout=pipe, stderr=pipe)
    process.stdin.write(first)
    process.stdin.flush()
    time.sleep(0.02)
    out, err = process.communicate(second, timeout=180)
    return out, (process.returncode, err)


class Examples(TestCase):
    def test_command(self):
        """The command in the top folder, which builds the program first."""
        done = subprocess.run([TOP / 'dispatch_room'], stdin=subprocess.DEVNULL,
                              capture_output=True)
        self.assertEqual(done.returncode, 0, f'it printed {done.stderr}')

    def test_examples(self):
        names = sorted(it.stem for it in EXAMPLES.glob('*.http'))
        self.assertTrue(names, 'there is no example')
        for name in names:
            stream, answers = example(name)
            self.check(name, dry_run(stream), (answers, WELL))

    def test_own_program(self):
        """The program that is only the dry run answers and ends as the whole does."""
        stream, answers = example('first-call')
        self.check('a first call', dry_run(stream, program=DRY_RUN), (answers, WELL))
        self.check('a call that is cut', dry_run(stream[:-1], program=DRY_RUN), (b'', CUT))
        with open('/dev/full', 'wb') as full:
            _, end = dry_run(stream, full, program=DRY_RUN)
        self.check('answers that cannot be written', end, FAULT)


class Pieces(TestCase):
    def test_cuts(self):
        """A stream cut at each byte: what came whole is answered, what did not is not."""
        whole, answers = example('first-call')
        for cut in range(len(whole)):
            end = CUT if cut else WELL
            self.check(f'the first call, cut after {cut} bytes', dry_run(whole[:cut]), (b'', end))
            self.check(f'the first call, and {cut} bytes of it again',
                       dry_run(whole + whole[:cut]), (answers, end))

    def test_two_pieces(self):
        """A stream in two pieces: the same bytes."""
        stream, answers = example('linked-calls')
        for cut in range(1, len(stream), 16):
            with self.subTest(f'two calls that link, in pieces after {cut} bytes'):
                self.assertEqual(dry_run_of_two(stream[:cut], stream[cut:]), (answers, WELL))


class Refusals(TestCase):
    def test_refusals(self):
        for number, name, status, more, stream in REFUSALS:
            wanted = answer(status, refusal(name, number), more)
            out, end = dry_run(stream)
            what = f'refusal {number} {name} {more}'.strip()
            self.check(what, (out[-len(wanted):], end), (wanted, WELL))

    def test_head(self):
        """HEAD gets the head of the answer to GET."""
        head = b'HEAD /incidents HTTP/1.1\r\nHost: room\r\nX-Terminal: deskone1\r\n\r\n'
        self.assertEqual(dry_run(head), (answer('200 OK', '{"incidents":[]}', sent=''), WELL))


class Faults(TestCase):
    def test_standard_input_fails(self):
        folder = os.open(TOP, os.O_RDONLY)
        self.addCleanup(os.close, folder)
        self.assertEqual(dry_run(folder), (b'', FAULT))

    def test_standard_output_fails(self):
        stream, _ = example('first-call')
        with open('/dev/full', 'wb') as full:
            _, end = dry_run(stream, full)
        self.assertEqual(end, FAULT)
