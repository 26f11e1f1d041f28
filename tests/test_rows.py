"""Plays the scripts of tests/rows to a room of the example's plan and fleet, and compares its
answers. All messages of a script go over one connection, each at its moment. Of two scripts
NAME.one.rows and NAME.two.rows the answers to desk 1 have the same bytes."""
# needs: python3 gcc libc6-dev
# builds: dispatch_room
from preloaded import PreloadedTestCase, clock
from room import FLEET, PLAN, run, talk
from scripts import ROWS, answers, messages

DESK_1 = 'deskone1'

class Rows(PreloadedTestCase):
    def setUp(self):
        super().setUp()
        self.room = self.folder / 'example.db'
        run('init', self.room, PLAN)
        run('import', self.room, FLEET)

    def play(self, asked):
        """How the talk of a script ended and what was reported of it, and the answers to its
        messages."""
        switches = clock(it.moment for it in asked)
        sent = ''.join(it.text() for it in asked).encode()
        got, status, said = self.program.serve(switches, self.fresh(self.room), sent, ask=talk)
        return (status, said.decode()), answers(got.decode(), asked)

    def test_scripts(self):
        paths = sorted(ROWS.glob('*.rows'))
        self.assertTrue(paths, 'there is no script')
        for path in paths:
            asked, got = messages(path), []
            with self.subTest(f'{path.name}: each message is answered'):
                (status, reported), got = self.play(asked)
                self.assertEqual((status, len(got)), (0, len(asked)), f'it printed {reported!r}')
            for message, answer, before in zip(asked, got, [None, *got]):
                with self.subTest(f'{path.name}: {message.line}'):
                    self.assertTrue(message.fits(answer, before),
                                    f'  wanted {message.wanted}\n  got    {answer}')

    def test_desk_1_is_answered_the_same(self):
        paths = sorted(ROWS.glob('*.one.rows'))
        self.assertTrue(paths, 'there is no pair of scripts')
        for path in paths:
            with self.subTest(path.name):
                one = self.answers_to_desk_1(path)
                self.assertTrue(one, 'desk 1 gets no answer')
                two = path.with_name(path.name.replace('.one.', '.two.'))
                self.assertEqual(self.answers_to_desk_1(two), one)

    def answers_to_desk_1(self, path):
        asked = messages(path)
        _, got = self.play(asked)
        return [answer for message, answer in zip(asked, got) if message.token == DESK_1]
