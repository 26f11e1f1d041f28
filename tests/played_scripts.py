"""Scripts of messages, played to a room of the example's plan and fleet that is served at their
moments."""
from preloaded import PreloadedTestCase, clock
from room import FLEET, PLAN, dump, run, talk
from scripts import answers, messages


class ScriptTestCase(PreloadedTestCase):
    def setUp(self):
        super().setUp()
        self.room = self.folder / 'example.db'
        run('init', self.room, PLAN)
        run('import', self.room, FLEET)

    def play(self, asked, *words):
        """The answers to the messages of a script, and the rows of the room after it."""
        room = self.fresh(self.room)
        switches = clock(it.moment for it in asked)
        sent = ''.join(it.text() for it in asked).encode()
        got, status, said = self.program.serve(switches, room, sent, *words, ask=talk)
        found = answers(got.decode(), asked)
        self.assertEqual((status, len(found)), (0, len(asked)), f'it printed {said!r}')
        return found, dump(room)

    def check_scripts(self, paths, *words):
        """Each answer is the one that its script wants."""
        self.assertTrue(paths, 'there is no script')
        for path in paths:
            asked, got = messages(path), []
            with self.subTest(f'{path.name}: each message is answered'):
                got, _ = self.play(asked, *words)
            for it, answer, before in zip(asked, got, [None, *got]):
                with self.subTest(f'{path.name}: {it.line}'):
                    self.assertTrue(it.fits(answer, before),
                                    f'  wanted {it.wanted}\n  got    {answer}')
