"""The list of what is proved: what tools/proofs.py writes is what is committed, it has the crates
in their order and each law, with what is said of it; and what stands above it is short."""
# needs: python3
import re

from documents import differing
from room import TOP, TestCase

LIST = TOP / 'docs' / 'PROOFS.md'
# The line of a law or a function: its name, the place, and what is said of it.
ROW = re.compile(r'^- (?:\w+::)?\[(\w+)\]\(\.\./(\S+)#L(\d+)\)[^:]*: (.*)$', re.M)
NAMED = re.compile(r'^(?:(?:\w+::)?\[\w+\]\(\.\./\S+\)(?:, |$))+$')
MOST_WORDS = 260  # above the list
# Crates that nobody calls, and that have no laws.
LEFT_OUT = ['room_samples', 'dispatch_room', 'dispatch_room_dry_run_main']


def unfilled(text):
    """The text with each row of a list in one line."""
    return re.sub(r'\n +', ' ', text)


def laws():
    """The name and the place of each law: a public function with an empty body in a file of
    laws."""
    for file in sorted((TOP / 'crates').glob('*/src/*laws.rt')):
        for name in re.findall(r'^pub fn (\w+)', file.read_text(), re.M):
            yield name, str(file.relative_to(TOP))


class Proofs(TestCase):
    def test_is_written(self):
        self.assertEqual(differing(LIST, 'proofs.py'), [])

    def test_crates(self):
        """The crates stand in their order, all but those that nobody calls and that have no laws;
        what is named of each is links."""
        sections = dict(re.findall(r'^## (\w+)\n\n((?:\S.*\n)+)', LIST.read_text(), re.M))
        every = re.findall(r'^(\w+):', (TOP / 'crates.txt').read_text(), re.M)
        self.check('crates', list(sections), [it for it in every if it not in LEFT_OUT])
        for name, text in sections.items():
            with self.subTest(name):
                self.assertRegex(' '.join(text.split()), NAMED)

    def test_rows(self):
        rows = ROW.findall(unfilled(LIST.read_text()))
        self.check('each row is read', len(rows), LIST.read_text().count('\n- '))
        listed = {(name, place) for name, place, _, _ in rows}
        self.check('laws that are not listed', set(laws()) - listed, set())
        for name, _, _, says in rows:
            self.assertRegex(says, r'^[A-Z`][^;]*[^.:;]\.$', f'of {name} is said no sentence')

    def test_head(self):
        head = LIST.read_text().partition('\n## ')[0]
        self.assertLessEqual(len(head.split()), MOST_WORDS)
