"""The page of trust: what tools/trust.py writes is what is committed, its lists have each example,
and the README's figure of what is to be read is the page's, as rounded as it is shown."""
# needs: python3
import csv
import re
import subprocess
import sys
from itertools import zip_longest

from room import TOP, TestCase

sys.path.insert(0, str(TOP / 'tools'))
from trust_files.linked import linked  # noqa: E402
from trust_files.reading import all_of, readings  # noqa: E402

PAGE = TOP / 'docs' / 'TRUST.md'
LISTS = TOP / 'tools' / 'trust_files'


class Trust(TestCase):
    def test_is_written(self):
        written = self.folder / 'TRUST.md'
        subprocess.run([sys.executable, TOP / 'tools' / 'trust.py', written], check=True)
        lines = zip_longest(*(it.read_text().splitlines() for it in (PAGE, written)))
        self.assertEqual([it for it in lines if it[0] != it[1]][:5], [])

    def test_examples(self):
        with (LISTS / 'outside.csv').open(newline='') as text:
            named = [it['folder'] for it in csv.DictReader(text)]
        self.check('examples', named,
                   sorted(it.name for it in (TOP / 'examples').iterdir() if it.is_dir()))

    def test_functions(self):
        names = [it.name for it in linked()]
        self.check('each stands once', sorted(set(names)), sorted(names))
        self.check('each is said in words', [it.name for it in linked() if not it.assumed], [])

    def test_readme(self):
        """A figure in hundreds of lines, which is not out by more than a twentieth."""
        [shown] = re.findall(r'([\d,]+) lines of \[definitions\]', (TOP / 'README.md').read_text())
        lines = int(shown.replace(',', ''))
        self.check('hundreds', lines % 100, 0)
        self.assertAlmostEqual(lines, all_of().lines, delta=lines / 20)


class Reading(TestCase):
    """The definitions below a promise are those that its clauses name."""

    def names(self, promise):
        return {it.name for it in readings()[promise].found}

    def test_what_is_reached(self):
        for promise, name in [('3', 'Room'), ('5', 'ActsOnce'), ('7', 'is_eligible'),
                              ('9', 'IsWellFormed'), ('13', 'IsShown')]:
            self.check(f'promise {promise} needs {name}', name in self.names(promise), True)

    def test_what_is_not(self):
        for promise, name in [('3', 'IsPart'), ('7', 'IsWellFormed'), ('11', 'ActsOnce')]:
            is_named = name in self.names(promise)
            self.check(f'promise {promise} does not need {name}', is_named, False)
