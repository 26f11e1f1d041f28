"""How it is tested: what tools/testing.py writes is what is committed, each test is of one kind,
and what it reads of a gate's log are the sums of its tests."""
# needs: python3
import collections
import subprocess
import sys
from itertools import zip_longest

from room import TOP, TestCase

sys.path.insert(0, str(TOP / 'tools'))
from testing import RUN, kinds  # noqa: E402

PAGE = TOP / 'docs' / 'TESTING.md'
LOG = """== the tests from outside
-- day
1 passed, 0 failed
-- memory
failed: test_memory.Memory.test_all
it ended
12 passed, 1 failed
-- streams
300 passed, 0 failed
313 passed, 1 failed
"""


class Testing(TestCase):
    def test_is_written(self):
        written = self.folder / 'TESTING.md'
        subprocess.run([sys.executable, TOP / 'tools' / 'testing.py', written], check=True)
        lines = zip_longest(*(it.read_text().splitlines() for it in (PAGE, written)))
        self.assertEqual([it for it in lines if it[0] != it[1]][:5], [])

    def test_kinds(self):
        there = {it.stem.removeprefix('test_') for it in (TOP / 'tests').glob('test_*.py')}
        named = collections.Counter(test for it in kinds() for test in it['tests'])
        self.check('tests of no kind', there - set(named), set())
        self.check('tests that are gone', set(named) - there, set())
        self.check('each has one kind', set(named.values()), {1})

    def test_log(self):
        self.check('the sums', RUN.findall(LOG),
                   [('day', '1', '0'), ('memory', '12', '1'), ('streams', '300', '0')])
