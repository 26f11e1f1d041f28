"""The ranks of a queue: what the pages know of them is what the room's own table says."""
# needs: python3
import re
import sys

from room import TOP, TestCase

sys.path.append(str(TOP / 'examples' / 'wall'))
import exceptions  # noqa: E402

TABLE = TOP / 'crates' / 'room_types' / 'src' / 'ranks.rt'
PAGES = [TOP / 'examples' / it for it in ('wall', 'desks')]
# A rank that is written as a number, where a page looks at an entry's.
BARE = re.compile(r'\brank\b[\'"\]]* *[=!]==? *\d')


def arms(text, name):
    """What a function of the table gives for each rank."""
    body = re.search(rf'pub fn {name}\b.*?^    }}', text, re.M | re.S)[0]
    found = re.findall(r'((?:\|?\s*Rank::\w+\s*)+)=> ([^,]+),', body)
    return {it: given for ranks, given in found for it in re.findall(r'Rank::(\w+)', ranks)}


def capitals(name):
    """`LATE_FOR_SCENE` for `LateForScene`."""
    return re.sub(r'(?<=[a-z])(?=[A-Z])', '_', name).upper()


def by_name(text, name):
    """What a table of the pages' module gives for each rank."""
    body = re.search(rf'^export const {name} = {{(.*?)}};', text, re.M | re.S)[1]
    return dict(re.findall(r'\[(\w+)\]: \'?(\w+)\'?', body))


class Ranks(TestCase):
    @classmethod
    def setUpClass(cls):
        cls.table = TABLE.read_text()
        cls.module = (PAGES[0] / 'ranks.js').read_text()
        cls.numbers = {capitals(it): int(number)
                       for it, number in arms(cls.table, 'number').items()}

    def test_ranks_are_those_of_the_table(self):
        variants = re.search(r'pub enum Rank \{\n(.*?)^\}', self.table, re.M | re.S)[1]
        names = [capitals(it) for it in re.findall(r'^    (\w+),$', variants, re.M)]
        self.check('numbers in order', self.numbers, dict(zip(names, range(1, 9), strict=True)))

    def test_numbers(self):
        found = re.findall(r'^export const (\w+) = (\d+);$', self.module, re.M)
        self.check('numbers', {name: int(number) for name, number in found}, self.numbers)

    def test_subjects(self):
        wanted = {capitals(it): subject.removeprefix('Subject::')
                  for it, subject in arms(self.table, 'subject').items()}
        self.check('subjects', by_name(self.module, 'SUBJECTS'), wanted)
        self.check('each has one', wanted.keys(), self.numbers.keys())

    def test_limits(self):
        limits = {capitals(it): re.fullmatch(r'Some\((\d+)\)', limit)
                  for it, limit in arms(self.table, 'limit').items()}
        self.check('limits', by_name(self.module, 'LIMITS'),
                   {it: limit[1] for it, limit in limits.items() if limit})

    def test_what_has_no_moment(self):
        untimed = re.search(r'isTimed = \(rank\) => rank !== (\w+);', self.module)[1]
        timed = arms(self.table, 'is_timed').items()
        self.check('without moment', [untimed],
                   [capitals(it) for it, is_timed in timed if is_timed == 'false'])

    def test_words(self):
        words = (PAGES[0] / 'words.js').read_text()
        table = re.search(r'^const ENTRIES = {(.*?)^};', words, re.M | re.S)[1]
        self.check('words of each', re.findall(r'^  \[(\w+)\]', table, re.M), list(self.numbers))

    def test_exceptions(self):
        self.check('the rank of exceptions', exceptions.RANK, self.numbers['OUT_OF_TURN'])

    def test_no_page_has_numbers_of_its_own(self):
        files = [it for folder in PAGES for it in folder.iterdir() if it.suffix in ('.js', '.py')]
        self.check('numbers', {it.name: BARE.findall(it.read_text()) for it in files
                               if BARE.search(it.read_text())}, {})
