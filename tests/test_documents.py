"""The documents together: how many words they have, how long the README's sentences are and what it
shows of the code, what documents count, the figures that they cite of bench/figures.csv, and the
tools that WORKING.md names. (tests/test_architecture.py has ARCHITECTURE.md.)"""
# needs: python3
import ast
import csv
import decimal
import json
import operator
import re
import subprocess

from documents import FENCED, crates, pages, sentences
from room import TOP, TestCase

# How many words a document has at most, as `wc -w` counts them.
MOST = {'README': 700, 'CONTRIBUTING': 450, 'SECURITY': 350, 'CHANGELOG': 1125, 'TUTORIAL': 800,
        'OPERATING': 3005, 'RULES': 2460, 'HTTP': 2840, 'FILES': 3220, 'ARCHITECTURE': 1430,
        'DECISIONS': 3070, 'JUDGING': 650, 'PROOFS': 2980, 'PROMISES': 6940, 'SCALE': 600,
        'TESTING': 755, 'TRUST': 1910, 'WORKING': 580}
# README.md and docs/ together, without what tools write; and the long form of the measurements.
TOGETHER = 19120
MOST_OF_BENCH = 4500
MOST_OF_SENTENCE = 25  # words, in the README
# Pages that say why, and how a sentence begins that has a clause as its subject.
PLAIN = ['ARCHITECTURE', 'DECISIONS', 'PROOFS', 'README', 'TESTING', 'TRUST', 'WORKING']
CLAUSE_FIRST = re.compile(r'\W*(?:What|Whatever|Who|Whoever|That|Whether) ')
# What a tool writes: it may list crates, and has no figures.
WRITTEN = ['PROOFS', 'PROMISES', 'TESTING', 'TRUST']

# A figure that a document cites, as [157 us](../bench/figures.csv#call).
CITED = re.compile(r'\[([^\]]+)\]\([./]*bench/figures\.csv#(\w+)\)')
LONG_FORM = [TOP / 'bench' / 'README.md', TOP / 'bench' / 'three' / 'README.md']
# A number with such a unit is a figure, which is cited; in SCALE.md, with any of these units.
MEASURED = re.compile(r'\d[\d,.]* (?:us|microseconds|kB)\b')
ANY_UNIT = re.compile(r'\d[\d,.]* (?:(?:us|ms|microseconds|milliseconds|seconds|kB|KiB|MiB)\b|%)')

OPERATIONS = {ast.Add: operator.add, ast.Sub: operator.sub, ast.Mult: operator.mul,
              ast.Div: operator.truediv}


def below(name):
    """What a crate of the tree stands on, directly or not, of the tree."""
    on = {it for it in crates()[name] if it in crates()}
    return on.union(*(below(it) for it in on))


def edits():
    """All edits that must fail."""
    yield from (TOP / 'edits').glob('*/*.edit')
    yield from (TOP / 'crates').glob('*/must-fail/*.edit')


# ---- figures


def figures():
    """The rows of bench/figures.csv by their names."""
    with (TOP / 'bench' / 'figures.csv').open(newline='') as file:
        return {it['name']: it for it in csv.DictReader(file)}


def number(text):
    """The number with which a text begins."""
    return decimal.Decimal(re.match(r'[\d,]+(?:\.\d+)?', text)[0].replace(',', ''))


def rounded(value, like):
    """A value with as many decimals as the number of a text has."""
    return value.quantize(decimal.Decimal(1).scaleb(number(like).as_tuple().exponent),
                          decimal.ROUND_HALF_UP)


def worked_out(rows, node):
    """What a formula over figures comes to."""
    match node:
        case ast.Expression(body):
            return worked_out(rows, body)
        case ast.BinOp(left, kind, right):
            return OPERATIONS[type(kind)](worked_out(rows, left), worked_out(rows, right))
        case ast.Constant(value):
            return decimal.Decimal(str(value))
        case ast.Name(name):
            return value_of(rows, name)


def value_of(rows, name):
    """The value of a figure: as it was measured, or as it follows from others."""
    if not rows[name]['command'].startswith('= '):
        return number(rows[name]['value'])
    return worked_out(rows, ast.parse(rows[name]['command'][2:], mode='eval'))


class Words(TestCase):
    def test_words(self):
        many = {name: len(text.split()) for name, text in pages().items()}
        self.check('documents', sorted(many), sorted(MOST))
        for name, most in MOST.items():
            if name in many:
                with self.subTest(name):
                    self.assertLessEqual(many[name], most)
        found = [TOP / 'README.md', *(TOP / 'docs').glob('*.md')]
        with self.subTest('together'):
            by_hand = [it.stem for it in found if it.stem not in WRITTEN]
            self.assertLessEqual(sum(many[it] for it in by_hand), TOGETHER)
        with self.subTest('bench/README.md'):
            self.assertLessEqual(len(LONG_FORM[0].read_text().split()), MOST_OF_BENCH)


class Readme(TestCase):
    """The first page is short, and its code is the crates'."""

    def setUp(self):
        super().setUp()
        self.text = pages()['README']

    def test_sentences(self):
        found = sentences(self.text)
        self.check('there are sentences', len(found) > 25, True)
        for it in found:
            with self.subTest(it):
                self.assertLessEqual(len(it.split()), MOST_OF_SENTENCE)

    def test_code(self):
        """Its contract stands in the code, and what it says to leave out is what its edit does."""
        [(_, code)] = FENCED.findall(self.text)
        [edit] = re.findall(r'\((edits/\S+)\.edit\)', self.text)
        file, old, new = re.fullmatch('file: (.*)\nold: (.*)\nnew: (.*)\n',
                                      (TOP / f'{edit}.edit').read_text()).groups()
        crate = edit.split('/')[1]
        source = (TOP / 'crates' / crate / file).read_text()
        self.check('it stands in the code', f'\n{code}' in source, True)
        self.check('the edit changes it', old in code, True)
        [out] = re.findall(r'Leave out `([^`]+)`', self.text)
        self.check('it is left out', old.replace(f' && {out}', ''), new)

    def test_kit(self):
        """The kit that it names is the one of the proofs' head, and only one is named."""
        named = set(re.findall(r'rattle-kit-(\w+)', self.text))
        proofs = set(re.findall(r'\(kit (\w+)\)', pages()['PROOFS']))
        self.check('the kit', named, proofs)


class Plain(TestCase):
    """In pages that say why, the subject of a sentence is a word, and no clause."""

    def test_beginnings(self):
        for name in PLAIN:
            text = pages()[name].partition('\n## ')[0] if name == 'PROOFS' else pages()[name]
            found = filter(CLAUSE_FIRST.match, sentences(text))
            self.check(name, [it for it in found if not it.endswith('?')], [])


class Counts(TestCase):
    def test_edits(self):
        """The gate tries at most sixty edits, as WORKING.md says."""
        self.check('WORKING.md says so', 'at most sixty' in pages()['WORKING'], True)
        edits = list((TOP / 'crates').glob('*/must-fail/*'))
        self.check('there are as many', 0 < len(edits) <= 60, True)

    def test_counts(self):
        """What documents count, and that there are so many."""
        wanted = {
            r'(\d+) crates below the dry run': len(below('dispatch_room_dry_run_main')),
            r'(\d+) crates\b(?! below)': len(crates()),
            r'(\d[\d,]*) edits\b': sum(1 for _ in edits()),
            r'(\d+) paths\b': len(json.loads((TOP / 'docs' / 'openapi.json').read_text())['paths']),
        }
        for name, text in pages().items():
            for pattern, many in wanted.items():
                for found in re.findall(rf'\b{pattern}', ' '.join(text.split())):
                    self.check(f'{name}: {pattern}', int(found.replace(',', '')), many)


class Figures(TestCase):
    def setUp(self):
        super().setUp()
        self.rows = figures()

    def test_cited(self):
        """Each figure that a document cites is the one of its name, as rounded as it is shown."""
        many = 0
        for name, text in pages().items():
            for shown, figure in CITED.findall(text):
                many += 1
                with self.subTest(f'{name}: {figure}'):
                    self.assertIn(figure, self.rows, 'there is no such figure')
                    self.assertEqual(number(shown), rounded(value_of(self.rows, figure), shown))
                    unit = shown.partition(' ')[2]
                    alike = {'seconds': 's', 'microseconds': 'us', 'milliseconds': 'ms'}
                    self.assertIn(alike.get(unit, unit), ['', self.rows[figure]['unit']])
        self.check('figures are cited', many > 10, True)

    def test_all_are_cited(self):
        """What documents say of time and bytes is cited, and what nobody cites is not kept."""
        cited = set()
        for name, text in pages().items():
            if name not in WRITTEN:
                unit = ANY_UNIT if name == 'SCALE' else MEASURED
                self.check(f'{name}: figures that are not cited',
                           unit.findall(CITED.sub('', ' '.join(text.split()))), [])
                cited |= {it for _, it in CITED.findall(text)}
        used = {word for row in self.rows.values() if row['command'].startswith('= ')
                for word in re.findall(r'\w+', row['command'])}
        self.check('figures that nobody cites', sorted(set(self.rows) - cited - used), [])

    def test_rows(self):
        """Each was measured, as the long form has it where it names the command; or it follows from
        others as its formula says."""
        long_form = [it for page in LONG_FORM for it in re.split('^# ', page.read_text(), flags=re.M)]
        for name, row in self.rows.items():
            shown, command = row['value'], row['command']
            if command.startswith('= '):
                self.check(name, number(shown), rounded(value_of(self.rows, name), shown))
                continue
            text = ' '.join(it for it in long_form if command in it)
            is_there = re.search(rf'(?<![\d,.]){re.escape(shown)}(?![,.]?\d)', text)
            self.check(f'{name} stands in the long form', bool(is_there), True)
            is_dated = re.fullmatch(r'\d{4}-\d\d-\d\d', row['date'])
            self.check(f'{name} has its day, unit and machine',
                       bool(is_dated and row['unit'] and row['machine']), True)
            self.check(f'{name}: {command}', (TOP / command.split()[0]).is_file(), True)


class Tools(TestCase):
    """Each prints its help, and refuses a flag that it doesn't have, whatever it would do else."""

    def test_help(self):
        names = sorted(set(re.findall(r'`(tools/[\w.]+)', pages()['WORKING'])))
        self.check('a tool that is known to be there', 'tools/edits' in names, True)
        for name in names:
            with self.subTest(name):
                helped, refused = (subprocess.run([TOP / name, word], capture_output=True, text=True)
                                   for word in ('--help', '--no-such-flag'))
                usage = f'usage: {name.removeprefix("tools/")} '
                self.check('help', (helped.returncode, helped.stdout[:len(usage)]), (0, usage))
                self.check('refusal', (refused.returncode, refused.stderr[:len(usage)]), (2, usage))
