"""The list of what is promised: what tools/promises.py writes is what is committed, each row's
clause, public name and edits are there, and the calls that take no memory take none. On a copy of
the tree from which a row's thing is taken, that row is named."""
# needs: python3
import contextlib
import os
import re
import shutil
import sys

from documents import LINK, differing, sentences
from room import TOP, TestCase

sys.path.insert(0, str(TOP / 'tools'))
from promise_files.faults import edit_faults, edit_texts, faults, is_about_refusals  # noqa: E402
from promise_files.faults import list_faults, unlisted  # noqa: E402
from promise_files.rows import PROMISES, WITHOUT_MEMORY, Tree, is_module_public  # noqa: E402
from promise_files.rows import names, rows  # noqa: E402

LIST = TOP / 'docs' / 'PROMISES.md'
MOST_WORDS = 25  # of a sentence
MOST_OF_PROMISE = 20
FEW = 5  # of each kind are tried, where not every place is
ROWS = [it for it in rows() if it.name]


def decisions():
    return (TOP / 'docs' / 'DECISIONS.md').read_text()


def promises():
    """The promises of the README by their numbers."""
    text = (TOP / 'README.md').read_text().partition('## What is promised')[2]
    return dict(re.findall(r'^(\d+)\. (.*\n(?: +.*\n|\n)*)', text.partition('\n## ')[0], re.M))


class Promises(TestCase):
    def test_is_written(self):
        self.assertEqual(differing(LIST, 'promises.py'), [])

    def test_sentences(self):
        for row in rows():
            if row.says or row.section != WITHOUT_MEMORY:
                with self.subTest(str(row)):
                    self.assertRegex(row.says, r'^[A-Z0-9`](?:[^.]|\.(?! ))*\.$', 'no sentence')
                    self.assertLessEqual(len(row.says.split()), MOST_WORDS)

    def test_names(self):
        kept, removed = names()
        self.check('names', list_faults(ROWS, kept, removed, decisions()), [])
        self.check('each stands once', len(kept), len(ROWS))

    def test_rows(self):
        tree = Tree()
        for row in ROWS:
            self.check(str(row), faults(row, tree), [])

    def test_whole_crates(self):
        """All calls of some crates take no memory, but those that make lists."""
        self.check('others', list(unlisted(ROWS, Tree())), [])

    def test_readme(self):
        """The README has each promise in the words of its section, short, with one link to that."""
        found = promises()
        self.check('promises', list(found), PROMISES)
        for number, text in found.items():
            says = next(it.says for it in rows() if it.section == number)
            self.check(f'promise {number}', sentences(f'{number}. {text}'), [says])
            self.check(f'the link of promise {number}', re.findall(r'\]\(([^)]*)\)', text),
                       [f'docs/PROMISES.md#promise-{number}'])
            self.assertLessEqual(len(says.split()), MOST_OF_PROMISE)


class Lost(TestCase):
    """Each row's thing is taken from a copy of the tree in turn, in each way; few of each kind,
    where not every place is tried."""

    def setUp(self):
        super().setUp()
        for name in ('crates', 'edits'):
            shutil.copytree(TOP / name, self.folder / name,
                            ignore=shutil.ignore_patterns('out', 'proofs', 'target'))
        tree = Tree(self.folder)
        self.sound = [it for it in ROWS if not faults(it, tree)]
        self.assertGreater(len(self.sound), len(ROWS) / 2)

    def some(self, found):
        """The rows that are tried of these."""
        found = list(found)
        self.assertTrue(found, 'there is none')
        return found if 'EVERY_PLACE' in os.environ else found[::max(1, len(found) // FEW)]

    @contextlib.contextmanager
    def changed(self, file, change):
        """The copy, with a file that is changed."""
        text = file.read_text()
        self.assertNotEqual(change(text), text, f'{file} stays as it is')
        file.write_text(change(text))
        yield
        file.write_text(text)

    def is_lost(self, row, file, change, fault):
        with self.changed(file, change), self.subTest(f'{row}: {fault}'):
            self.assertIn(fault, faults(row, Tree(self.folder)))

    def place(self, row):
        return Tree(self.folder).place(row)

    def in_line(self, row, old, new):
        """Changes the line in which a row's clause or name stands."""
        at = self.place(row).line - 1

        def change(text):
            lines = text.split('\n')
            lines[at] = re.sub(old, new, lines[at], count=1)
            return '\n'.join(lines)
        return change

    def test_names_that_are_not_public(self):
        for row in self.some(it for it in self.sound if it.is_public):
            self.is_lost(row, self.place(row).file, self.in_line(row, r'\bpub ', ''),
                         f'`{row.stands}` is not public in {row.place}')

    def test_modules_that_are_not_public(self):
        """What another module exports stays public, so such a row is left out."""
        for row in self.some(it for it in self.sound if it.is_public and '::' not in it.stands
                             and self.is_in_public_module(it)):
            file = self.place(row).file
            self.is_lost(row, file.parent / 'lib.rt',
                         lambda text, name=file.stem: text.replace(f'pub mod {name};', f'mod {name};'),
                         f'`{row.stands}` is not public in {row.place}')

    def is_in_public_module(self, row):
        return is_module_public(Tree(self.folder).crate(row.crate), self.place(row).file)

    def test_clauses_that_are_gone(self):
        for row in self.some(self.sound):
            last = row.stands.rpartition('::')[2]
            what = 'is not public' if row.is_public else 'is gone'
            self.is_lost(row, self.place(row).file, self.in_line(row, rf'\b{last}\b', 'another'),
                         f'`{row.stands}` {what} in {row.place}')

    def test_edits_that_are_gone(self):
        for row in self.some(it for it in self.sound if it.edits):
            file = Tree(self.folder).edit(row.edits[-1])
            moved = file.rename(self.folder / 'moved')
            with self.subTest(str(row)):
                self.assertEqual(faults(row, Tree(self.folder)), [f'the edit {row.edits[-1]} is gone'])
            moved.rename(file)

    def test_edits_that_do_not_fit(self):
        for row in self.some(it for it in self.sound if it.edits):
            target, old = edit_texts(row.edits[0], Tree(self.folder))
            with self.changed(target, lambda text, old=old: text.replace(old[0], '', 1)):
                found = edit_faults(row.edits[0], Tree(self.folder))
                self.check(str(row), found, [f'the edit {row.edits[0]} does not fit'])

    def without_memory(self):
        return [it for it in self.sound if it.section == WITHOUT_MEMORY]

    def test_allocators(self):
        for row in self.some(self.without_memory()):
            name = row.stands.rpartition('::')[2]
            self.is_lost(row, self.place(row).file,
                         self.in_line(row, rf'\b{name}(<.*?>)?\(', rf'{name}\1(alloc: Global, '),
                         'takes an allocator')

    def test_clauses_that_let_memory_be_refused(self):
        """By their own words, and by a definition that they name."""
        for row in self.some(it for it in self.without_memory()
                             if not is_about_refusals(self.place(it).function)):
            for clause, word in [('IfErr result (λ e. e ≡ Memory)', 'Memory'),
                                 ('MatchResult result (λ _. ⊤) IsUnavailable', 'IsUnavailable')]:
                self.is_lost(row, self.place(row).file, self.with_clause(row, clause),
                             f'may lack memory by `{word}`')

    def with_clause(self, row, clause):
        """Adds a clause to a function, and the import of a definition to its file."""
        contract = self.place(row).function.contract
        at = re.search(r'^ *ensures\b', contract, re.M).start()
        used = 'ghost use Rattle.room_model.specs.Rooms.{IsUnavailable};\n'
        added = f'{contract[:at]}    ensures lost {{ {clause} }}\n{contract[at:]}'
        return lambda text: used + text.replace(contract, added)

    def test_rows_that_are_gone(self):
        kept, removed = names()
        for row in self.some(ROWS):
            others = [it for it in ROWS if it != row]
            key = row.section, row.name
            with self.subTest(str(row)):
                self.assertEqual(list_faults(others, kept, removed, decisions()),
                                 [f'{row} has no row'])
                without = list_faults(others, kept - {key}, {key}, '')
                self.assertEqual(without, [f'{row} is removed, and DECISIONS.md does not say why'])
                self.assertEqual(list_faults(others, kept - {key}, {key}, f'`{row.name}`'), [])
