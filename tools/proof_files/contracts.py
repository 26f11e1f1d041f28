"""The crates, and the public functions of each with their comments and the clauses of their
contracts."""
import functools
import itertools
import pathlib
import re

TOP = pathlib.Path(__file__).resolve().parent.parent.parent

FUNCTION = re.compile(r'( *)(pub(?:\(crate\))? )?(?:const )?fn (\w+)')
CLAUSE = re.compile(r'^ *ensures(?: \w+)? \{', re.M)


def sentence(text):
    """The first sentence of a comment."""
    return re.match(r'.*?\.(?= |$)|.*', text)[0]


def statement(text):
    """The first sentence of a comment, without what a colon or a semicolon adds to it. (A colon
    after an opening adds the statement itself.)"""
    found = re.match(r'(?:(?:However|In|Whatever) [^:;]*: )?.*?(?=[:;] |\.?$)', sentence(text))
    return f'{found[0]}.'


def comment(lines, at):
    """The lines of the comment of a function that begins at a line, over its attributes."""
    while at and not re.match(r' *///| *[}};]|.*;$|$', lines[at - 1]):
        at -= 1
    first = at
    while first and lines[first - 1].lstrip().startswith('///'):
        first -= 1
    return [it.strip().removeprefix('///').strip() for it in lines[first:at]]


class Function:
    """A function of a file, which begins at a line, counted from 1."""

    def __init__(self, file, lines, at, found):
        self.file, self.line, self.name = file, at + 1, found[3]
        self.is_public = found[2] == 'pub '
        self.owner = owner(lines, at) if found[1] else None
        self.comment = comment(lines, at)
        self.contract, self.is_law = contract(lines, at, found[1])

    @property
    def states(self):
        """What its comment states first."""
        return statement(' '.join(itertools.takewhile(bool, self.comment)))

    @property
    def weight(self):
        """How many words its comment and its clauses have; none where it has no clause."""
        found = CLAUSE.search(self.contract)
        ensured = self.contract[found.start():] if found else ''
        return len(f'{" ".join(self.comment)} {ensured}'.split()) if found else 0


def contract(lines, at, margin):
    """What stands between the name of a function and its body, and whether the body is empty."""
    ends = ('}', *(margin + it for it in ('{', '}', '///', '#[', 'fn ')))
    for end in range(at + 1, len(lines)):
        line = lines[end - 1]
        is_plain = line.endswith(('{', ';')) and (end == at + 1 or line.startswith(f'{margin})'))
        if is_plain or lines[end].startswith(ends):
            break
    return '\n'.join(lines[at:end]), lines[end] == f'{margin}{{}}'


def owner(lines, at):
    """The type to which the block adds functions in which a line stands; none of a trait's."""
    first = at
    while not re.match(r'\w', lines[first]):
        first -= 1
    head, many = ' '.join(lines[first:at]).split(' {')[0], 1
    while many:  # the innermost brackets first
        head, many = re.subn('<[^<>]*>', '', head)
    found = re.match(r'impl (\w+)', head)
    return found[1] if found and ' for ' not in head else None


class Crate:
    """A crate of the tree, or of a copy of it."""

    def __init__(self, name, top=TOP):
        self.name, self.top, self.folder = name, top, top / 'crates' / name
        self.sources = {it: it.read_text() for it in sorted((self.folder / 'src').glob('*.rt'))}

    @functools.cached_property
    def functions(self):
        """All functions, those of a file in their order."""
        return [Function(file, lines, at, found) for file, text in self.sources.items()
                for lines in [text.split('\n')] for at, line in enumerate(lines)
                if (found := FUNCTION.match(line))]

    @property
    def laws(self):
        return [it for it in self.functions
                if it.is_public and it.is_law and it.file.stem.endswith('laws')]

    @property
    def records(self):
        """The name, the file and the line of each record that is defined in `specs`."""
        for file in sorted((self.folder / 'specs').glob('*.antt')):
            for at, line in enumerate(file.read_text().split('\n')):
                if found := re.match(r' *pub record (\w+)', line):
                    yield found[1], file, at + 1

    @property
    def gate_edits(self):
        """The edits that the gate tries."""
        return list((self.folder / 'must-fail').glob('*.edit'))

    @property
    def edits(self):
        """All edits of the crate that the prover has to refuse."""
        return [*self.gate_edits, *(self.top / 'edits' / self.name).glob('*.edit')]


@functools.cache
def crates():
    """The crates by their names, lowest first."""
    names = re.findall(r'^(\w+):', (TOP / 'crates.txt').read_text(), re.M)
    return {it: Crate(it) for it in names}
