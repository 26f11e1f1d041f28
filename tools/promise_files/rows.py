"""The rows of the list of promises, and where what they name stands in a tree."""
import csv
import pathlib
import re
from dataclasses import dataclass

from proof_files.contracts import Crate, TOP
from .definitions import Definitions

ROWS = TOP / 'tools' / 'promise_files' / 'promises.csv'
NAMES = TOP / 'tools' / 'promise_files' / 'names.txt'
# Of which sections a row is, beside those of the crates.
PROMISES = [str(it) for it in range(1, 15)]
WITHOUT_MEMORY = 'without memory'


@dataclass(frozen=True)
class Row:
    """What is promised: a section, the name of its clause or of what is public, where that stands
    (a crate, or a file of one), under which name where it is another, edits, and a sentence. A row
    without a name says its section in a sentence."""
    section: str
    name: str
    place: str
    stands_as: str
    edits: tuple
    says: str

    @property
    def crate(self):
        return self.place.partition('/')[0]

    @property
    def stands(self):
        return self.stands_as or self.name

    @property
    def is_public(self):
        """Whether its name is one that others call, no clause."""
        return self.section not in PROMISES

    def __str__(self):
        return f'{self.section}: {self.name}'


def rows(file=ROWS):
    with file.open(newline='') as text:
        return [Row(it['section'], it['name'], it['place'], it['stands as'],
                    tuple(it['edits'].split()), it['says']) for it in csv.DictReader(text)]


def names(file=NAMES):
    """The names that were ever promised, each with its section: those that still are, and those
    that were removed."""
    found = {True: set(), False: set()}
    is_kept = True
    for line in file.read_text().split('\n'):
        if line == '# Removed':
            is_kept = False
        elif line and line[0] not in '# ':
            section = line.removesuffix(':')
        elif line[:1] == ' ':
            found[is_kept] |= {(section, name) for name in line.split()}
    return found[True], found[False]


@dataclass(frozen=True)
class Place:
    """A file and a line of it, counted from 1; and of a public function what is read of it."""
    file: pathlib.Path
    line: int
    function: object = None


class Tree:
    """The tree, or a copy of it."""

    def __init__(self, top=TOP):
        self.top = top
        self.crates = {}
        self.definitions = Definitions(top)

    def crate(self, name):
        if name not in self.crates:
            self.crates[name] = Crate(name, self.top)
        return self.crates[name]

    def edit(self, name):
        """The file of an edit, by the names of its crate and its own; none where it is gone."""
        crate, _, edit = name.partition('/')
        files = [self.top / 'edits' / crate / f'{edit}.edit',
                 self.top / 'crates' / crate / 'must-fail' / f'{edit}.edit']
        return next((it for it in files if it.exists()), None)

    def place(self, row):
        """Where a row's clause stands, or what it names, if that is public; else none."""
        if row.is_public:
            return public(self.crate(row.crate), row.stands)
        return clause(self.crate(row.crate), row.place, row.stands)


def clause(crate, place, name):
    """A function, a record or a part of one, in a file that is named without its ending; or a
    public function of the crate."""
    if '/' not in place:
        return public(crate, name)
    for file in crate.folder.parent.glob(f'{place}.*'):
        form = r'\bfn {}\b' if file.suffix == '.rt' else r'\brecord {0}\b|\bpub {0} :'
        for at, line in enumerate(file.read_text().split('\n'), 1):
            if re.search(form.format(name), line):
                return Place(file, at)
    return None


def public(crate, name):
    """What is public in a crate under a name, or of a type of it, written TYPE::NAME."""
    owner, _, last = name.rpartition('::')
    for function in functions(crate, last):
        if owner == (function.owner or '') and (owner or is_exported(crate, function.file, last)):
            return Place(function.file, function.line, function)
    for file, text in crate.sources.items():
        found = re.search(rf'^pub (?:struct|enum|trait|type|const) {name}\b', text, re.M)
        if found and is_exported(crate, file, name):
            return Place(file, text.count('\n', 0, found.start()) + 1)
    return None


def functions(crate, name):
    return [it for it in crate.functions if it.is_public and it.name == name]


def is_exported(crate, file, name):
    """Whether others may name what is public in a file: the module is public, or a public one
    exports it."""
    return is_module_public(crate, file) or any(
        is_module_public(crate, other)
        and re.search(rf'^pub use crate::{file.stem}::(?:\{{[^}}]*\b)?{name}\b', text, re.M)
        for other, text in crate.sources.items())


def is_module_public(crate, file):
    library = crate.sources.get(crate.folder / 'src' / 'lib.rt', '')
    return re.search(rf'^pub mod {file.stem};', library, re.M) is not None
