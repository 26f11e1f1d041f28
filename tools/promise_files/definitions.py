"""The definitions that a contract names: where an import leads, and the text of each."""
import itertools
import pathlib
import re
from dataclasses import dataclass

# An import of what a library of the tree defines: the library, the file, and the names.
IMPORT = re.compile(r'\buse Rattle\.(\w+)\.specs\.([\w.]+)\.\{([^}]*)\}')
WORD = re.compile(r'\w+')
# The name of what a line begins to define.
DEFINED = re.compile(r'(?:(?:abbrev|unfoldable|pub|record|data) )*(?!(?:use|mod|module)\b)(\w+)')
COMMENT = re.compile(r'(?:--|//).*')


@dataclass(frozen=True)
class Definition:
    file: pathlib.Path
    name: str
    text: str


def words(text):
    """The words of a text beside its comments."""
    return set(WORD.findall(COMMENT.sub('', text)))


class Definitions:
    """Those of a tree, as they are asked for."""

    def __init__(self, top):
        self.top = top
        self.texts, self.imports, self.definitions = {}, {}, {}

    def text(self, file):
        if file not in self.texts:
            self.texts[file] = file.read_text() if file.exists() else ''
        return self.texts[file]

    def imported(self, file):
        """By the name that a file gives it: the file of each definition that it imports, and its
        name there. Of the toolchain's there is no such file."""
        if file not in self.imports:
            found = self.imports[file] = {}
            for crate, path, names in IMPORT.findall(self.text(file)):
                place = self.top / 'crates' / crate / 'specs' / f'{path.replace(".", "/")}.antt'
                for name in filter(None, map(str.strip, names.split(','))):
                    first, _, other = name.partition(' as ')
                    found[other or first] = place, first
        return self.imports[file]

    def find(self, file, name):
        """What a name means in a file: by an import, or by the file itself."""
        place, own = self.imported(file).get(name, (file, name))
        text = self.defined(place).get(own) if place.suffix == '.antt' else None
        return text and Definition(place, own, text)

    def defined(self, file):
        """The text of each definition of a file, by its name: from the line that begins with it to
        the next empty one."""
        if file not in self.definitions:
            found = self.definitions[file] = {}
            lines = self.text(file).split('\n')
            for at, line in enumerate(lines):
                name = DEFINED.match(line)
                if name and name[1] not in found:
                    found[name[1]] = '\n'.join([*itertools.takewhile(bool, lines[at:]), ''])
        return self.definitions[file]

    def below(self, file, text):
        """The definitions that a text of a file names, and those that they name, to the last."""
        seen, waiting = set(), [(file, word) for word in words(text)]
        while waiting:
            step = waiting.pop()
            if step not in seen:
                seen.add(step)
                if found := self.find(*step):
                    yield found
                    waiting += [(found.file, word) for word in words(found.text)]
