"""The tables and indexes of a room, as the texts say that make them."""
import dataclasses
import functools
import re

import kit

TEXTS = kit.TOP / 'crates' / 'room_tables_schema' / 'src' / 'schema_sql.rt'


@dataclasses.dataclass(frozen=True)
class Column:
    """A column: its name, the kind of its values, and whether every row needs one."""
    name: str
    kind: str
    is_needed: bool

    @classmethod
    def of(cls, text):
        name, kind = text.split()[:2]
        return cls(name, kind, 'NOT NULL' in text)


@dataclasses.dataclass(frozen=True)
class Defined:
    """A table: its number in the order of the texts, its tree, its columns, and the names of those
    that are its key."""
    name: str
    number: int
    tree: int
    columns: list[Column]
    key: list[str]

    @classmethod
    def of(cls, name, number, tree, body):
        texts = re.split(r', (?![^(]*\))', body)
        if texts[-1].startswith('PRIMARY KEY ('):
            key = texts.pop().removeprefix('PRIMARY KEY (').removesuffix(')').split(', ')
        else:
            key = [Column.of(it).name for it in texts if 'PRIMARY KEY' in it]
        return cls(name, number, tree, [Column.of(it) for it in texts], key)

    @property
    def key_kinds(self):
        return tuple(self.columns[self.index(name)].kind for name in self.key)

    @property
    def has_rowid(self):
        """Whether its key is the rowid, so that no index of its keys is made."""
        return self.key_kinds == ('INTEGER',)

    def index(self, name):
        return [it.name for it in self.columns].index(name)

    def place(self, name):
        """The place of a column in a row of the tree, where place 0 is the rowid."""
        return 0 if self.has_rowid and name in self.key else self.index(name) + 1

    def places(self, names):
        return [self.place(name) for name in names]


@dataclasses.dataclass(frozen=True)
class Index:
    """An index: its tree, its table, and the names of the columns by which it finds rows."""
    name: str
    tree: int
    table: Defined
    columns: list[str]
    is_of_key: bool = False


@dataclasses.dataclass(frozen=True)
class Schema:
    """The tables by their names, the indexes of their keys, and those that have a text."""
    tables: dict[str, Defined]
    key_indexes: list[Index]
    named_indexes: list[Index]


@functools.cache
def schema():
    """What the texts say. Trees are numbered as they are made: a key that is no rowid takes the one
    after its table's."""
    text = re.sub(r'\\\n *', '', TEXTS.read_text())
    tables, keys, tree = {}, [], 0
    for name, body in re.findall(r'"CREATE TABLE (\w+) \((.*)\) STRICT"', text):
        table = tables[name] = Defined.of(name, len(tables), tree, body)
        tree += 1
        if not table.has_rowid:
            keys.append(Index(f'sqlite_autoindex_{name}_1', tree, table, table.key, is_of_key=True))
            tree += 1
    indexes = re.findall(r'"CREATE INDEX (\w+) ON (\w+) \((.*)\)"', text)
    return Schema(tables, keys, [Index(name, made, tables[table], columns.split(', '))
                                 for made, (name, table, columns) in enumerate(indexes, tree)])
