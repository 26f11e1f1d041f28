"""The tables and indexes as constants, by which the schema of a file is tested."""
import dataclasses
import string

from .texts import schema

HEAD = string.Template("""\
//! The tables and indexes of a room, as their texts make them. $written

use crate::forms::{$names};
""")

TABLE = string.Template("""
pub(crate) const $NAME: TableForm = (
    "$name",
    $tree,
    $key,
    &$columns,
);
""")

LISTS = string.Template("""
/// The tables of a room, in the order in which they are made.
$tables

/// The indexes of a room: those of the keys, and those that find its working rows.
$indexes

/// How many of the indexes are those of the keys.
pub(crate) const KEY_INDEXES: usize = $keys;

/// How many of the tables the first version had: all but the last, `$last`.
pub(crate) const FIRST_TABLES: usize = $first_tables;

/// The indexes of the first version. Those that find working rows took the trees behind its tables.
$first_indexes

/// How many of the first version's indexes are those of the keys.
pub(crate) const FIRST_KEY_INDEXES: usize = $first_keys;
""")


def array(items, indent=''):
    """An array, on one line where it is short, as the formatter has it."""
    line = ', '.join(items)
    if len(line) <= 60:
        return f'[{line}]'
    return '[\n' + ''.join(f'{indent}    {it},\n' for it in items) + f'{indent}]'


def places(table, names):
    return f'&[{", ".join(map(str, table.places(names)))}]'


def rule(column):
    """What a column's values must be."""
    return column.kind if column.is_needed else f'{column.kind}_OR_NULL'


def table_form(table):
    columns = [f'("{it.name}", {rule(it)})' for it in table.columns]
    return TABLE.substitute(
        NAME=table.name.upper(), name=table.name, tree=table.tree,
        key='&[]' if table.has_rowid else places(table, table.key),
        columns=array(columns, '    '))


def index_form(index):
    columns, is_key = places(index.table, index.columns), str(index.is_of_key).lower()
    return f'("{index.name}", {index.tree}, {index.table.tree}, {columns}, {is_key})'


def index_constant(index):
    """The constant of an index, on one line where it is short, as the formatter has it."""
    head, form = f'pub(crate) const {index.name.upper()}: IndexForm =', index_form(index)
    gap = ' ' if len(head) + len(form) < 99 else '\n    '
    return f'\n{head}{gap}{form};\n'


def list_constant(name, of_type, items):
    return f'pub(crate) const {name}: [{of_type}; {len(items)}] = {array(items)};'


def lists():
    """The lists of the tables and indexes, and those of the first version: it had the tables before
    the last, and its other indexes took the trees behind them."""
    tables = list(schema().tables.values())
    keys, named, last = schema().key_indexes, schema().named_indexes, tables[-1]
    first_keys = [it for it in keys if it.table is not last]
    trees_of_last = named[0].tree - last.tree
    first = [*first_keys, *(dataclasses.replace(it, tree=it.tree - trees_of_last) for it in named)]
    indexes = [*map(index_form, keys), *(it.name.upper() for it in named)]
    return LISTS.substitute(
        tables=list_constant('TABLES', 'TableForm', [it.name.upper() for it in tables]),
        indexes=list_constant('INDEXES', 'IndexForm', indexes), keys=len(keys),
        last=last.name, first_tables=len(tables) - 1,
        first_indexes=list_constant('FIRST_INDEXES', 'IndexForm', [index_form(it) for it in first]),
        first_keys=len(first_keys))


def forms(written):
    """The parts of the file, of which the first says that it is written."""
    tables = schema().tables.values()
    names = {'IndexForm', 'TableForm', *(rule(it) for table in tables for it in table.columns)}
    yield HEAD.substitute(written=written, names=', '.join(sorted(names)))
    yield from map(table_form, tables)
    yield from map(index_constant, schema().named_indexes)
    yield lists()
