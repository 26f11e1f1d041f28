#!/usr/bin/env python3
"""Reads the tables and indexes of a room from the texts that make them, in the crate
room_tables_schema, and writes what a file's schema is tested for into that crate, and what the
statements on each table say into room_tables_rows. tests/test_generated.py finds out where that
differs from what is committed. The files lie in its folder as they lie in crates/."""
import kit
from arguments import destination
from layout import laid_out
from table_files.forms import forms
from table_files.homes import imports
from table_files.kept import kept
from table_files.laws import laws
from table_files.rows import TABLES
from table_files.writes import writes
from written import write

WRITTEN = '(Written by tools/tables.py.)'
KEPT = "Where only one table changed, the tables stand for the room with that table's rows."
LAWS = 'What the statements on the table {} say, and what they make of a room.'


def proofs(about, parts):
    """A file of proofs: what it is about, what it imports, and its parts."""
    body = ''.join(parts)
    return laid_out(f'-- {about} {WRITTEN}\n{imports(body)}{body}')


def files():
    """The place of each file among the crates, and its text."""
    yield 'room_tables_schema/src/schema_tables.rt', ''.join(forms(WRITTEN))
    folder = 'room_tables_rows/proofs'
    yield f'{folder}/Kept.antt', proofs(KEPT, kept())
    for table in TABLES:
        text = proofs(LAWS.format(table.name), [*laws(table), *writes(table)])
        yield f'{folder}/{table.name.capitalize()}Table.antt', text


if __name__ == '__main__':
    write(destination(__doc__, 'FOLDER', kit.TOP / 'crates'), files())
