"""What the tables of a room stand for where one of them changed and no other did."""
from .antt import Text
from .rows import META, TABLES

MODULE = Text(r"""
module _ (old new : Database) (config : Configuration) (room : Room) \
    (h : Stands old.trees config room) where
""".rstrip())

WITH = Text(r"""
  pub with_$table : Only room_schema $tree old new → ($field : $field_type) → \
      StandsFor new.trees ${table}_table ${row}_row $value → Stands new.trees $changed
  with_$table only $field is =
      let at = only.tables in record {
$fields
      }
""")

FIRST = Text(r"""
-- tables without rows, of which the first was written: a room without rows
pub with_first : (old new : Database) → IsBlank old.trees → Only room_schema 0 old new → \
    (zone : List ℕ) → StandsFor new.trees meta_table meta_row (zone ∷ []) → \
    Stands new.trees (record { zone = zone; terminals = [] }) empty_room
with_first old new blank only zone is =
    let at = only.tables in record {
$fields
    }
""")


def untouched(table):
    """That a table's tree is what it was, by what is said of all trees but one."""
    return f'at{".1" * table.defined.number}.0 (eqb-false _ _ refl)'


def still(table):
    """That a table stands for what it did."""
    return f'holds_still _ _ _ _ _ ({untouched(table)}) h.{table.name}'


def empty(table):
    """That a table stands for no rows."""
    return f'holds_none _ _ _ ({untouched(table)} ∙ blank.{table.name})'


def fields(changed, of_other, indent):
    """What each table stands for: the one that changed by the argument `is`, another as is said."""
    said = {it.name: 'is' if it is changed else of_other(it) for it in TABLES}
    return '\n'.join(f'{indent}{name} = {proof};' for name, proof in said.items())


def with_rows(table):
    """Where one table changed, its rows are new in the room, and nothing else is."""
    field, field_type = table.held
    record = f'(record {table.of} {{ {field} = {field} }})'
    return WITH.substitute(
        table.names, field=field, field_type=field_type, value=table.made.format(field),
        changed=f'{record} room' if table.of == 'config' else f'config {record}',
        fields=fields(table, still, ' ' * 8))


def kept():
    """The parts of the file."""
    yield MODULE.substitute()
    yield from map(with_rows, TABLES)
    yield FIRST.substitute(fields=fields(META, empty, ' ' * 6))
