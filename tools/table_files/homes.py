"""The modules of the names in the written files, and so what a file imports."""
import functools
import re

from .rows import CHANGED, TABLES

ROWS = 'Rattle.room_tables_rows'
TYPES = 'Rattle.room_types.specs'
SCHEMA = 'Rattle.room_tables_schema'

# The names that no table brings.
OF_ALL = {
    'Rattle.std.proofs.Common':
        '◌≡◌ ◌∷◌ ◌&&◌ ◌==◌ ◌∙◌ ℕ ℤ pos List [] filter not Ok refl sym false',
    'Rattle.std.proofs.lemmas.Bool': 'eqb-false',
    'Rattle.std.specs.Prelude': 'int_le int_lt',
    'Rattle.std.specs.Ordering': 'nat_cmp is_eq',
    'Rattle.sqlite_value.specs.declared.value.Value.TheVariants': 'Int Text',
    'Rattle.sqlite_value.specs.declared.keys.Collation.TheVariants': 'Binary',
    'Rattle.sqlite_value.specs.Order': 'column',
    'Rattle.sqlite_sql.specs.declared.ops.CompareOp.TheVariants': 'Ge Lt',
    'Rattle.sqlite_schema.specs.Rules': 'equal',
    'Rattle.sqlite_tied.specs.Compute': 'everything',
    'Rattle.sqlite.specs.Effect': 'Database',
    'Rattle.sqlite.specs.Listing': 'understood',
    'Rattle.sqlite.specs.State': 'State Executes',
    f'{SCHEMA}.specs.Outcomes': 'Inside Only',
    f'{SCHEMA}.specs.Statements':
        'Selects StandsApart Inserts Upserts Overwrites Deletes Stores Covers equals '
        'equals_by_value at_least below row_values row_update rowid_values rowid_update',
    f'{SCHEMA}.specs.TypedRows': 'number',
    f'{SCHEMA}.proofs.ColumnValues': 'AreKept cast-Int cast-Null cast-number_or_null',
    f'{SCHEMA}.proofs.Comparisons':
        'and_then and_last equal-by_value equal-numbers tie-numbers tie-texts tie_of_one '
        'tie_of_two conflict_of_one conflict_of_two is_eq-then compare_by',
    f'{SCHEMA}.proofs.Standing': 'holds_still holds_none',
    f'{SCHEMA}.proofs.StoredRows': 'stores_row covers_row stores_rowid',
    'Rattle.room_place.specs.declared.plans.Area': 'Area',
    'Rattle.room_types.specs.KeyedRows': 'put_row row_at',
    f'{TYPES}.Codes': 'outcome_number state_number is_active',
    f'{TYPES}.Keys': 'callsign_cmp pair_cmp numbered_cmp',
    f'{TYPES}.Texts': 'Callsign Token',
    f'{TYPES}.declared.codes.Outcome': 'Outcome',
    f'{TYPES}.declared.codes.State.TheVariants': 'Active',
    f'{TYPES}.declared.fleet.Terminal': 'Terminal',
    'Rattle.room_model.specs.Room': 'Room',
    'Rattle.room_model.specs.FleetRows': 'token_cmp terminal_key',
    f'{SCHEMA}.specs.Definitions': 'IsBlank',
    f'{SCHEMA}.specs.Schema': 'room_schema',
    f'{ROWS}.specs.ColumnValues': 'truth outcome_code',
    f'{ROWS}.specs.KeyColumns': 'number_cells text_cells pair_cells numbered_cells',
    f'{ROWS}.specs.MetaSql': 'meta_key',
    f'{ROWS}.specs.AreaSql': 'area_key',
    f'{ROWS}.specs.RoomsInTables': 'Configuration Stands StandsFor numbered empty_room',
    f'{ROWS}.specs.Tables':
        'IsHeld SelectsChosen InsertsRow PutsRow IsTable IsDropped IsOverwritten',
    f'{ROWS}.specs.Writes': 'Changes',
    f'{ROWS}.proofs.Loads': 'Shows ShowsRow ShowsAll chosen_rows row_of_key all_rows',
    f'{ROWS}.proofs.Puts': 'put_changes',
    f'{ROWS}.proofs.Tests':
        'equal-active equal-false at_least-integers below-integers and_three cast-text_or_null',
}

OPERATORS = {it: f'◌{it}◌' for it in '≡ ∷ && == ∙'.split()}
WORD = r'[^\s(){}\[\].,;]+'


def statements(table):
    """The constants that are a table's statements."""
    row = table.row.upper()
    writes = [f'{verb}_{row}' for verb in ('INSERT', 'PUT', 'DROP', 'OVERWRITE')]
    return [f'ALL_{table.name.upper()}', f'{row}_AT', *writes, *(it.text for it in table.loads)]


def homes_of(table):
    """The modules of what a table brings, each with its names."""
    yield f'{ROWS}.specs.declared.{table.row}_sql.TheConstants', ' '.join(statements(table))
    yield f'{ROWS}.specs.{table.row.capitalize()}Sql', f'{table.row}_row'
    yield f'{ROWS}.proofs.RowLaws', f'{table.row}_faithful'
    yield f'{ROWS}.proofs.Kept', f'with_{table.name}'
    yield f'{SCHEMA}.specs.Schema', f'{table.name}_table'
    if table in CHANGED:
        yield f'{TYPES}.Keys', f'{table.row}_key'
        yield f'{TYPES}.declared.changes.Change.TheVariants', f'Put{table.type} Drop{table.type}'
        yield f'{TYPES}.declared.tables.{table.type}', table.type


@functools.cache
def homes():
    """The module of each name."""
    modules = [*OF_ALL.items(), *(it for table in TABLES for it in homes_of(table))]
    return {name: module for module, names in modules for name in names.split()}


def names_in(body):
    """The names that a text uses and doesn't define. A field's name is imported from nowhere."""
    bare = re.sub(rf'unfolding Rattle\S+|--.*|\.{WORD}', '', body)
    used = {OPERATORS.get(it, it) for it in re.findall(rf'\[\]|{WORD}', bare)}
    return used - set(re.findall(r'^ *(?:pub |abbrev )*([^\s(:]+) :', body, re.M))


def imports(body):
    """The lines that import what a text uses."""
    used = {}
    for name in sorted(names_in(body) & homes().keys()):
        used.setdefault(homes()[name], []).append(name)
    return ''.join(f'use {module}.{{{", ".join(used[module])}}}\n' for module in sorted(used))
