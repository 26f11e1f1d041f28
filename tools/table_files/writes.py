"""What the statements say that put, insert, overwrite and drop a row of a table, and what they make
of a room."""
from .antt import Text
from .rows import CHANGED, TERMINALS

PUT_MEANS = Text(r"""
pub put_${row}_means : \
    Upserts room_schema PUT_$ROW.now $number ${table}_table $key_places $width ($values) ($update)
unfolding understood everything
put_${row}_means = record { command = refl; plain = (refl, refl) }
""")

KEPT = Text(r"""
${row}_kept : (x : $type) → AreKept ${table}_table.columns (${row}_row x)
${row}_kept x = $kept
""")

PUTS = Text(r"""
pub ${row}_stores : (x : $type) → Stores room_schema ${table}_table \
    $places $key_places $width ($values) ($update) (${row}_row x)
unfolding Rattle.sqlite_value.specs.Keys.first_key
${row}_stores x = $stored

pub ${row}_puts : PutsRow ${table}_table ${row}_row $number PUT_$ROW.now
${row}_puts = record { columns = $width; values = $values; update = $update; \
    upserts = put_${row}_means; stores = ${row}_stores }
""")

STORED = Text(r"""
stores_row room_schema ${table}_table $places $key_places $width (${row}_row x)
    $kept refl (λ id. refl) (λ id r. $conflict) (λ id r. refl) (λ id r. refl)
""".strip())

STORED_AT_ROWID = Text(r"""
stores_rowid room_schema ${table}_table $places $key_places $width _ _
    $kept refl refl (λ r. $conflict) (λ r. refl) (λ r. refl)
""".strip())

MAKES = Text(r"""
pub put_${row}_makes : (x : $type) (old new : State) (count : ℕ) → \
    old.now.schema ≡ room_schema → Inside old new → \
    Executes PUT_$ROW.now (${row}_row x) old new (Ok count)
    → Changes old new ($made) (λ room. room)
put_${row}_makes x = put_changes ${table}_held PUT_$ROW.now ${row}_puts x ($made) (λ room. room) \
    (λ old new config room h only is. $after)
""")

MADE = Text('λ config. record config { $table = put_row $order ${row}_key config.$table x }')

IS_TABLE = Text(r"""
pub ${table}_are : IsTable $typed $cells ${table}_table (λ room. $rows) Put$type \
    (record { all = ALL_$TABLE.now; at = ${ROW}_AT.now; put = PUT_$ROW.now })
${table}_are = record {
  is_held = ${table}_held;
  selects_all = all_${table}_means;
  selects_at = λ k. ${row}_at_chooses $parts_of_k;
  puts = ${row}_puts;
  leads = λ old new config room x h only is. $after;
}
""")

INSERTS = Text(r"""
pub insert_${row}_means : Inserts room_schema INSERT_$ROW.now $number $width ($values)
unfolding understood everything
insert_${row}_means = record { command = refl; plain = (refl, refl) }

pub ${row}_inserts : \
    InsertsRow ${table}_table ${row}_row ${table}_are.is_held.at INSERT_$ROW.now
unfolding ${table}_are
${row}_inserts = record { columns = $width; values = $values; update = $update; \
    inserts = insert_${row}_means; stores = ${row}_stores }
""")

OVERWRITES = Text(r"""
pub overwrite_${row}_means : \
    Overwrites room_schema OVERWRITE_$ROW.now $number ${table}_table $key_places $width
unfolding understood everything
overwrite_${row}_means = record { command = refl; plain = (refl, refl) }

pub ${row}_covers : (x : $type) → \
    Covers ${table}_table $places $key_places $width (${row}_row x)
unfolding Rattle.sqlite_value.specs.Keys.first_key
${row}_covers x = covers_row room_schema ${table}_table $places $key_places $width \
    (${row}_row x) (${row}_kept x) (λ id. refl) (λ r. $tie) (λ r. refl)

pub ${table}_overwritten : \
    IsOverwritten ${table}_table ${row}_row (λ room. $rows) OVERWRITE_$ROW.now
${table}_overwritten = record { at = $number; apart = ${table}_apart; columns = $width; \
    overwrites = overwrite_${row}_means; covers = ${row}_covers; \
    stays = λ old new config room h only is. $after }
""")

DROPS = Text(r"""
pub drop_${row}_means : Deletes room_schema DROP_$ROW.now $number ${table}_table ($terms)
unfolding understood everything
drop_${row}_means = record { command = refl; plain = (refl, refl) }

pub ${table}_dropped : \
    IsDropped $typed $cells ${table}_table (λ room. $rows) Drop$type DROP_$ROW.now
${table}_dropped = record {
  at = $number;
  apart = ${table}_apart;
  deletes = λ k. record { terms = $terms; deletes = drop_${row}_means; chooses = $chooses };
  leads = λ old new config room k h only is. $after;
}
""")

NEEDED = {'INTEGER': 'cast-Int _', 'TEXT': 'refl', 'BLOB': 'refl'}
NOT_NEEDED = {'INTEGER': 'cast-number_or_null _', 'TEXT': 'cast-text_or_null _'}


def kept(table):
    """That each column keeps what is stored in it. The column of a rowid has NULL, since the number
    is the tree's."""
    proofs = [(NEEDED if it.is_needed else NOT_NEEDED)[it.kind] for it in table.defined.columns]
    if table.defined.has_rowid:
        proofs[0] = 'cast-Null'
    return ''.join(f'({it}, ' for it in proofs) + 'tt' + ')' * len(proofs)


def by_key(table, relation):
    """What a row of the tree is to another by the columns of its key: one that has its key (tie),
    or one in its way (conflict)."""
    parts = table.key.parts
    number = ('one', 'two')[len(parts) - 1]
    columns = [f'(column r {it})' for it in table.defined.places(table.defined.key)]
    values = [f'({part.value} {field})' for part, field in zip(parts, table.fields)]
    return ' '.join([f'{relation}_of_{number}', *columns, *values, *['refl'] * len(parts)])


def puts(table):
    """The statement that puts a row, in place of the one that has its key if there is one."""
    yield PUT_MEANS.substitute(table.names)
    proof = kept(table)
    if table.overwrites:
        yield KEPT.substitute(table.names, kept=proof)
        proof = f'({table.row}_kept x)'
    how = STORED_AT_ROWID if table.defined.has_rowid else STORED
    stored = how.substitute(table.names, kept=proof, conflict=by_key(table, 'conflict'))
    yield PUTS.substitute(table.names, stored=stored)


def writes(table):
    """The parts of the table's file, after its laws."""
    names = table.names
    yield from puts(table)
    if table is TERMINALS:
        yield MAKES.substitute(names, made=MADE.substitute(names))
    if table in CHANGED:
        yield IS_TABLE.substitute(names, parts_of_k=table.key.parts_of_k)
    if table.inserts:
        yield INSERTS.substitute(names)
    if table.overwrites:
        yield OVERWRITES.substitute(names, tie=by_key(table, 'tie'))
    if table.drops:
        yield DROPS.substitute(names | table.by_key.names(table.defined))
