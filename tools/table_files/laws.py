"""What the statements say that select the rows of a table, and what they show of a room."""
from .antt import Text
from .rows import CHANGED, KEYED, TERMINALS

HELD = Text(r"""
abbrev all_of : Configuration → Room → List $element
all_of config room = $rows

pub ${table}_apart : StandsApart room_schema $number ${table}_table
${table}_apart = record { is_there = refl; unreferenced = λ olds news. refl; uncounted = refl }

abbrev pub ${table}_held : IsHeld $typed ${table}_table all_of
${table}_held = record { faithful = ${row}_faithful; others = $other_places; \
    places_are = refl; at = $number; apart = ${table}_apart; \
    held = λ trees config room h. h.$table }
""")

MEANS = Text(r"""
pub ${name}_means : Selects room_schema $text.now $tree $places $key_places ($terms)
unfolding understood everything
${name}_means = record { names = _; command = refl; plain = (refl, refl); unlisted = refl }
""")

SHOWS_ALL = Text(r"""
pub ${name}_are : ShowsAll $typed ${table}_table $text.now all_of
${name}_are = all_rows ${table}_held $text.now ${name}_means
""")

CHOOSES = Text(r"""
pub ${name}_chooses : $arguments → \
    SelectsChosen ${table}_table ${row}_row $text.now ($parameters) ($chosen)
${name}_chooses $variables = \
    record { terms = $terms; selects = ${name}_means; chooses = $chooses }
""")

SHOWS = Text(r"""
pub ${name}_are : $arguments → Shows ${row}_row $text.now ($parameters) \
    (λ found config room. found ≡ filter ($chosen) $rows)
${name}_are $variables = \
    chosen_rows ${table}_held $text.now ($parameters) ($chosen) (${name}_chooses $variables)
""")

SHOWS_ROW = Text(r"""
pub ${name}_is : $arguments → ShowsRow ${row}_row $text.now ($parameters) \
    (λ found config room. found ≡ row_at $order ${row}_key $rows $key)
${name}_is $variables = \
    row_of_key ${table}_held $text.now ($parameters) $key (${name}_chooses $variables)
""")


def selected(table, selection):
    """What the texts of a selection name."""
    return table.names | selection.names(table.defined)


def all_rows(table):
    """The statement that selects all rows. What it shows is said here of the tables whose rows no
    change puts, and else of all such tables at once."""
    name = f'all_{table.name}'
    names = table.names | {'name': name, 'text': name.upper(), 'terms': '[]'}
    yield MEANS.substitute(names)
    if table not in CHANGED:
        yield SHOWS_ALL.substitute(names)


def row_of_key(table):
    """The statement that selects the row of a key."""
    names = selected(table, table.by_key)
    yield MEANS.substitute(names)
    yield CHOOSES.substitute(names)
    if table is TERMINALS:
        yield SHOWS_ROW.substitute(names, key=table.key.term)


def loads(table):
    """The statements that select the rows whose fields have what is asked of them."""
    for load in table.loads:
        names = selected(table, load)
        yield MEANS.substitute(names)
        yield CHOOSES.substitute(names)
        yield SHOWS.substitute(names)


def laws(table):
    """The parts of the table's file, before its writes."""
    element = f'({table.type})' if ' ' in table.type else table.type
    yield HELD.substitute(table.names, element=element)
    yield from all_rows(table)
    if table in KEYED:
        yield from row_of_key(table)
    yield from loads(table)
