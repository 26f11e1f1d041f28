"""What rows the tables of a room hold, of what in the room these are made, and what is asked of
them."""
import dataclasses

from . import keys, texts
from .antt import cons
from .selections import Condition, Selection, equal_number, equal_number_by_value, load


@dataclasses.dataclass(frozen=True)
class Table:
    """A table: its name and that of a row, the type of a row, those of its fields that are the key,
    and which statements there are beside those that all tables have."""
    name: str
    row: str
    type: str
    fields: tuple[str, ...]
    loads: tuple[Selection, ...] = ()
    inserts: bool = False
    overwrites: bool = False
    drops: bool = False
    # The rows are a field of the room or of the config, or are made of it. It has the table's name
    # and is a list of rows where nothing else is said.
    of: str = 'room'
    field: str = ''
    field_type: str = ''
    made: str = '{}'
    # The key, where the columns say too little of it.
    key_is: keys.Key | None = None

    @property
    def defined(self):
        return texts.schema().tables[self.name]

    @property
    def key(self):
        return self.key_is or keys.BY_KINDS[self.defined.key_kinds]

    @property
    def held(self):
        """The field that the rows are made of, and its type."""
        return self.field or self.name, self.field_type or f'List {self.type}'

    def places(self, names):
        return f'({cons(self.defined.places(names))})'

    @property
    def by_key(self):
        """The selection of the row that has a key."""
        compared = list(zip(self.defined.key, self.key.variables, self.key.parts, self.fields))
        conditions = tuple(
            Condition(column, f'{part.value} {variable}', f'{part.tie} {field} {variable}')
            for column, variable, part, field in compared)
        chosen = f'λ x. is_eq ({self.key.order} {self.key.term} ({self.row}_key x))'
        orders = [f'({part.order} {variable} {field})' for _, variable, part, field in compared]
        leads = f' ∙ sym (is_eq-then {" ".join(orders)})' if len(orders) > 1 else ''
        return Selection(f'{self.row}_at', self.key.variables, chosen, conditions, leads)

    @property
    def names(self):
        """What a text names of it."""
        columns = [it.name for it in self.defined.columns]
        others = [it for it in columns if it not in self.defined.key]
        layout = 'rowid' if self.defined.has_rowid else 'row'
        return {
            'table': self.name, 'TABLE': self.name.upper(),
            'row': self.row, 'ROW': self.row.upper(), 'type': self.type,
            'rows': self.made.format(f'{self.of}.{self.held[0]}'),
            'number': self.defined.number, 'tree': self.defined.tree, 'width': len(columns),
            'places': self.places(columns), 'other_places': self.places(others),
            'key_places': self.places(self.defined.key),
            'values': f'{layout}_values {len(columns)}',
            'update': f'{layout}_update {len(columns)}',
            'order': self.key.order, 'cells': self.key.cells,
            'typed': f'{self.key.order} {self.row}_key {self.row}_row',
            'after': f'with_{self.name} old new config room h only _ is',
        }


OF_INCIDENT = {'d': 'ℕ', 'n': 'ℕ'}, equal_number('incident', 'n'), equal_number('division', 'd')
IS_ACTIVE = Condition('state', 'number (state_number Active)', 'equal-active x.state',
                      'is_active x.state')
OPENED_FROM = Condition('opened', 'Int from', 'at_least-integers (pos x.opened) from',
                        'int_le from (pos x.opened)', term='at_least', test='compare_by Ge')
OPENED_BEFORE = Condition('opened', 'Int to', 'below-integers (pos x.opened) to',
                          'int_lt (pos x.opened) to', term='below', test='compare_by Lt')
HAS_OUTCOME = Condition('outcome', 'outcome_code o',
                        'equal-numbers (outcome_number x.outcome) (outcome_number o)',
                        'outcome_number x.outcome == outcome_number o')
OF_VEHICLE = Condition('callsign', 'Text c', 'tie-texts x.callsign c',
                       'is_eq (callsign_cmp c x.callsign)')
IS_UNCLEARED = Condition('cleared', 'truth false', 'equal-false x.cleared', 'not x.cleared')

META = Table('meta', 'meta', 'List ℕ', ('1',), of='config', field='zone', field_type='List ℕ',
             made='({} ∷ [])')
AREAS = Table('areas', 'area', 'ℕ × Area', ('x.0',), field='plan', field_type='List Area',
              made='(numbered 1 {})')
TERMINALS = Table('terminals', 'terminal', 'Terminal', ('x.token',), of='config', key_is=keys.TOKEN)

# The tables whose rows the changes of a room put.
CHANGED = (
    Table('divisions', 'division', 'Division', ('x.number',)),
    Table('incidents', 'incident', 'Incident', ('x.division', 'x.number'), loads=(
        load('active_incidents', {'d': 'ℕ'}, IS_ACTIVE, equal_number('division', 'd')),
        load('incidents_opened', {'from': 'ℤ', 'to': 'ℤ', 'd': 'ℕ'},
             OPENED_FROM, OPENED_BEFORE, equal_number_by_value('division', 'd')),
        load('incidents_since', {'from': 'ℤ'}, OPENED_FROM),
    ), inserts=True, overwrites=True),
    Table('calls', 'call', 'Call', ('x.position', 'x.serial'), loads=(
        load('calls_of', *OF_INCIDENT),
        load('calls_by', {'p': 'ℕ'}, equal_number('position', 'p')),
    ), inserts=True),
    Table('vehicles', 'vehicle', 'Vehicle', ('x.callsign',), overwrites=True),
    Table('turns', 'turn', 'Turn', ('x.callsign', 'x.order'), loads=(
        load('turns_of', *OF_INCIDENT),
        load('vehicle_turns', {'c': 'Callsign', 'd': 'ℕ'},
             OF_VEHICLE, equal_number('division', 'd')),
    ), inserts=True, overwrites=True),
    Table('assignments', 'assignment', 'Assignment', ('x.callsign',), inserts=True, drops=True),
    Table('points', 'point', 'Point', ('x.division', 'x.number')),
    Table('loans', 'loan', 'Loan', ('x.callsign',), drops=True),
    Table('reports', 'report', 'Report', ('x.callsign', 'x.number'), loads=(
        load('uncleared_reports', {'o': 'Outcome', 'd': 'ℕ'},
             HAS_OUTCOME, IS_UNCLEARED, equal_number('division', 'd')),
        load('reports_of', {'c': 'Callsign', 'd': 'ℕ'}, OF_VEHICLE, equal_number('division', 'd')),
    ), inserts=True),
    Table('offers', 'offer', 'Offer', ('x.callsign',), drops=True),
)
# The tables of which rows are found by their keys.
KEYED = (TERMINALS, *CHANGED)
TABLES = (META, AREAS, *KEYED)
