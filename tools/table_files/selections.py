"""What the statements that select rows ask: of a row in its tree by the statement's terms, of the
row's columns by a test, and of the row itself by its fields. The proofs say that these are one."""
import dataclasses
import itertools

from .antt import cons


@dataclasses.dataclass(frozen=True)
class Condition:
    """A comparison of a column with a parameter; why it asks the same of the row's field; and what
    that is, where it is asked of this field and not of a whole key."""
    column: str
    parameter: str
    why: str
    asks: str = ''
    term: str = 'equals'
    test: str = 'equal Binary'

    def tested(self, place):
        """The test of the column, where this is its place."""
        return f'{self.test} (column r {place}) ({self.parameter})'

    def reason(self, place):
        """Why the term asks what the test does: by its meaning, but where a plus is before the
        column."""
        if self.term == 'equals_by_value':
            return f'(equal-by_value (column r {place}) ({self.parameter}))'
        return 'refl'


def equal_number(field, number):
    """The condition that a field of the column's name is a number."""
    return Condition(field, f'number {number}', f'equal-numbers x.{field} {number}',
                     f'x.{field} == {number}')


def equal_number_by_value(field, number):
    """The same with a plus before the column, for which no index is used."""
    return dataclasses.replace(equal_number(field, number), term='equals_by_value')


def conjunction(parts):
    first, *others = parts
    return f'{first} && ({conjunction(others)})' if len(others) > 1 else ' && '.join(parts)


def each(proofs):
    """That two conjunctions are the same, since each part is."""
    first, *others = proofs
    return f'and_then ({first}) ({each(others)})' if others else first


def each_term(reasons):
    """That the terms of a statement are a conjunction of tests, by the reason of each."""
    first, *others = reasons
    return f'and_then {first} ({each_term(others)})' if others else f'and_last {first}'


@dataclasses.dataclass(frozen=True)
class Selection:
    """A selection of a table's rows: the variables in its parameters with their types, which rows
    it chooses, by which conditions, and what leads from these to the choice."""
    name: str
    variables: dict[str, str]
    chosen: str
    conditions: tuple[Condition, ...]
    leads: str = ''

    @property
    def text(self):
        """The constant that is its statement."""
        return self.name.upper()

    @property
    def arguments(self):
        """The variables as the type of a function has them, with those of one type together."""
        groups = itertools.groupby(self.variables, self.variables.get)
        return ' '.join(f'({" ".join(names)} : {of_type})' for of_type, names in groups)

    def terms(self, table):
        return cons(f'{it.term} {table.place(it.column)} {parameter}'
                    for parameter, it in enumerate(self.conditions))

    def agrees(self, table):
        """That the terms ask of a row in the tree what the test asks."""
        placed = [(it, table.place(it.column)) for it in self.conditions]
        reasons = [it.reason(place) for it, place in placed]
        if reasons == ['refl'] * 3:
            return 'and_three' + ''.join(f' ({it.tested(place)})' for it, place in placed)
        return each_term(reasons)

    def chooses(self, table):
        """The test of a row's columns, and that the terms and the fields are asked the same."""
        test = conjunction([it.tested(table.index(it.column)) for it in self.conditions])
        agrees, same = self.agrees(table), each([it.why for it in self.conditions]) + self.leads
        return f'record {{ test = λ r. {test}; agrees = λ r. {agrees}; same = λ x. {same} }}'

    def names(self, table):
        """What a text names of it, where it selects rows of this table."""
        return {
            'name': self.name, 'text': self.text, 'chosen': self.chosen,
            'variables': ' '.join(self.variables), 'arguments': self.arguments,
            'parameters': cons(it.parameter for it in self.conditions),
            'terms': self.terms(table), 'chooses': self.chooses(table),
        }


def load(name, variables, *conditions):
    """A selection of the rows of whose fields each condition holds."""
    chosen = f'λ x. {conjunction([it.asks for it in conditions])}'
    return Selection(name, variables, chosen, conditions)
