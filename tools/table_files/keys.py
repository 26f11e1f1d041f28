"""How the key of a table is written in Antt, by the kinds of its columns."""
import dataclasses


@dataclasses.dataclass(frozen=True)
class Part:
    """A column of a key: the type of a row's field, the order of its values, what makes the value
    of the column, and why the test of the column says whether the order is a tie."""
    type: str
    order: str
    value: str
    tie: str


@dataclasses.dataclass(frozen=True)
class Key:
    """A key: what makes the values of its columns, its order, and its parts."""
    cells: str
    order: str
    parts: tuple[Part, ...]

    @property
    def variables(self):
        """The names that its parts have where it may be any key, with their types."""
        return {name: part.type for name, part in zip('jk'[-len(self.parts):], self.parts)}

    @property
    def term(self):
        """The key of these variables."""
        names = ', '.join(self.variables)
        return names if len(self.parts) == 1 else f'({names})'

    @property
    def parts_of_k(self):
        """The parts of a key k, as arguments."""
        return 'k' if len(self.parts) == 1 else ' '.join(f'k.{it}' for it in range(len(self.parts)))


A_NUMBER = Part('ℕ', 'nat_cmp', 'number', 'tie-numbers')
A_CALLSIGN = Part('Callsign', 'callsign_cmp', 'Text', 'tie-texts')
A_TOKEN = Part('Token', 'token_cmp', 'Text', 'tie-texts')

NUMBER = Key('number_cells', 'nat_cmp', (A_NUMBER,))
CALLSIGN = Key('text_cells', 'callsign_cmp', (A_CALLSIGN,))
TOKEN = Key('text_cells', 'token_cmp', (A_TOKEN,))
PAIR = Key('pair_cells', 'pair_cmp', (A_NUMBER, A_NUMBER))
NUMBERED = Key('numbered_cells', 'numbered_cmp', (A_CALLSIGN, A_NUMBER))

# A text in a key is a callsign where its table doesn't say otherwise.
BY_KINDS = {
    ('INTEGER',): NUMBER,
    ('TEXT',): CALLSIGN,
    ('INTEGER', 'INTEGER'): PAIR,
    ('TEXT', 'INTEGER'): NUMBERED,
}
