"""How a text of Antt is put together."""
import re
import string


class Text(string.Template):
    """A text with names to fill in. A line that ends with a backslash goes on in the next one,
    after its indentation."""

    def __init__(self, text):
        super().__init__(re.sub(r'\\\n *', '', text))


def cons(items):
    """A list of these."""
    return ''.join(f'{it} ∷ ' for it in items) + '[]'
