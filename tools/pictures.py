#!/usr/bin/env python3
"""Draws the pictures of the documents: docs/NAME.svg of the text docs/pictures/NAME.txt, and that
of 1992 of the days in examples/1992/days.csv. The text of the floors is made of crates.txt first.
tests/test_pictures.py finds out where what is committed differs from what is written. The files lie
in its folder as they lie in docs/."""
import pathlib
import sys

from arguments import destination
from picture_files.drawing import Drawing
from picture_files.floors import drawing
from written import write

TOP = pathlib.Path(__file__).resolve().parent.parent
sys.path.insert(0, str(TOP / 'examples' / '1992'))
import drawing as of_1992  # noqa: E402
import runs  # noqa: E402
import table  # noqa: E402

SOURCES = TOP / 'docs' / 'pictures'
WRITTEN = '# Written by tools/pictures.py from crates.txt.\n'


def texts():
    """Each picture by its name, as text."""
    found = {it.stem: it.read_text() for it in sorted(SOURCES.glob('*.txt'))}
    floors = WRITTEN + '\n'.join(drawing((TOP / 'crates.txt').read_text())) + '\n'
    return found | {'floors': floors}


def files():
    """The place of each file below docs/, and its text."""
    for name, text in texts().items():
        if text.startswith(WRITTEN):
            yield f'pictures/{name}.txt', text
        yield f'{name}.svg', Drawing(text).svg()
    yield '1992.svg', of_1992.of_promises(table.Table().play(runs.read()))


if __name__ == '__main__':
    write(destination(__doc__, 'FOLDER', TOP / 'docs'), files())
