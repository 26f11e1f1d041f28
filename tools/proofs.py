#!/usr/bin/env python3
"""Writes docs/PROOFS.md, a list a crate of what is proved, from the comments and the contracts of
its functions, below tools/proof_files/head.md. tests/test_proofs.py finds out where that differs
from what is committed."""
import re
import textwrap

from arguments import destination
from proof_files.callers import is_called
from proof_files.contracts import TOP, crates

HEAD = TOP / 'tools' / 'proof_files' / 'head.md'
MOST = 2  # functions that are named of a crate
LEAST = 90  # words that are said of one that is named beside another
NUMERALS = {1: 'one', 2: 'two', 3: 'three'}
WIDTH = 120


def paragraph(text, indent=''):
    return textwrap.fill(text, WIDTH, subsequent_indent=indent, break_long_words=False,
                         break_on_hyphens=False)


def chosen(crate):
    """The functions of a crate that others call, those of which the most is said: one at least."""
    called = [it for it in crate.functions if it.is_public and it not in crate.laws
              and it.name != 'new' and it.weight and is_called(crate, it)]
    called.sort(key=lambda it: -it.weight)
    return called[:1] + [it for it in called[1:MOST] if it.weight >= LEAST]


def link(name, file, line):
    return f'[{name}](../{file.relative_to(TOP)}#L{line})'


def place(function):
    """A link to a function, behind the type to which it belongs."""
    owner = f'{function.owner}::' if function.owner else ''
    return owner + link(function.name, function.file, function.line)


def law(function):
    return paragraph(f'- {place(function)}: {function.states}', '  ')


def records(crate, functions):
    """A link to each record of the crate that these functions name."""
    words = {it for function in functions for it in re.findall(r'\w+', function.contract)}
    return [link(*it) for it in crate.records if it[0] in words]


def section(crate):
    """What the list has of a crate, if it has anything."""
    laws, functions = crate.laws, chosen(crate)
    if laws or functions:
        yield f'## {crate.name}'
    if named := [*map(place, functions), *records(crate, laws + functions)]:
        yield paragraph(', '.join(named))
    if laws:
        yield '\n'.join(map(law, laws))


def head():
    """What stands above the list."""
    every = crates().values()
    return HEAD.read_text().rstrip().format(
        most=NUMERALS[MOST], edits=sum(len(it.edits) for it in every),
        gate=sum(len(it.gate_edits) for it in every))


def document():
    parts = [head(), *(part for it in crates().values() for part in section(it))]
    return '\n\n'.join(parts) + '\n'


if __name__ == '__main__':
    destination(__doc__, 'FILE', TOP / 'docs' / 'PROOFS.md').write_text(document())
