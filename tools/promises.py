#!/usr/bin/env python3
"""Writes docs/PROMISES.md, a list of what is promised, of tools/promise_files/promises.csv, below
tools/promise_files/head.md. tests/test_promises.py finds out where that differs from what is
committed, and where a promise is lost."""
import itertools

from arguments import destination
from promise_files.faults import WHOLE
from promise_files.rows import PROMISES, TOP, WITHOUT_MEMORY, Tree, rows
from proofs import paragraph

HEAD = TOP / 'tools' / 'promise_files' / 'head.md'
TREE = Tree()


def link(text, file, line=None):
    return f'[{text}](../{file.relative_to(TOP)}{f"#L{line}" if line else ""})'


def linked(row):
    """The name of a row's clause or of what is public, with a link to it, behind its type."""
    owner, colons, last = row.stands.rpartition('::')
    if place := TREE.place(row):
        return owner + colons + link(last, place.file, place.line)
    return row.stands


def named(row):
    """What a public name stands for, where it was asked for under another."""
    return f'`{row.name}`: {linked(row)}' if row.stands_as else linked(row)


def edits(row):
    """The edits of a row, each by its sentence."""
    files = ((it.partition('/')[2].replace('_', ' '), TREE.edit(it)) for it in row.edits)
    return ', '.join(link(says, file) for says, file in files if file)


def table(head, lines):
    written = (f'| {" | ".join(it)} |' for it in [head, *lines])
    return '\n'.join([next(written), f'|{"---|" * len(head)}', *written])


def promise(number, group):
    """A promise of the README: its sentence, and a row for each of its parts."""
    yield f'## Promise {number}'
    yield paragraph(' '.join(it.says for it in group if not it.name))
    yield table(['what', 'clause', 'edits'],
                [[it.says, linked(it), edits(it)] for it in group if it.name])


def names(crate, group):
    """The public names of a crate."""
    yield f'### {crate}'
    yield table(['name', 'what', 'edits'], [[named(it), it.says, edits(it)] for it in group])


def without_memory(group):
    """The calls that take no memory, by their crates."""
    yield '## Calls that take no memory'
    others = ', '.join(f'`{it}`' for but in WHOLE.values() for it in but)
    yield paragraph('None takes an allocator, and none can answer that memory was refused. Of '
                    f'{" and ".join(f"`{it}`" for it in WHOLE)} all public calls are so, but {others}.')
    yield table(['crate', 'calls', 'edits'],
                [[crate, ', '.join(linked(it) for it in its), ', '.join(filter(None, map(edits, its)))]
                 for crate, found in itertools.groupby(group, lambda it: it.crate)
                 for its in [list(found)]])


def parts():
    yield HEAD.read_text().strip()
    is_first = True
    for section, found in itertools.groupby(rows(), lambda it: it.section):
        group = list(found)
        if section in PROMISES:
            yield from promise(section, group)
        elif section == WITHOUT_MEMORY:
            yield from without_memory(group)
        else:
            if is_first:
                yield '## Public names'
                is_first = False
            yield from names(section, group)


if __name__ == '__main__':
    place = destination(__doc__, 'FILE', TOP / 'docs' / 'PROMISES.md')
    place.write_text('\n\n'.join(parts()) + '\n')
