#!/usr/bin/env python3
"""Writes docs/TRUST.md: what the proofs rest on, of the lists in tools/trust_files and of the tree.
tests/test_trust.py finds out where that differs from what is committed, and tests/test_linked.py
where the list of C functions differs from those of the program."""
import collections
import csv
import itertools

from arguments import destination
from promise_files.rows import TOP
from promises import table
from proofs import paragraph
from trust_files.linked import DECLARING, linked
from trust_files.reading import all_of, readings

LISTS = TOP / 'tools' / 'trust_files'
EXAMPLES = TOP / 'examples'
CODE = ['.py', '.sh', '.js']


def rows_of(name):
    with (LISTS / f'{name}.csv').open(newline='') as text:
        return list(csv.DictReader(text))


def kit():
    yield '## The toolchain'
    yield table(['part', 'size', 'trusted for'],
                [[it['part'], it['size'], it['trusted']] for it in rows_of('kit')])
    yield paragraph('The logic has native words for numbers, characters and texts '
                    '(`native=nat,char,string`): the checker computes with large numbers by GMP, '
                    'and compares texts, in place of a proof. No proof rests on excluded middle or '
                    'choice.')


def functions():
    found = linked()
    yield '## The C functions'
    yield paragraph(f'The program is linked with {len(found)} C functions that the kit declares. '
                    'Each is assumed to return, and to meet the contract that the kit states '
                    f'({", ".join(f"`{it}`" for it in DECLARING)}); in words:')
    yield table(['part', 'functions', 'assumed'],
                [[part, ', '.join(f'`{it.name}`' for it in its), its[0].assumed]
                 for (part, _), group in itertools.groupby(found, lambda it: (it.part, it.assumed))
                 for its in [list(group)]])


def reading():
    every, of_all = readings(), all_of()
    files = [it for it in TOP.glob('crates/*/specs/*.antt')]
    yield '## What to read'
    yield paragraph('To believe a promise, read its rows in [PROMISES](PROMISES.md) and the '
                    'definitions that their clauses name, to the last. Definitions are sought by '
                    'their names, and counted to the next empty line.')
    yield table(['promise', 'definitions', 'lines', 'files'],
                [[f'[{name}](PROMISES.md#promise-{name})', str(len(it.found)), str(it.lines),
                  str(len(it.files))] for name, it in every.items()]
                + [['all', str(len(of_all.found)), str(of_all.lines), str(len(of_all.files))]])
    yield paragraph(f'Of {len(files)} files of definitions these have them, with the lines that '
                    'are to be read; no promise reaches the others.')
    yield table(['crate', 'files'], list(by_crate(of_all)))


def by_crate(of_all):
    found = collections.defaultdict(list)
    for file in of_all.files:
        found[file.parent.parent.name].append(f'{file.stem} {of_all.of(file).lines}')
    return ([crate, ', '.join(its)] for crate, its in found.items())


def lines_in(folder):
    return sum(len(it.read_text().splitlines()) for it in folder.rglob('*') if it.suffix in CODE)


def outside():
    yield '## What no proof reaches'
    yield paragraph('The examples are Python, shell and pages, and only tested. This is what they '
                    'can do to a room:')
    yield table(['folder', 'lines', 'what it can do'],
                [[f'[{it["folder"]}](../examples/{it["folder"]})',
                  str(lines_in(EXAMPLES / it['folder'])), it['can']] for it in rows_of('outside')])


def seconds():
    yield '## How long a check takes'
    yield paragraph('[bench](../bench/README.md#what-the-proofs-cost) has the seconds and the '
                    'memory of each crate, by `tools/gate_times`, and the machine. '
                    '[JUDGING](JUDGING.md) has the steps of a judge, [WORKING](WORKING.md) the commands.')


def parts():
    yield (LISTS / 'head.md').read_text().strip()
    for part in (kit, functions, reading, outside, seconds):
        yield from part()


if __name__ == '__main__':
    place = destination(__doc__, 'FILE', TOP / 'docs' / 'TRUST.md')
    place.write_text('\n\n'.join(parts()) + '\n')
