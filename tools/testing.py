#!/usr/bin/env python3
"""Writes docs/TESTING.md: how the program is tested, of tools/testing_files and of the tests.
tests/test_testing.py finds out where that differs from what is committed.

  tools/testing.py                 with the checks that the last gate counted
  tools/testing.py --gate LOG      with those of a log of ./test or tests/run, which are kept"""
import ast
import csv
import pathlib
import re

from arguments import reader
from promise_files.rows import TOP
from promises import table
from proofs import paragraph

LISTS = TOP / 'tools' / 'testing_files'
CHECKS = LISTS / 'checks.csv'
# What tests/run prints of a test: its name, and as its last line the sum.
RUN = re.compile(r'^-- (\w+)\n(?:(?!-- ).*\n)*?(\d+) passed, (\d+) failed$', re.M)


def kinds():
    with (LISTS / 'kinds.csv').open(newline='') as text:
        return [it | {'tests': it['tests'].split()} for it in csv.DictReader(text)]


def methods(test):
    """How many tests a module has."""
    parsed = ast.parse((TOP / 'tests' / f'test_{test}.py').read_text())
    return sum(isinstance(it, ast.FunctionDef) and it.name.startswith('test_')
               for it in ast.walk(parsed))


def checks():
    """How many checks the last gate counted of each test, if they are known."""
    if not CHECKS.exists():
        return {}
    with CHECKS.open(newline='') as text:
        return {it['test']: int(it['checks']) for it in csv.DictReader(text)}


def keep(log):
    """Keeps what a log counts, all of which has passed."""
    found = RUN.findall(log.read_text(errors='replace'))
    assert found and all(failed == '0' for _, _, failed in found), 'no log of a gate that passed'
    rows = [f'{name},{passed}\n' for name, passed, _ in sorted(found)]
    CHECKS.write_text(''.join(['test,checks\n', *rows]))


def parts():
    known = checks()
    yield (LISTS / 'head.md').read_text().strip()
    yield '## The tests'
    many = sum(methods(test) for it in kinds() for test in it['tests'])
    counted = f', and {sum(known.values()):,} checks in the last gate' if known else ''
    yield paragraph(f'There are {many} tests{counted}. Tests or readers found the '
                    'faults of the third column; they are mended, and are tried since.')
    yield table(['kind', 'tried', 'found', 'tests', *(['checks'] if known else [])],
                [row(it, known) for it in kinds()])


def row(kind, known):
    its = kind['tests']
    counted = [f'{sum(known.get(it, 0) for it in its):,}'] if known else []
    named = f'{sum(map(methods, its))} in {", ".join(f"`{it}`" for it in its)}'
    return [kind['kind'], kind['tries'], kind['found'], named, *counted]


def main():
    words = reader(__doc__)
    words.add_argument('place', metavar='FILE', nargs='?', type=pathlib.Path,
                       default=TOP / 'docs' / 'TESTING.md',
                       help='where it is written (default: %(default)s)')
    words.add_argument('--gate', metavar='LOG', type=pathlib.Path, help='what ./test printed')
    given = words.parse_args()
    if given.gate:
        keep(given.gate)
    given.place.write_text('\n\n'.join(parts()) + '\n')


if __name__ == '__main__':
    main()
