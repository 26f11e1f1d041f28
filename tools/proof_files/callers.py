"""Which functions of a crate are called by others."""
import collections
import functools
import re

from .contracts import crates


def imported(text):
    """The paths that a file imports, as they are written out in full."""
    for line in re.findall(r'^(?:pub )?use ([^;]+);', text, re.M):
        yield from spread(re.sub(r'\s+', '', line))


def spread(path):
    """The paths of one with braces in it."""
    begin, brace, rest = path.partition('{')
    if not brace:
        yield path
        return
    depth, part = 0, ''
    for letter in rest:
        if letter in ',}' and depth == 0:
            if part:
                yield from spread(begin + part)
            part = ''
            continue
        depth += {'{': 1, '}': -1}.get(letter, 0)
        part += letter


@functools.cache
def importers():
    """By the names of a crate and of what is imported of it, with its module and without: the
    texts of other crates that import it."""
    found = collections.defaultdict(list)
    for user in crates().values():
        for text in user.sources.values():
            for path in imported(text):
                crate, *rest = path.removesuffix('::self').split('::')
                if crate in crates() and crate != user.name and rest:
                    found[crate, rest[-1]].append(text)
                    found[crate, '::'.join(rest)].append(text)
    return found


def is_called(crate, function):
    """Whether another crate calls a function by its path, by its module or by its type."""
    module, name = function.file.stem, function.name
    if function.owner:
        by_type = rf'\b{function.owner}(?:::<[^>]*>)?::{name}\b|\.{name}\('
        return any(re.search(by_type, it) for it in importers()[crate.name, function.owner])
    by_module = importers()[crate.name, module]
    return bool(importers()[crate.name, f'{module}::{name}']) or any(
        re.search(rf'\b{module}::{name}\(', it) for it in by_module)
