"""What is amiss with a row: its clause or an edit is gone, or a call may lack memory after all."""
import re

from .rows import WITHOUT_MEMORY

# Of these crates each public call takes no memory, but those that make lists.
WHOLE = {'room_fleet': [],
         'room_alloc': ['propose', 'vehicles', 'points', 'loans', 'offers', 'listed']}
# How a clause says that memory was refused; a definition that is named `Decides` lets it be.
LACKS = re.compile(r'\b(?:Decides|Memory)\b')


def faults(row, tree):
    """What is amiss with a row in a tree, each in a few words."""
    place = tree.place(row)
    if place is None:
        what = 'is not public' if row.is_public else 'is gone'
        return [f'`{row.stands}` {what} in {row.place}']
    found = [fault for edit in row.edits for fault in edit_faults(edit, tree)]
    if row.section == WITHOUT_MEMORY:
        found += memory_faults(place.function, tree)
    return found


def edit_texts(name, tree):
    """The file that an edit changes, and the texts that it changes there."""
    text = tree.edit(name).read_text()
    place = re.search(r'^file: (.*)$', text, re.M)[1]
    return (tree.top / 'crates' / name.partition('/')[0] / place,
            re.findall(r'^old: (.*)$', text, re.M))


def edit_faults(name, tree):
    """An edit changes texts that stand in their file once."""
    if tree.edit(name) is None:
        return [f'the edit {name} is gone']
    target, old = edit_texts(name, tree)
    if target.exists() and old and all(target.read_text().count(it) == 1 for it in old):
        return []
    return [f'the edit {name} does not fit']


def parts(function):
    """The signature of a function, and its clauses."""
    begin = re.search(r'^ *(?://.*\n *)?(?:requires|ensures)\b', function.contract, re.M)
    at = begin.start() if begin else len(function.contract)
    return function.contract[:at], function.contract[at:]


def memory_faults(function, tree):
    """How a call takes memory, or may say that it lacks some."""
    signature, clauses = parts(function)
    found = []
    if re.search(r'\balloc\b|\bGlobal\b', signature):
        found.append('takes an allocator')
    if is_about_refusals(function):
        return found
    if LACKS.search(' '.join(function.comment)):
        found.append('says that memory may be refused')
    if error := re.search(r'-> Result<.*, (\w+)>', signature, re.S):
        if error[1] != 'Refusal' and has_memory(error[1], tree):
            found.append(f'has an error {error[1]} with Memory')
    found += [f'may lack memory by `{it}`' for it in lacking(function, clauses, tree)]
    return found


def is_about_refusals(function):
    """Whether it is asked about a refusal, and gives none."""
    return function.owner == 'Refusal' or bool(re.search(r': &?Refusal\b', parts(function)[0]))


def has_memory(error, tree):
    """Whether an error, of whichever crate, has a variant Memory."""
    crates = [tree.crate(it.name) for it in (tree.top / 'crates').iterdir()]
    texts = [text for crate in crates for text in crate.sources.values()]
    return any(re.search(rf'^pub enum {error} \{{[^}}]*^    Memory\b', it, re.M | re.S) for it in texts)


def lacking(function, clauses, tree):
    """The words by which clauses let memory be refused: their own, and the names of the definitions
    below them that do."""
    found = {it.name for it in tree.definitions.below(function.file, clauses)
             if LACKS.search(it.text)}
    return sorted(found.union(LACKS.findall(clauses)))


def unlisted(rows, tree):
    """The calls of a whole crate that may lack memory, and that no row names."""
    named = {(it.crate, it.stands) for it in rows if it.section == WITHOUT_MEMORY}
    for name, but in WHOLE.items():
        for function in tree.crate(name).functions:
            full = f'{function.owner}::{function.name}' if function.owner else function.name
            if function.is_public and full not in but and (name, full) not in named:
                yield from (f'{name}::{full} {it}' for it in memory_faults(function, tree))


def list_faults(rows, kept, removed, decisions):
    """Names by their sections that were promised and have no row any more, or that have one and
    aren't kept; and those that were removed for no reason."""
    there = {(it.section, it.name) for it in rows if it.name}
    named = set(re.findall(r'`([^`]+)`', decisions))
    return [*(f'{section}: {name} has no row' for section, name in kept - there),
            *(f'{section}: {name} is not in names.txt' for section, name in there - kept),
            *(f'{section}: {name} is removed, and DECISIONS.md does not say why'
              for section, name in removed if name not in named)]
