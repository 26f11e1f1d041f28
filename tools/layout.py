#!/usr/bin/env python3
"""Breaks lines of definitions and proofs that are wider than 120 columns, where they may be broken;
and imports that are wider than 100, in code too.
A line is read as a tree of brackets and broken where least is bound: behind `;` and `,`, before
`|`, behind `in`, `=` and the head of a function, before an operator, and last before an argument.
It is broken only where a space is, so its signs and their order stay.
`rt fmt` indents some of them further, so they may be somewhat wider than it leaves them."""
import itertools
import pathlib
import re
import sys

from arguments import reader

TOP = pathlib.Path(__file__).resolve().parent.parent
WIDTH = 120
MOST = 140
IMPORTS = 100
SIGN = re.compile(r'"(?:\\.|[^"\\])*"|\[\]|[(){}\[\]]|[;,](?=\s|$)'
                  r'|(?:[^\s(){}\[\]";,]|[;,](?!\s|$))+')
OPENS, CLOSES = ('(', '{', '['), (')', '}', ']')
# operators, from those that bind least
LEVELS = [('→',), ('×', '⊎', '↔'), ('≡', '≤', '<', '≢'), ('||', '&&'), ('==',),
          ('∙', '∷', '++', '+', '-', '∘')]
# what stays beside the sign behind it, and beside the sign before it
LEADS = {'elim', 'as', 'record', 'λ', 'let', 'use', 'pub', 'unfoldable', 'abbrev', 'open',
         'unfold', 'module', 'if', 'then', 'else', 'rw', '¬', '=', ':', '|'}.union(*LEVELS)
FOLLOWS = {'as', '=', ':', 'in', '↦', ';', ',', 'where'}
DECLARES = {'pub', 'abbrev', 'module', 'record', 'data', 'unfolding', 'open', 'ruleset'}
PARTS = 'src', 'specs', 'proofs'
IMPORT = re.compile(r'( *(?:unfoldable |ghost )?(?:pub )?use [^{}]*\{)([^{}]*)(\};?)')


class Node:
    """A sign, or what stands in brackets, and whether a space is before it."""

    def __init__(self, gap, text, nodes=None):
        self.gap, self.text, self.nodes = gap, text, nodes
        self.end, self.end_gap = '', False

    def flat(self):
        if self.nodes is None:
            return self.text
        return self.text + flat(self.nodes, True) + ' ' * self.end_gap + self.end


def flat(nodes, first=False):
    """Nodes in one line; with the space before the first where that is wanted."""
    return ''.join(' ' * (it.gap and (first or n > 0)) + it.flat() for n, it in enumerate(nodes))


def signs(text):
    return [it[0] for it in SIGN.finditer(text)]


def read(text):
    """The tree of a line. What is closed here and opened before, or opened here and closed later,
    has an empty text for the bracket that is missing."""
    depth = low = 0
    for sign in signs(text):
        depth += (sign in OPENS) - (sign in CLOSES)
        low = min(low, depth)
    top = []
    stack = [top]
    for _ in range(-low):
        stack[-1].append(Node(False, '', []))
        stack.append(stack[-1][-1].nodes)
    at = 0
    for found in SIGN.finditer(text):
        sign, gap = found[0], found.start() > at
        at = found.end()
        if sign in OPENS:
            stack[-1].append(Node(gap, sign, []))
            stack.append(stack[-1][-1].nodes)
        elif sign in CLOSES:
            stack.pop()
            stack[-1][-1].end, stack[-1][-1].end_gap = sign, gap
        else:
            stack[-1].append(Node(gap, sign))
    return top


def cut(nodes, places):
    """Nodes in parts that begin at these places, where a space is."""
    places = sorted({it for it in places if 0 < it < len(nodes) and nodes[it].gap})
    return [nodes[a:b] for a, b in zip([0, *places], [*places, len(nodes)])]


def after_let(said):
    """The place behind the `in` of the `let` with which these signs begin."""
    depth = 0
    for n, sign in enumerate(said):
        depth += (sign == 'let') - (sign == 'in')
        if depth == 0:
            return n + 1
    return 0


def ways(nodes):
    """Kinds of parts and where they begin, from those that bind least."""
    said = ['' if it.nodes is not None else it.text for it in nodes]
    every = lambda *sought: [n for n, it in enumerate(said) if it in sought]
    yield ';', [n + 1 for n in every(';')]
    yield '|', every('|')
    yield ',', [n + 1 for n in every(',')]
    if said[0] == 'let':
        yield 'let', [after_let(said)]
    binder = min(every('λ', 'let'), default=len(said))
    for sign in '↦', '=':
        yield sign, [n + 1 for n in every(sign)[:1] if n < binder]
    if 'λ' in said:
        dots = [n for n, it in enumerate(said) if n > said.index('λ') and it.endswith('.')]
        yield 'λ', [n + 1 for n in dots[:1]]
    for level in LEVELS:
        yield level[0], every(*level)
    yield 'if', every('then', 'else')
    yield ' ', [n for n in range(1, len(said))
                if said[n - 1] not in LEADS and said[n] not in FOLLOWS]
    yield ':', [n + 1 for n in every(':')[:1]]


def parts(nodes):
    """What binds least among nodes, as its kind and the parts that it leaves."""
    for kind, places in ways(nodes):
        found = cut(nodes, places)
        if len(found) > 1:
            return kind, found
    return '', [nodes]


def is_tuple(nodes):
    first = nodes[0]
    return len(nodes) == 1 and first.text == '(' and first.nodes and parts(first.nodes)[0] == ','


def is_head(nodes):
    """Whether a line declares something, or is a case or a field: what goes on is further right."""
    said = ['' if it.nodes is not None else it.text for it in nodes]
    return said[0] in DECLARES or said[0] != 'let' and any(it in said for it in ('=', ':', '↦'))


class Writer:
    """Lines that are written, each at most as wide as it may be."""

    def __init__(self, indent, width):
        self.lines, self.line, self.width = [], ' ' * indent, width

    def is_fresh(self):
        return not self.line.strip()

    def turn(self, indent):
        if not self.is_fresh():
            self.lines.append(self.line.rstrip())
        self.line = ' ' * indent

    def put(self, text, gap):
        self.line += ' ' * (gap and not self.is_fresh()) + text

    def fits(self, nodes, tail):
        return len(self.line) + len(flat(nodes, not self.is_fresh())) + tail <= self.width

    def place(self, nodes, indent, tail):
        """Writes nodes from here on, in further lines at `indent`. `tail` is the width of what
        stands behind them without a space."""
        if not nodes:
            return
        if self.fits(nodes, tail):
            self.put(flat(nodes), nodes[0].gap)
            return
        kind, found = parts(nodes)
        if len(found) == 1:
            self.inside(nodes, indent, tail)
            return
        self.place(found[0], indent, 0)
        is_tall = False
        for n, part in enumerate(found[1:], 2):
            is_tall = self.follow(kind, part, n, len(found), indent, tail, is_tall, found[0])

    def follow(self, kind, part, n, count, indent, tail, is_tall, head):
        """Writes the n-th part of some. Gives whether it took further lines."""
        tail = tail if n == count else 0
        binds = kind in ('=', 'λ', '↦')
        if kind == 'let':
            self.turn(indent)
            self.place(part, indent, tail)
        elif self.fits(part, tail) and not (kind == ';' and is_tall):
            self.put(flat(part), part[0].gap)
        elif indent + len(flat(part)) + tail <= self.width:
            self.turn(indent)
            self.put(flat(part), False)
        elif is_tuple(part) or part[0].text == '{' or binds and part[0].text == 'record':
            self.place(part, indent, tail)
        elif kind in ' ,' and n == count and len(part) == 1 and len(self.line) < self.width / 2:
            self.place(part, indent, tail)
        elif kind == ' ' and n == 2 and len(flat(head)) < 8 and len(self.line) < indent + 8:
            self.place(part, indent, tail)
        else:
            self.turn(indent)
            self.place(part, indent, tail)
            return True
        return False

    def inside(self, nodes, indent, tail):
        """Writes nodes that only their brackets let break."""
        for n, node in enumerate(nodes):
            self.put(node.text, node.gap)
            if node.nodes is None:
                continue
            inner = node.nodes
            behind = tail + len(flat(nodes[n + 1:], True)) + len(node.end) + node.end_gap
            is_record = node.text == '{' and inner and inner[0].gap
            if (is_record or is_tuple([node])) and node.end and not self.fits(inner, behind):
                self.fields(inner, ';' if is_record else ',')
                self.put(node.end, False)
                continue
            self.place(inner, indent, behind)
            self.put(node.end, node.end_gap)

    def fields(self, nodes, sign):
        """Writes the fields of a record or a tuple, each in lines of its own."""
        indent = len(self.line) - len(self.line.lstrip())
        kind, found = parts(nodes)
        for field in found if kind == sign else [nodes]:
            self.turn(indent + 2)
            self.place(field, indent + 6, 1)
            if not self.line.endswith(sign):
                self.put(sign, False)
        self.turn(indent)


def uses(head, names, end):
    """The lines that import names of a module."""
    lines = [head]
    for name in names:
        if lines[-1] != head and len(f'{lines[-1]}, {name}{end}') > IMPORTS:
            lines.append(head)
        lines[-1] += name if lines[-1] == head else f', {name}'
    return [f'{it}{end}' for it in lines]


def broken(line, width=WIDTH):
    """The lines that are made of one."""
    text = line.strip()
    if len(line) <= width or text.startswith(('--', '{-')) or re.search(r'\s--\s', line):
        return [line]
    indent = len(line) - len(line.lstrip())
    writer = Writer(indent, width)
    nodes = read(text)
    kind, found = parts(nodes)
    if kind == 'let':
        writer.place(found[0], indent, 0)
        writer.turn(0)
        return [*writer.lines, *broken(' ' * indent + flat(found[1]), width)]
    is_further = indent == 0 or text[0] in CLOSES or is_head(nodes)
    writer.place(nodes, indent + 4 * is_further, 0)
    writer.turn(0)
    return writer.lines


def module_of(line):
    """What stands around the names that an import has."""
    found = IMPORT.fullmatch(line)
    return found and (found[1], found[3])


def parted(text):
    """A text, with as few imports of a module in a row as have room for its names."""
    lines = []
    for module, found in itertools.groupby(text.split('\n'), module_of):
        found = list(found)
        if module:
            names = [name for it in found for name in IMPORT.fullmatch(it)[2].split(', ')]
            found = uses(module[0], names, module[1])
        lines += found
    return '\n'.join(lines)


def laid_out(text):
    """A text of definitions or proofs, its wide lines broken."""
    lines = []
    for line in parted(text).split('\n'):
        new = broken(line)
        if lines and lines[-1].strip() and new[0].strip() in ('(', '{') and len(new) > 1:
            lines[-1] += f' {new.pop(0).strip()}'
        lines += new
    return '\n'.join(lines)


def imports(text):
    """What a text imports, each name with its module."""
    return {(head, name) for head, names in re.findall(r'^(.*\buse .*)\{(.*)\};?$', text, re.M)
            for name in names.split(', ')}


def body(text):
    """The signs of a text beside its imports and what parts fields and cases."""
    rest = re.sub(r'^.*\buse .*\{.*\};?$', '', text, flags=re.M)
    return [it for it in signs(rest) if it not in (';', ',', '|')]


def is_wide(line, file):
    found = IMPORT.fullmatch(line)
    if found:
        return len(line) > IMPORTS and ', ' in found[2]
    return len(line) > MOST and file.suffix == '.antt'


def files():
    return sorted(it for part in PARTS for it in TOP.glob(f'crates/*/{part}/**/*')
                  if it.suffix in ('.antt', '.rt'))


def main():
    words = reader(__doc__)
    words.add_argument('--check', action='store_true',
                       help=f'write nothing: list what is wider (than {MOST} where it is no import)')
    checks = words.parse_args().check
    wide = []
    for file in files():
        text = file.read_text()
        lays = parted if file.suffix == '.rt' else laid_out
        new = text if checks else lays(text)
        if body(new) != body(text) or imports(new) != imports(text):
            sys.exit(f'{file.relative_to(TOP)}: its signs would be others')
        if new != text:
            file.write_text(new)
        wide += [f'{file.relative_to(TOP)}:{n} has {len(line)} columns'
                 for n, line in enumerate(new.split('\n'), 1) if is_wide(line, file)]
    print(*wide, sep='\n', end='\n' if wide else '')
    return 1 if wide else 0


if __name__ == '__main__':
    sys.exit(main())
