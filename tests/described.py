"""docs/openapi.json with its references resolved: values that its schemas take and refuse, and what
differs between an answer and what it says of it."""
import functools
import json
import random
import re
import string
import sys
from re import _parser

from room import TOP

# Debian's modules, for a Python that is not Debian's.
sys.path.append('/usr/lib/python3/dist-packages')
import jsonschema  # noqa: E402

FILE = TOP / 'docs' / 'openapi.json'
FORMATS = jsonschema.FormatChecker(formats=['date'])


def resolved(it, document):
    """A part of a document without references. What may be null in OpenAPI 3.0 is said as JSON
    Schema says it."""
    if isinstance(it, list):
        return [resolved(part, document) for part in it]
    if not isinstance(it, dict):
        return it
    if '$ref' in it:
        names = it['$ref'].removeprefix('#/').split('/')
        return resolved(functools.reduce(lambda part, name: part[name], names, document), document)
    parts = {name: resolved(part, document) for name, part in it.items()}
    if parts.pop('nullable', False):
        parts['type'] = [parts['type'], 'null']
    return parts


def read():
    document = json.loads(FILE.read_text())
    return resolved(document, document)


def faults(schema, value):
    """What is wrong with a value by a schema; JSON Schema has no word for a limit of bytes."""
    found = jsonschema.Draft4Validator(schema, format_checker=FORMATS).iter_errors(value)
    length = len(value.encode()) if isinstance(value, str) else 0
    too_long = ['too many bytes'] if length > schema.get('x-max-bytes', length) else []
    return [it.message for it in found] + too_long


def fits(schema, value):
    return not faults(schema, value)


# ---- values


# Of each type some that a schema may take or refuse.
POOL = [None, True, 0, -1, 1.0, 0.5, 10, 100, 2 ** 31, 2 ** 32, 2 ** 64, '', '1', 'x', 'a1', 'A1 ',
        'ABCDEFGHI', 'Mobile', 'TQ30080', 'tq300800', 'TV300800', 'TQ  300800', 'TQ300 8000',
        'é' * 61, 'x' * 121, [], [1], [0, 0, 0], [1, 0], [1, 0, 0, 0], [10, 0, 0], ['1', 0, 0],
        [1, None, 0], {}, {'x': 1}]
TEXTS = ['', '0', '01', '-1', '+1', '1.0', '1x', '100', '2147483648', '4294967297', 'a1', 'A-1',
         'ABCDEFGHI', 'TQ30080', 'tq300800', 'TV300800', 'TQ%20300800', 'DAY', '1969-12-31',
         '2100-01-01', '2026-02-29', '2026-13-01', '2026-1-1', '20260101']


def of_pattern(tree):
    """A text that a pattern takes, by the tree that Python makes of it."""
    return ''.join(of_part(str(what), held) for what, held in tree)


def of_part(what, held):
    match what:
        case 'AT':
            return ''
        case 'LITERAL':
            return chr(held)
        case 'RANGE':
            return chr(random.randint(*held))
        case 'IN':
            return of_pattern([random.choice(held)])
        case 'BRANCH':
            return of_pattern(random.choice(held[1]))
        case 'SUBPATTERN':
            return of_pattern(held[3])
        case 'MAX_REPEAT':
            least, most, part = held
            return ''.join(of_pattern(part) for _ in range(random.randint(least, most)))


def whole(schema):
    least, greatest = schema['minimum'], schema['maximum']
    return random.choice([least, greatest, random.randint(least, greatest),
                          random.randint(least, min(greatest, least + 9))])


def text(schema):
    if 'enum' in schema:
        return random.choice(schema['enum'])
    if 'pattern' in schema:
        return of_pattern(_parser.parse(schema['pattern']))
    return ''.join(random.choices(string.printable + 'é€😀', k=random.randint(0, 120)))


def some(schema):
    """A value that a schema takes, but for what it says by other words than type, range, length,
    pattern and list."""
    kind = schema['type']
    if isinstance(kind, list):
        kind = random.choice(kind)
    match kind:
        case 'null':
            return None
        case 'integer':
            return whole(schema)
        case 'string':
            return text(schema)
        case 'object':
            return {name: some(it) for name, it in schema['properties'].items()}
        case 'array':
            count = random.randint(schema['minItems'], schema['maxItems'])
            return [some(schema['items']) for _ in range(count)]


def right(schema):
    """A value that a schema takes."""
    while True:
        it = some(schema)
        if fits(schema, it):
            return it


def beyond(schema):
    """What is just out of a range: whole numbers, lists with such a number, lists that are too
    short or too long, a text too long."""
    if schema.get('items', {}).get('type') == 'object':
        return [[some(schema['items']) for _ in range(count)]
                for count in (schema['minItems'] - 1, schema['maxItems'] + 1)]
    if 'items' in schema:
        others = [schema['items']['maximum']] * (schema['minItems'] - 1)
        return [[*others, it] for it in beyond(schema['items'])]
    if 'maxLength' in schema:
        return ['x' * (schema['maxLength'] + 1)]
    ends = [('minimum', -1), ('maximum', 1)]
    return [schema[name] + step for name, step in ends if name in schema]


def wrong(schema):
    """A value that a schema refuses."""
    return random.choice([it for it in POOL if not fits(schema, it)])


def wrong_text(schema):
    """A text that a schema refuses as a parameter, where a number is written in one way."""
    is_number = schema['type'] == 'integer'
    plain = re.compile('0|[1-9][0-9]*')
    return random.choice([it for it in TEXTS if not (
        plain.fullmatch(it) and fits(schema, int(it)) if is_number else fits(schema, it))])


# ---- answers


def head_faults(fields, wanted):
    """What differs between the fields of a head and those that an answer is said to have."""
    for name in fields:
        if name not in wanted:
            yield f'{name} is not described'
    for name, it in wanted.items():
        if name not in fields:
            if it['required']:
                yield f'{name} is missing'
            continue
        is_number = it['schema']['type'] == 'integer'
        value = int(fields[name]) if is_number else fields[name]
        for fault in faults(it['schema'], value):
            yield f'{name}: {fault}'


def answer_faults(responses, answer, is_head):
    """What differs between an answer and the one that is described of its status. After HEAD none
    has content."""
    wanted = responses.get(str(answer.status))
    if wanted is None:
        return [f'status {answer.status} is not described: {answer.content}']
    fields = dict(answer.fields)
    media = fields.pop('Content-Type', None)
    found = list(head_faults(fields, wanted['headers']))
    if media != 'application/json':
        found.append(f'it is {media}')
    if is_head or 'content' not in wanted:
        return found + ([f'it has content: {answer.content}'] if answer.content else [])
    schema = wanted['content']['application/json']['schema']
    return found + faults(schema, json.loads(answer.content))
