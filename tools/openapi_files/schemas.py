"""Schemas of what is sent to the room, and of what it answers."""
import re

from . import contents, sources

DAY = {'type': 'string', 'format': 'date',
       'pattern': '^(19[7-9][0-9]|20[0-9]{2})-(0[1-9]|1[0-2])-(0[1-9]|[12][0-9]|3[01])$',
       'description': 'A day from 1970-01-01 to 2099-12-31.'}

CALLSIGN = {'type': 'string', 'pattern': '^[A-Z0-9]{1,8}$'}

CALLSIGN_OR_EMPTY = {'type': 'string', 'pattern': '^[A-Z0-9]{0,8}$',
                     'description': 'A callsign, or empty where it is about no vehicle.'}

NOTE = {'type': 'string', 'maxLength': 120, 'x-max-bytes': 120,
        'description': 'At most 120 bytes of UTF-8.'}

REFERENCE = {'type': 'string',
             'pattern': '^(TQ|TL|SU|SP) ?'
                        '([0-9]{3} ?[0-9]{3}|[0-9]{4} ?[0-9]{4}|[0-9]{5} ?[0-9]{5})$',
             'description': 'A grid reference: the letters of a square, then three, four or five '
                            'digits of easting and as many of northing.'}

# A path has no spaces.
PATH_REFERENCE = {**REFERENCE, 'pattern': REFERENCE['pattern'].replace(' ?', '')}

KINDS = 'How many ambulances, cars and support vehicles.'


def whole(least, greatest):
    bounds = {'minimum': least, 'maximum': greatest}
    return {'type': 'integer', 'format': 'int64',
            **{name: bound for name, bound in bounds.items() if bound is not None}}


def listed(items, count=None):
    counts = {} if count is None else {'minItems': count, 'maxItems': count}
    return {'type': 'array', 'items': items, **counts}


def exactly(members):
    """An object with these members, no fewer and no more."""
    wanted = {'required': list(members)} if members else {}
    return {'type': 'object', **wanted, 'properties': members, 'additionalProperties': False}


def named(name):
    return {'$ref': f'#/components/schemas/{name}'}


# ---- by types


# Of the words of the machine those that an answer has.
WORDS = {'u32': (0, 2 ** 32 - 1), 'u64': (0, None), 'i64': (None, None)}

MEANINGS = {'Class': '1 is the most urgent.', 'LastNumber': '0 where there is none.',
            'Moment': 'Whole seconds of UTC since 1970.'}


def number(name):
    """The whole numbers of a type."""
    it = whole(*(WORDS.get(name) or sources.ranges()[name]))
    return {**it, 'description': MEANINGS[name]} if name in MEANINGS else it


def in_words(name):
    return re.sub('(?<=[a-z])(?=[A-Z])', ' ', name).lower()


def code(kind):
    """The numbers by which the values of an enum are sent."""
    numbers = sources.numbers_of(kind)
    meaning = ', '.join(f'{number} {in_words(name)}' for number, name in numbers.items())
    return {**whole(min(numbers), max(numbers)), 'description': f'{meaning}.'}


def place():
    """A place as it is answered."""
    bounds = [*sources.ranges()['Easting'], *sources.ranges()['Northing']]
    text = 'Metres of easting and of northing on the National Grid, {} to {} and {} to {}.'
    return {**listed(whole(min(bounds), max(bounds)), 2), 'description': text.format(*bounds)}


def counts():
    return {**listed(number('Need'), 3), 'description': KINDS}


def needs():
    """Needs as they are sent."""
    return {**counts(), 'not': {'enum': [[0, 0, 0]]}, 'description': f'{KINDS[:-1]}, not all 0.'}


def served():
    return {**listed(number('u64'), 3), 'description': KINDS}


def moves():
    """Moves as they are sent: the first, and as many more as may follow it."""
    fields = {'incident': given('Option<Number>'), 'vehicle': given('Callsign')}
    return {'type': 'array', 'items': exactly(fields), 'minItems': 1,
            'maxItems': 1 + sources.constant('room_types/src/asks.rt', 'MORE_MOVES'),
            'description': 'Each sends a vehicle to an incident, or with null stands it down.'}


# What stands in a place of its own in the document: what is sent, and what is answered, by type.
GIVEN = {'Place': 'GridReference', 'Needs': 'Needs', 'Moves': 'Moves'}
ANSWERED = {'Place': 'Place', 'Needs': 'Counts', 'Counts': 'Counts', 'Served': 'Served'}


def shared():
    """The schemas of those."""
    return {'GridReference': REFERENCE, 'Needs': needs(), 'Moves': moves(), 'Place': place(),
            'Counts': counts(), 'Served': served()}


def of_both(name):
    """The schema of a type that is sent and answered alike."""
    if name in ('Button', 'Outcome'):
        return {'type': 'string', 'enum': sources.names_of(name)}
    texts = {'Callsign': CALLSIGN, 'CallsignOrEmpty': CALLSIGN_OR_EMPTY, 'Note': NOTE, 'Day': DAY}
    return texts.get(name) or number(name)


def given(name):
    """The schema of a parameter or of a member of a body, by the type that it is read as."""
    optional = re.fullmatch('Option<(.*)>', name)
    if optional:
        return {**given(optional[1]), 'nullable': True}
    return named(GIVEN[name]) if name in GIVEN else of_both(name)


def parameter(name):
    """The schema of a parameter of a path."""
    return PATH_REFERENCE if name == 'Place' else given(name)


def or_null(name):
    """What may be null stands in its place, for a name can't be (OpenAPI 3.0.3, section 4.7.24)."""
    it = of_struct(name) if name in contents.structs() else answered(name)
    return {**it, 'nullable': True}


def answered(name):
    """The schema of a part of an answer, by its type."""
    held = re.fullmatch('(Option|Listed)<(.*)>', name)
    if held:
        return or_null(held[2]) if held[1] == 'Option' else listed(answered(held[2]))
    several = re.fullmatch(r'\[(\w+); (\w+)\]', name)
    if several:
        count = sources.constant('room_types/src/answers.rt', several[2])
        return listed(answered(several[1]), count)
    if name in contents.structs() or name in ANSWERED:
        return named(ANSWERED.get(name, name))
    if name in ('Kind', 'Status', 'State', 'Rank'):
        return code(name)
    booleans = {'bool': {'type': 'boolean'}, 'true': {'type': 'boolean', 'enum': [True]}}
    return booleans.get(name) or of_both(name)


def of_members(members):
    return exactly({name: answered(it) for name, it in members.items()})


def of_struct(name):
    return of_members(contents.structs()[name])


def answers():
    """The schemas of answers and of their parts, by name, but for those that may be null wherever
    they stand."""
    found = {**contents.structs(), **contents.answers()}
    types = {it for members in found.values() for it in members.values()}
    return {name: of_members(it) for name, it in found.items()
            if name in types or f'Option<{name}>' not in types}


def refusal(name, number_of_it):
    return exactly({'error': {'type': 'string', 'enum': [name]},
                    'number': {'type': 'integer', 'enum': [number_of_it]}})
