"""The members of answers and their types, by the definitions of what an answer says as JSON."""
import functools
import re

from . import sources

# The types of what stands in an answer by another function than its own.
TYPES = {'kind_number': 'Kind', 'status_number': 'Status', 'state_number': 'State',
         'rank_number': 'Rank', 'merged_into': 'Option<Number>', 'button_name': 'Button',
         'outcome_name': 'Outcome', 'callsign_or_empty': 'CallsignOrEmpty', 'of_integer': 'i64'}

STRUCT = re.compile(r'^abbrev pub \w+_json : (\w+) → Data\n\w+_json (\w+) =\s+object_of \($'
                    r'(.*?)∷ \[\]\)', re.M | re.S)
ANSWER = re.compile(r'^answer_json \(?answer\.(\w+)((?: \w+)*)\)? =\s+object_of \((.*?)∷ \[\]\)',
                    re.M | re.S)
WHOLE = re.compile(r'^answer_json \(answer\.(\w+) \w+\) = \w+_json \w+$', re.M)
MEMBER = re.compile(r'\(codes "(\w+)", (.*?)\)(?=\s*∷|\s*$)', re.S)


def definitions():
    return sources.crate('room_http/specs/AnswerJson.antt')


def type_of(words, known):
    """The type of what the last of some words names, over variables of known types."""
    name = re.search(r'(\(.*\)|\S+)$', words)[1]
    if name.startswith('('):
        return TYPES[name[1:].split(' ')[0]]
    if name == 'true':
        return name
    variable, *path = name.split('.')
    found = known[variable]
    for field in path:
        found = sources.fields(found)[field]
    return found


def members(text, known):
    return {name: type_of(words, known) for name, words in MEMBER.findall(text)}


@functools.cache
def structs():
    """The members of each struct that stands in an answer, or is one."""
    return {name: members(text, {variable: name})
            for name, variable, text in STRUCT.findall(definitions())}


@functools.cache
def variants():
    return sources.variants('room_types/src/answers.rt', 'Answer')


@functools.cache
def answers():
    """The members of each answer that is no struct."""
    return {name: members(text, dict(zip(words.split(), variants()[name], strict=True)))
            for name, words, text in ANSWER.findall(definitions())}


def schema_name(answer):
    """The name of an answer's schema: that of its struct where it is one."""
    if answer in answers():
        return answer
    whole = WHOLE.findall(definitions())
    return variants()[whole[whole.index(answer)]][0]
