"""The requests of each path."""
import dataclasses
import re

from . import contents, responses, schemas, sources

SUMMARIES = {
    'Call': 'A call: makes an incident, or is linked to one.',
    'Incidents': 'The active incidents of the division, each with what it still lacks.',
    'Incident': 'What came of an incident, be it active, closed or merged.',
    'Propose': 'The vehicles to send to an incident.',
    'Mobilise': 'Sends a vehicle to an incident.',
    'Needs': 'Changes what an incident needs.',
    'Merge': 'Merges an incident into another.',
    'Close': 'Closes an incident.',
    'Vehicles': 'The vehicles that the division holds.',
    'Moves': 'Sends vehicles and stands vehicles down, one after another: all, or none.',
    'StandDown': 'Takes back an order that is not acknowledged or is on its way.',
    'Standby': 'Sends a vehicle to a standby point, or from it with null.',
    'Duty': "Begins a vehicle's shift.",
    'Off': "Ends a vehicle's shift.",
    'Lend': 'Offers a vehicle to another division.',
    'Withdraw': 'Takes an offer back.',
    'Decline': "Refuses another division's offer.",
    'Accept': "Takes another division's offer.",
    'Recall': 'Asks for a vehicle that is lent.',
    'GiveBack': 'Gives a borrowed vehicle back.',
    'Reports': "A vehicle's reports, with what became of each.",
    'Queue': 'What needs an eye, the most urgent first.',
    'Clear': 'Clears an exceptional report out of the queue.',
    'Points': 'The standby points of the division, each with how many vehicles hold it.',
    'SetPoint': 'Makes a standby point, or moves it.',
    'Loans': 'The loans in which the division lends or borrows.',
    'Offers': 'The offers in which the division lends or borrows.',
    'Times': 'The incidents of a day, each with the seconds to its first order.',
    'ClassTimes': 'How many incidents of a day are of each class, and how many had an order.',
    'Closed': 'The incidents of a day that are closed or merged, a page at a time.',
    'ClosedBy': 'Those of them that a vehicle was sent to.',
    'ClosedNear': 'Those of them that are at most so far from a place.',
    'Order': "The vehicle's order, its post and its status.",
    'Job': 'The order, with the class of its incident and the notes of its calls.',
    'Report': 'A button was pressed.',
    'Last': 'The last numbers of the terminal, where one that replaces it goes on.'}

# The answers that are named otherwise than their path; all other paths are answered `Done`.
ANSWERS = {'Call': ['Called'], 'Propose': ['Proposals'], 'Mobilise': ['Mobilised'],
           'Moves': ['Moved'], 'ClosedBy': ['Closed'], 'ClosedNear': ['Closed'],
           'Report': ['Reported'], 'Job': ['Job', 'Order'], 'Last': ['LastReport', 'LastSerial']}

PARAMETERS = {'Number': 'The number of an incident.', 'Callsign': 'The callsign of a vehicle.',
              'PointNumber': 'The number of a standby point.', 'Day': "A day of the plan's zone.",
              'Place': 'A grid reference without spaces.', 'Metres': 'How far from it at most.'}
OF_REPORT = 'The number of a report.'
OF_PAGE = 'The least number that an incident of the page may have.'

OBJECT = 'An object with exactly these members, of at most 1024 bytes.'
EMPTY = 'Nothing, or an object without members.'


def answers(path):
    return ANSWERS.get(path) or [path if path in contents.variants() else 'Done']


def small(name):
    return name[0].lower() + name[1:]


def meaning(path, kind):
    if kind == 'Number' and path in sources.searches():
        return OF_PAGE
    return OF_REPORT if (path, kind) == ('Clear', 'Number') else PARAMETERS[kind]


def parameter(path, name, kind):
    return {'name': name, 'in': 'path', 'required': True, 'description': meaning(path, kind),
            'schema': schemas.parameter(kind)}


def parameters(path):
    names = re.findall(r'\{(\w+)\}', sources.patterns()[path])
    kinds = sources.parameters()[path]
    return [parameter(path, *it) for it in zip(names, kinds, strict=True)]


def example(path, method):
    """The body and the answer of the page's example of a request, each none where it has none."""
    pattern = re.sub(r'\{\w+\}', '[^/]+', sources.patterns()[path])
    for verb, target, body, answer in sources.examples():
        if verb == method and re.fullmatch(pattern, target):
            return body, answer
    return None, None


def body(path):
    members = sources.bodies()[path]
    shown, _ = example(path, 'post')
    media = {'schema': schemas.exactly({name: schemas.given(kind)
                                        for name, kind in members.items()})}
    if shown:
        media['example'] = shown
    return {'required': bool(members), 'description': OBJECT if members else EMPTY,
            'content': {'application/json': media}}


def room_refusals(path):
    """The refusals that the room has for a request of a path."""
    method = 'POST' if path in sources.bodies() else 'GET'
    numbers = {number: name for name, (number, _, _) in sources.refusals().items()}
    asked = f'{method} {sources.written(sources.patterns()[path])}'
    return [numbers[it] for it in sources.refusals_on_page()[asked]]


@dataclasses.dataclass
class Request:
    """What a request may be answered: its answers, one of them as an example, and the refusals that
    the room has for it."""
    answers: list
    example: object
    refusals: list


def request(path):
    method = 'post' if path in sources.bodies() else 'get'
    return Request(answers(path), example(path, method)[1], room_refusals(path))


def operation(path, method):
    """A request of a path. HEAD is answered as GET, without the content."""
    roles = sources.roles(path)
    it = {'operationId': f'{small(path)}Head' if method == 'head' else small(path),
          'summary': SUMMARIES[path], 'tags': roles, 'security': [{role: []} for role in roles]}
    if method == 'post':
        it['requestBody'] = body(path)
    return {**it, 'responses': responses.of_request(path, request(path), method != 'head')}


def item(path):
    """A path: its parameters, its requests, and what other methods are answered."""
    allow = sources.methods()[path]
    it = {'x-history': True} if path in sources.paths_of_history() else {}
    if sources.parameters()[path]:
        it['parameters'] = parameters(path)
    for method in ['post'] if allow == 'Post' else ['get', 'head']:
        it[method] = operation(path, method)
    return {**it, 'x-other-methods': responses.reference(responses.other_methods(allow))}
