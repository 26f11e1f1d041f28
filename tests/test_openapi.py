"""docs/openapi.json: it is what tools/openapi.py writes, a document of OpenAPI, and says what the
definitions and docs/HTTP.md say, path by path. Thousands of requests are made from its schemas,
right ones and wrong ones, and a served room answers each as it says."""
# needs: python3 python3-jsonschema libjson-validator-perl
# builds: dispatch_room
import collections
import dataclasses
import json
import random
import re
import socket
import subprocess
import sys

import described
from described_requests import KNOWN, Sender, message, operations, wrong_ones
from room import FLEET, PATIENT, TOP, TestCase, made, run, serving

SEED = 58
WALK = 4500
WRONG_ROUNDS = 10

VALIDATOR = '''
my $schema = JSON::Validator->new->schema($ARGV[0])->schema;
print ref($schema), "\\n", map { "$_\\n" } @{$schema->errors};
'''
VALID = 'JSON::Validator::Schema::OpenAPIv3\n'


def validated(file):
    """What the validator says of a file: the kind of its document, and what is wrong with it."""
    done = subprocess.run(['perl', '-MJSON::Validator', '-e', VALIDATOR, file],
                          stdin=subprocess.DEVNULL, capture_output=True, timeout=120)
    return done.stdout.decode() + done.stderr.decode()


def specs(place):
    return (TOP / 'crates' / place).read_text()


# ---- the definitions


def patterns():
    return dict(re.findall(r'^pattern_of path\.(\w+) = codes "(.*)"',
                           specs('room_http_requests/specs/RequestTable.antt'), re.M))


def allowed(path):
    """The methods of a path by the definition, which names those that take GET."""
    text = specs('room_http_requests/specs/RequestTable.antt')
    is_read = re.search(rf'^allow_of path\.{path} = GetHead', text, re.M)
    return {'get', 'head'} if is_read else {'post'}


def is_of_history(path):
    text = specs('room_http_requests/specs/RequestTable.antt')
    return re.search(rf'^is_of_history path\.{path} = true', text, re.M) is not None


def roles(path):
    """The kinds of terminals that a path is for, by the definition."""
    text = specs('room_http_requests/specs/RequestTable.antt')
    role = re.search(rf'^role_of (?:target\.{path}|other) = (\w+)', text, re.M)[1]
    return set(re.findall(rf'^is_of {role} \(who\.(\w+) ', text, re.M))


def readers(path):
    """How each member of the body of a path is read, by the definition: none where it has none."""
    text = specs('room_http_requests/specs/Bodies.antt')
    arm = re.search(rf'^ask_with_body \(?target\.{path}(?: .*\)|) fields = (.*)$', text, re.M)
    if not arm or 'no_fields' in arm[1]:
        return {} if arm else None
    name = re.search(r'(\w+)(?: n| c|) fields', arm[1])[1]
    own = re.search(rf'^{name} .*?(?=^\n|\Z)', text, re.M | re.S)[0]
    return {member: how for how, member in re.findall(r'\((\w+_at[ \d]*?) ?\(codes "(\w+)"\)', own)}


def range_of(how):
    least, greatest = map(int, how.split(' ')[1:])
    return {'type': 'integer', 'minimum': least, 'maximum': greatest}


def part_of(schema, how):
    """What of a member's schema says how it is read, and what it has to say."""
    if how.startswith('number_at'):
        wanted = range_of(how)
    else:
        wanted = {'point_at': {'type': ['integer', 'null'], 'minimum': 1, 'maximum': 99},
                  'place_at': {'type': 'string', 'pattern': REFERENCE},
                  'callsign_at': {'type': 'string', 'pattern': '^[A-Z0-9]{1,8}$'},
                  'note_at': {'type': 'string', 'x-max-bytes': 120},
                  'button_at': {'type': 'string', 'enum': BUTTONS},
                  'moves_at': {'type': 'array', 'minItems': 1, 'maxItems': 8},
                  'needs_at': {'type': 'array', 'minItems': 3, 'maxItems': 3,
                               'not': {'enum': [[0, 0, 0]]}}}[how]
    return {name: schema.get(name) for name in wanted}, wanted


REFERENCE = '^(TQ|TL|SU|SP) ?([0-9]{3} ?[0-9]{3}|[0-9]{4} ?[0-9]{4}|[0-9]{5} ?[0-9]{5})$'
BUTTONS = ['position', 'mobile', 'scene', 'leave', 'hospital', 'return', 'home']


def refusals():
    """The number, the name and the status of each refusal, by the definition."""
    text = specs('room_types/specs/RefusalStatuses.antt')
    found = re.findall(r'^refusal_parts .* = (not_found|conflict|with_status (\d+)) (\d+) \(codes "(\w+)"\)',
                       text, re.M)
    fixed = {'not_found': '404', 'conflict': '409'}
    return {(number, name, fixed.get(how, status)) for how, status, number, name in found}


def refusals_on_page():
    text = (TOP / 'docs' / 'HTTP.md').read_text()
    found = re.findall(r'^\| (\d+) \| (\w+) \| (\d+) \|', text, re.M)
    return {(number, name, status) for number, name, status in found}


def members_written():
    """The members that the code writes of each struct in an answer."""
    text = specs('room_http/src/answer_json.rt')
    found = re.findall(r'^impl ToJson for (\w+) \{(.*?)^\}', text, re.M | re.S)
    return {name: re.findall(r'^ +"(\w+)": &', own, re.M) for name, own in found
            if name not in ('Answer', 'Refusal')}


# ---- the document


class Document(TestCase):
    @classmethod
    def setUpClass(cls):
        cls.document = described.read()
        cls.paths = cls.document['paths']

    def test_is_written(self):
        written = self.folder / 'openapi.json'
        subprocess.run([sys.executable, TOP / 'tools' / 'openapi.py', written], check=True)
        self.assertEqual(written.read_text(), described.FILE.read_text())

    def test_is_valid(self):
        self.check('the document', validated(described.FILE), VALID)
        plain = json.loads(described.FILE.read_text())
        del plain['components']['responses']['404.36']['description']
        broken = self.folder / 'broken.json'
        broken.write_text(json.dumps(plain))
        self.assertNotEqual(validated(broken), VALID, 'an answer without a description')

    def test_paths(self):
        self.check('all paths', set(self.paths), set(patterns().values()))
        for path, pattern in patterns().items():
            item = self.paths[pattern]
            methods = {it for it in item if it in ('get', 'head', 'post', 'put', 'delete')}
            self.check(f'{path}: its methods', methods, allowed(path))
            self.check(f'{path}: of history', item.get('x-history', False), is_of_history(path))
            for method in methods:
                named = {role for it in item[method]['security'] for role in it}
                self.check(f'{path}: for whom', named, roles(path))

    def test_bodies(self):
        for operation in operations(self.document):
            path = next(it for it, pattern in patterns().items() if pattern == operation.pattern)
            wanted = readers(path)
            if operation.body is None:
                self.check(f'{path}: no body', wanted, None)
                continue
            properties = operation.body['properties']
            self.check(f'{path}: members', set(properties), set(wanted))
            self.check(f'{path}: all are required', set(operation.body.get('required', [])),
                       set(wanted))
            self.check(f'{path}: no others', operation.body['additionalProperties'], False)
            for name, how in wanted.items():
                self.check(f'{path}: {name}', *part_of(properties[name], how))

    def test_refusals(self):
        found = {(number, error, name.split('.')[0])
                 for name, _, lines in self.refusing() for number, error in lines}
        of_fleets = {('20', 'CallsignTaken', '409'), ('21', 'TokenTaken', '409')}
        self.check('as defined', found, refusals() - of_fleets)
        self.check('as on the page', found, refusals_on_page())

    def refusing(self):
        """Each answer that refuses, by its name, with the number and the name of each refusal that
        its description gives."""
        for name, answer in self.document['components']['responses'].items():
            if not name.startswith('200'):
                yield name, answer, [line.split(':')[0].split(' ')
                                     for line in answer['description'].split('\n')[1:]]

    def test_contents_of_refusals(self):
        """The schemas of an answer are those of the refusals in its description."""
        for name, answer, lines in self.refusing():
            if 'content' in answer:
                schema = answer['content']['application/json']['schema']
                members = [it['properties'] for it in schema.get('oneOf', [schema])]
                found = [(it['number']['enum'], it['error']['enum']) for it in members]
                self.check(name, found, [([int(number)], [error]) for number, error in lines])

    def test_answers(self):
        schemas = self.document['components']['schemas']
        for name, members in members_written().items():
            schema = schemas.get(name) or schemas['Order']['properties']['order']
            self.check(name, [list(schema['properties']), schema['required']], [members] * 2)

    def test_examples(self):
        count = 0
        for part in [*self.document['components']['responses'].values(),
                     *(it.described.get('requestBody', {}) for it in operations(self.document))]:
            for media in part.get('content', {}).values():
                if 'example' in media:
                    count += 1
                    self.check(f'{media["example"]}',
                               described.faults(media['schema'], media['example']), [])
        self.assertGreater(count, 20)


# ---- a served room


@dataclasses.dataclass
class Answer:
    status: int
    fields: dict
    content: str


class Client:
    """Sends messages one after another over a connection, and over a new one where that was closed
    or has sent many: the room lets no connection ask on and on."""
    MANY = 200

    def __init__(self, port):
        self.port = port
        self.socket = None
        self.count = 0

    def close(self):
        if self.socket:
            self.stream.close()
            self.socket.close()
            self.socket = None

    def send(self, sent, is_head=False):
        self.count += 1
        if self.count % self.MANY == 0:
            self.close()
        if self.socket is None:
            self.socket = socket.create_connection(('127.0.0.1', self.port), timeout=180)
            self.stream = self.socket.makefile('rb')
        self.socket.sendall(sent)
        status = int(self.stream.readline().split(b' ')[1])
        lines = iter(lambda: self.stream.readline().decode().rstrip('\r\n'), '')
        fields = dict(line.split(': ', 1) for line in lines)
        content = b'' if is_head else self.stream.read(int(fields['Content-Length']))
        if fields.get('Connection') == 'close':
            self.close()
        return Answer(status, fields, content.decode())


# The rank of a report in the queue.
REPORT = 4

# How often is asked what much else stands on, where all else is asked once.
OFTEN = {'/call': 4, '/report': 4, '/incidents/{n}/mobilise': 4, '/vehicles/{c}/duty': 2,
         '/vehicles/{c}/lend': 4, '/vehicles/{c}/accept': 4}

# The first number of a refusal around the room, and that which comes after 2147483647 numbers.
AROUND = 30
USED_UP = {19}


def learned(content):
    """What an answer shows to be there, by the names of parameters and members."""
    shown = json.loads(content)
    numbers = [it['number'] for it in shown.get('incidents', [])]
    reports = [it for it in shown.get('queue', []) if it['rank'] == REPORT]
    if numbers:
        return {'n': lambda: random.choice(numbers), 'into': lambda: random.choice(numbers)}
    vehicles = [it['vehicle'] for name in ('vehicles', 'offers', 'loans')
                for it in shown.get(name, [])]
    if vehicles:
        return {'c': lambda: random.choice(vehicles),
                'moves': lambda: [{'incident': random.choice([None, 1, 2, 3, 4]),
                                   'vehicle': random.choice(vehicles)}]}
    if reports:
        report = random.choice(reports)
        return {'c': lambda: report['vehicle'], 'n': lambda: report['number']}
    if shown.get('order'):
        return {'order': lambda: shown['order']['order']}
    return {}


# What is asked before, to know what is there.
FIRST = {'/report': '/order', '/queue/{c}/{n}/clear': '/queue', '/moves': '/vehicles', **{
    f'/incidents/{{n}}{it}': '/incidents'
    for it in ('', '/propose', '/mobilise', '/needs', '/merge', '/close')}, **{
    f'/vehicles/{{c}}/{it}': f'/{first}' for first, paths in [
        ('vehicles', ['duty', 'off', 'standby', 'standdown', 'lend']),
        ('offers', ['withdraw', 'decline', 'accept']), ('loans', ['recall', 'giveback'])]
    for it in paths}}


class Served(TestCase):
    @classmethod
    def setUpClass(cls):
        cls.document = described.read()
        cls.operations = operations(cls.document)

    def setUp(self):
        super().setUp()
        self.room = made(self.folder / 'room.db')
        run('import', self.room, FLEET)
        self.faults = collections.defaultdict(list)
        self.answers = collections.Counter()

    def ask(self, client, request, name):
        """Sends a request, and notes what differs from what is described."""
        answer = client.send(request.message, request.is_head)
        found = described.answer_faults(request.responses, answer, request.is_head)
        number = json.loads(answer.content).get('number') if answer.content else None
        refusal = None if answer.status == 200 else number
        if request.refusal is None and refusal is not None and refusal >= AROUND:
            found.append(f'a right request is refused: {answer.content}')
        if request.refusal is not None and not request.is_head and refusal != request.refusal:
            found.append(f'{refusal} instead of {request.refusal}')
        self.answers[name, answer.status, refusal] += 1
        self.faults[name, request.kind] += [f'{it}: {request.message}' for it in found]
        return answer

    def right_one(self, client, operation, known):
        """Sends a right request, and first what shows what is there."""
        sender = Sender(operation, dict(known))
        first = known and FIRST.get(operation.pattern)
        if first:
            sent = message('GET', first, sender.fields())
            sender.known |= learned(client.send(sent).content)
        return self.ask(client, sender.request('right', None), operation.name)

    def seen(self):
        """The numbers of the refusals that came."""
        return {refusal for _, _, refusal in self.answers if refusal is not None}

    def room_refusals(self):
        """The numbers of the refusals that the document gives to the room, and not around it."""
        schemas = [it.get('properties', {})
                   for it in self.document['components']['schemas'].values()]
        numbers = {it['number']['enum'][0] for it in schemas if 'error' in it}
        return {it for it in numbers if it < AROUND}

    def check_all(self):
        self.assertTrue(self.faults, 'nothing was asked')
        for (name, kind), found in self.faults.items():
            self.check(f'{name}, {kind}: {len(found)} differ', found[:3], [])

    def test_right_requests(self):
        """Right requests: with what is known first, so that each is done sometimes, and then with
        any that the schemas take."""
        with serving(self.room, 1000, *PATIENT, '--history') as (port, _):
            random.seed(SEED)
            client = Client(port)
            weights = [OFTEN.get(it.pattern, 1) for it in self.operations]
            for known, count in [(KNOWN, WALK), ({}, WALK // 4)]:
                for operation in random.choices(self.operations, weights, k=count):
                    self.right_one(client, operation, known)
            client.close()
        self.check_all()
        for operation in self.operations:
            self.assertGreater(self.answers[operation.name, 200, None], 0,
                               f'{operation.name} was never done')
        self.check('each refusal of the room came', self.seen(), self.room_refusals() - USED_UP)

    def test_wrong_requests(self):
        with serving(self.room, 10_000, *PATIENT, '--history') as (port, _):
            random.seed(SEED)
            client = Client(port)
            for _ in range(WRONG_ROUNDS):
                for operation in self.operations:
                    for request in wrong_ones(Sender(operation, KNOWN), self.document):
                        self.ask(client, request, operation.name)
            client.close()
        self.check_all()

    def test_without_history(self):
        """What is marked as history is no path by default, and all else is one."""
        with serving(self.room, 1000, *PATIENT) as (port, _):
            random.seed(SEED)
            client = Client(port)
            for operation in self.operations:
                request = Sender(operation, KNOWN).request('right', None)
                is_none = 'x-history' in operation.item
                request.refusal = 36 if is_none else None
                answer = self.ask(client, request, operation.name)
                if is_none:
                    self.check(f'{operation.name}: by default', answer.status, 404)
            client.close()
        self.check_all()
