"""Requests made from docs/openapi.json: right ones, and ones that are wrong in one way, each with
the refusal that it has to get."""
import dataclasses
import itertools
import json
import random
import re
import string
import time

from described import beyond, fits, right, wrong, wrong_text

TOKENS = {'Desk': ['deskone1', 'desktwo2'], 'Position': ['takerone'],
          'Crew': ['crewofa1', 'crewofa2', 'crewofa3', 'crewofb1', 'crewofc1']}
METHODS = ['GET', 'HEAD', 'POST', 'PUT', 'DELETE', 'OPTIONS', 'PATCH', 'get', 'Post', 'X']


@dataclasses.dataclass
class Operation:
    """A request that the document describes."""
    pattern: str
    method: str
    item: dict
    described: dict

    @property
    def name(self):
        return f'{self.method} {self.pattern}'

    @property
    def responses(self):
        return self.described['responses']

    @property
    def roles(self):
        return [role for it in self.described['security'] for role in it]

    @property
    def parameters(self):
        return {it['name']: it['schema'] for it in self.item.get('parameters', [])}

    @property
    def body(self):
        """The schema of the body, none where the method has none."""
        given = self.described.get('requestBody')
        return given and given['content']['application/json']['schema']


@dataclasses.dataclass
class Request:
    """A message; what is described of its answers, and the number of the refusal that it has to
    get, none where it is right."""
    kind: str
    message: bytes
    responses: dict
    refusal: int | None
    is_head: bool


def operations(document):
    return [Operation(pattern, method.upper(), item, described)
            for pattern, item in document['paths'].items()
            for method, described in item.items() if method in ('get', 'head', 'post')]


def message(method, target, fields, body=b''):
    length = [f'Content-Length: {len(body)}'] if body else []
    lines = [f'{method} {target} HTTP/1.1', *fields, *length, '', '']
    return '\r\n'.join(lines).encode() + body


# ---- right ones


# What a room of the example's plan and fleet knows, by the names of parameters and members. Reports
# and calls have a new number each, but for some that come again.
COUNT = itertools.count(1)
KNOWN = {'c': lambda: random.choice(['A1', 'A2', 'A3', 'B1', 'C1']),
         'vehicle': lambda: random.choice(['A1', 'A2', 'A3', 'B1', 'C1']),
         'n': lambda: random.randint(1, 4), 'into': lambda: random.randint(1, 4),
         'day': lambda: time.strftime('%Y-%m-%d', time.gmtime()),
         'place': lambda: random.choice(['TQ300800', 'TQ 305 805', 'TQ3000081000', 'TQ600800']),
         'metres': lambda: random.choice([1, 500, 5000, 99999]),
         'until': lambda: int(time.time()) + random.choice([-10, 2, 99_999, 99_999, 99_999]),
         'needs': lambda: random.choice([[1, 0, 0], [1, 1, 0], [0, 1, 0]]),
         'moves': lambda: [{'incident': random.choice([None, 1, 2, 3, 4]), 'vehicle': 'A1'}],
         'to': lambda: random.choice([1, 2]), 'point': lambda: random.choice([None, 1, 2, 9]),
         'number': lambda: max(1, next(COUNT) - random.choice([0, 0, 0, 1])),
         'serial': lambda: max(1, next(COUNT) - random.choice([0, 0, 0, 1]))}


def value(schema, known):
    """A value that a schema takes: what is known by its name, if anything is and fits, else any."""
    it = known and known()
    return it if known and fits(schema, it) else right(schema)


def values(schemas, known):
    """Values that schemas take, by name."""
    return {name: value(schema, known.get(name)) for name, schema in schemas.items()}


class Sender:
    """An operation with a terminal that may ask for it, and what is known."""

    def __init__(self, operation, known):
        self.operation = operation
        self.known = known
        self.token = random.choice(TOKENS[random.choice(operation.roles)])

    def fields(self):
        return ['Host: room', f'X-Terminal: {self.token}']

    def target(self, **given):
        """The target, with given parameters or right ones."""
        parameters = {**values(self.operation.parameters, self.known), **given}
        return self.operation.pattern.format(**parameters)

    def members(self):
        return values(self.operation.body['properties'], self.known)

    def body(self):
        """A right body, as it is sent."""
        if self.operation.body is None:
            return b''
        members = list(self.members().items())
        random.shuffle(members)
        if not members and random.random() < 0.5:
            return b''
        return json.dumps(dict(members), ensure_ascii=random.random() < 0.5).encode()

    def request(self, kind, refusal, *, method=None, target=None, fields=None, body=None,
                responses=None):
        method = method or self.operation.method
        sent = message(method, self.target() if target is None else target,
                       self.fields() if fields is None else fields,
                       self.body() if body is None else body)
        return Request(kind, sent, responses or self.operation.responses, refusal,
                       method == 'HEAD')


# ---- wrong ones


def wrong_bodies(sender):
    """Bodies that are wrong in one way, by what is wrong with them."""
    members = sender.members()
    yield 'no object', random.choice(['[]', '1', 'null', '"x"', '{', 'x', '{}{}', '{"x":}'])
    yield 'a member too many', json.dumps({**members, 'x': 1})
    for name, schema in sender.operation.body['properties'].items():
        others = {it: value for it, value in members.items() if it != name}
        yield f'{name} is missing', json.dumps(others)
        for value in [wrong(schema), *beyond(schema)]:
            yield f'{name} is wrong', json.dumps({**others, name: value})


def bodies(sender):
    if sender.operation.body is not None:
        for kind, body in wrong_bodies(sender):
            yield sender.request(kind, 40, body=body.encode())


def targets(sender):
    """Parameters that are wrong, one at a time."""
    for name, schema in sender.operation.parameters.items():
        for text in [wrong_text(schema), *beyond(schema)]:
            yield sender.request(f'parameter {name}', 36, target=sender.target(**{name: text}))


def terminals(sender):
    none = random.choice([[], ['X-Terminal: unknown1'], ['X-Terminal:'], sender.fields()[1:] * 2])
    yield sender.request('no terminal', 38, fields=['Host: room', *none])
    others = [token for role, tokens in TOKENS.items() if role not in sender.operation.roles
              for token in tokens]
    other = f'X-Terminal: {random.choice(others)}'
    yield sender.request('another role', 39, fields=['Host: room', other])


def methods(sender):
    item = sender.operation.item
    method = random.choice([it for it in METHODS if it == it.lower() or it.lower() not in item])
    yield sender.request('method', 37, method=method,
                         responses={'405': item['x-other-methods']})


def heads(sender):
    """Heads and lengths that are no request's of the room."""
    fields = sender.fields()
    yield sender.request('no Host', 30, fields=fields[1:])
    yield sender.request('two of Host', 30, fields=[*fields, 'Host: room'])
    yield sender.request('length', 30, fields=[*fields, 'Content-Length: 1x'], body=b'')
    yield sender.request('long head', 31, fields=[*fields, f'X: {"x" * 8192}'], body=b'')
    yield sender.request('long body', 32, body=b' ' * random.randint(1025, 3000))
    yield sender.request('Expect', 33, fields=[*fields, 'Expect: 100-continue'])
    yield sender.request('Coding', 34, fields=[*fields, 'Transfer-Encoding: chunked'], body=b'')


def strays(sender):
    """Targets that are no path."""
    word = ''.join(random.choices(string.ascii_lowercase, k=5))
    target = sender.target()
    stray = random.choice([f'{target}/', f'{target}?', f'{target}?x=1', f'{target}/{word}',
                           f'/{word}{target}', f'/{word}', '/', target.upper().replace('/', '/%'),
                           re.sub('(.)$', r'%\1', target)])
    return sender.request('path', 36, target=stray)


def wrong_ones(sender, document):
    """Requests that are wrong in one way."""
    for make in (bodies, targets, terminals, methods, heads):
        yield from make(sender)
    stray = strays(sender)
    stray.responses = {'404': document['x-other-paths']}
    yield stray
