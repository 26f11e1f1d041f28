"""The answers by their status: fields of the head, and content."""
from . import contents, schemas, sources

# Around the room: what any message may get, in the order in which it is looked at.
MESSAGE = ['BadMessage', 'HeadTooLong', 'BodyTooLong', 'Expectation', 'Coding']
FAULTS = ['Memory', 'Storage']
CLOSING = [*MESSAGE, *FAULTS]

MEANINGS = {200: 'Done as asked.', 400: 'The message or its body cannot be read.',
            403: 'The terminal may not ask for this.', 404: 'What is asked for is not there.',
            405: 'The path takes other methods.', 409: 'What is there stands against it.',
            413: 'The body is too long.', 417: 'The room sends no go-ahead.',
            431: 'The head is too long.', 501: 'The body comes in a coding.',
            503: 'Memory or the database failed.'}

ALLOW = {'GetHead': 'GET, HEAD', 'Post': 'POST'}


def field(description, schema, required=True):
    return {'description': description, 'required': required, 'schema': schema}


def header_fields():
    """The fields of heads, by name."""
    date = '^[A-Z][a-z]{2}, [0-9]{2} [A-Z][a-z]{2} [0-9]{4} [0-9]{2}:[0-9]{2}:[0-9]{2} GMT$'
    close = {'type': 'string', 'enum': ['close']}
    return {
        'Date': field('The moment of the answer.', {'type': 'string', 'pattern': date}),
        'Length': field('The bytes of the content; after HEAD those that GET would have.',
                        schemas.whole(2, None)),
        'Closing': field('The connection closes after this answer.', close),
        'MayClose': field('The connection closes after this answer.', close, required=False),
        **{f'Allow{name}': field('The methods of the path.', {'type': 'string', 'enum': [methods]})
           for name, methods in ALLOW.items()}}


def headers(status, names):
    """The fields of an answer that gives one of these refusals, or none."""
    closes = 'Closing' if names and set(names) <= set(CLOSING) else 'MayClose'
    found = {'Date': 'Date', 'Content-Length': 'Length', 'Connection': closes}
    if status == 503:
        del found['Date']
    return {name: {'$ref': f'#/components/headers/{it}'} for name, it in found.items()}


def content(options, example=None):
    """Content that has one of some schemas."""
    refs = [schemas.named(it) for it in options]
    it = {'schema': refs[0] if len(refs) == 1 else {'oneOf': refs}}
    return {'application/json': it if example is None else {**it, 'example': example}}


def described(name):
    number, _, meaning = sources.refusals()[name]
    closes = ' The connection closes.' if name in CLOSING else ''
    return f'{number} {name}: {meaning}{closes}'


def refused(status, names, has_content=True):
    """The answer of a status, which gives one of these refusals."""
    text = '\n'.join([MEANINGS[status], *map(described, names)])
    it = {'description': text, 'headers': headers(status, names)}
    return {**it, 'content': content(names)} if has_content else it


def by_status(names):
    """Refusals by their status, in the order of their numbers."""
    known = sources.refusals()
    found = {}
    for name in sorted(names, key=known.get):
        found.setdefault(known[name][1], []).append(name)
    return dict(sorted(found.items()))


def around(path):
    """The refusals around the room that a request of a path may get."""
    body = ['BadBody'] if path in sources.bodies() else []
    absent = ['NoPath'] if (sources.parameters()[path]
                            or path in sources.paths_of_history()) else []
    return [*MESSAGE, *absent, 'NoTerminal', 'WrongRole', *body, *FAULTS]


def name_of(status, parts, has_content=True):
    """The name of an answer: its status, then the numbers of its refusals, or its schemas."""
    return '.'.join([str(status), *map(str, parts), *([] if has_content else ['head'])])


def refused_name(status, names, has_content=True):
    known = sources.refusals()
    return name_of(status, [known[name][0] for name in names], has_content)


def done_name(answers, has_content):
    return name_of(200, map(contents.schema_name, answers), has_content)


def reference(name):
    return {'$ref': f'#/components/responses/{name}'}


def done(answers, example, has_content):
    it = {'description': MEANINGS[200], 'headers': headers(200, [])}
    if has_content:
        it['content'] = content([contents.schema_name(name) for name in answers], example)
    return it


def of_request(path, request, has_content):
    """References to all answers to a request of a path, by status."""
    refusals = by_status([*around(path), *request.refusals])
    names = {200: done_name(request.answers, has_content),
             **{status: refused_name(status, names, has_content)
                for status, names in refusals.items()}}
    return {str(status): reference(name) for status, name in names.items()}


def answers_of(path, request, has_content):
    """All answers to a request of a path, by their names."""
    yield (done_name(request.answers, has_content),
           done(request.answers, request.example, has_content))
    for status, names in by_status([*around(path), *request.refusals]).items():
        yield refused_name(status, names, has_content), refused(status, names, has_content)


def other_methods(allow):
    return name_of(405, [sources.refusals()['WrongMethod'][0], ALLOW[allow].replace(', ', '.')])


NO_PATH = refused_name(404, ['NoPath'])


def shared(requests):
    """All answers, by their names, where the requests of all paths are given."""
    found = {NO_PATH: refused(404, ['NoPath'])}
    for path, request in requests.items():
        for has_content in [True, False] if sources.methods()[path] == 'GetHead' else [True]:
            found.update(answers_of(path, request, has_content))
    for allow in ALLOW:
        it = refused(405, ['WrongMethod'])
        it['headers']['Allow'] = {'$ref': f'#/components/headers/Allow{allow}'}
        found[other_methods(allow)] = it
    return dict(sorted(found.items()))
