#!/usr/bin/env python3
"""Writes docs/openapi.json, the HTTP interface as an OpenAPI document, from what the crates say of
paths, bodies, answers and refusals, and from docs/HTTP.md's refusals of each path and examples.
tests/test_openapi.py finds out where that differs from what is committed."""
import json

from arguments import destination
from openapi_files import operations, responses, schemas, sources

ABOUT = """\
An ambulance control room. docs/HTTP.md says the same for people, with an example of each request.

A request names its terminal by exactly one field `X-Terminal`. A body is JSON of at most 1024
bytes with exactly the members of its path, whatever its Content-Type; its length is given by
`Content-Length`. Of two members of one name the last counts. Paths are compared byte by byte: a
`?`, a `%` or a slash at the end names no path, which is answered as `x-other-paths` says. Methods
that a path does not take are answered as its `x-other-methods` says. A path with `x-history` is
served only where the service was started with `--history`, and is no path otherwise.

What is looked at first decides: the message, the path, the method, the terminal, its role, the
body, and then the room. A refusal changes nothing."""

ROLES = {'Desk': 'The token of a desk.', 'Position': "The token of a call taker's position.",
         'Crew': "The token of a vehicle's crew."}


# What only the import of a fleet is refused for.
OF_FLEETS = ('CallsignTaken', 'TokenTaken')

WIDTH = 100


def refusal_schemas():
    return {name: schemas.refusal(name, number)
            for name, (number, _, _) in sources.refusals().items() if name not in OF_FLEETS}


def components():
    requests = {path: operations.request(path) for path in sources.patterns()}
    terminal = {'type': 'apiKey', 'in': 'header', 'name': 'X-Terminal'}
    return {'schemas': {**schemas.shared(), **schemas.answers(), **refusal_schemas()},
            'headers': responses.header_fields(), 'responses': responses.shared(requests),
            'securitySchemes': {role: {**terminal, 'description': description}
                                for role, description in ROLES.items()}}


def document():
    return {'openapi': '3.0.3',
            'info': {'title': 'dispatch_room', 'version': sources.version(), 'description': ABOUT,
                     'license': {'name': 'MIT OR Apache-2.0'}},
            'servers': [{'url': 'http://localhost:8080'}],
            'paths': {pattern: operations.item(path)
                      for path, pattern in sources.patterns().items()},
            'x-other-paths': responses.reference(responses.NO_PATH),
            'components': components()}


def pieces(value, margin):
    """The texts of what stands in an object or a list."""
    if isinstance(value, list):
        return [text(it, margin) for it in value]
    return [f'{json.dumps(name)}: {text(it, margin, len(name) + 4)}' for name, it in value.items()]


def text(value, margin=0, before=0):
    """A value as JSON: in one line where it fits, else each of its parts in its own."""
    line = json.dumps(value, ensure_ascii=False)
    if not isinstance(value, (dict, list)) or margin + before + len(line) < WIDTH:
        return line
    first, last = '[]' if isinstance(value, list) else '{}'
    space = ' ' * margin
    parts = f',\n{space} '.join(pieces(value, margin + 1))
    return f'{first}\n{space} {parts}\n{space}{last}'


def main(file):
    file.write_text(text(document()) + '\n')


if __name__ == '__main__':
    main(destination(__doc__, 'FILE', sources.TOP / 'docs' / 'openapi.json'))
