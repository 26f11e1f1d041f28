"""A terminal's request: read whole, refused where it is no whole message of the room's sizes by the
room's own names and numbers, and written anew, so that every record is a message that the room can
read."""
import email.utils
import functools
import http
import json
import re
import typing

LONGEST_HEAD, LONGEST_BODY, MOST_FIELDS = 8192, 1024, 32
MOST_HEADS = 1024  # that are known again, the last ones
METHOD = re.compile(r'[A-Z]{1,16}')
# Paths are compared byte by byte, so what has other characters, or is longer, is none.
PATH = re.compile(r'/[A-Za-z0-9/-]{0,127}')
TOKEN = re.compile(r'[A-Za-z0-9]{8,32}')
FIELD = re.compile(r"([!#$%&'*+.^_`|~0-9A-Za-z-]+):[ \t]*([^\x00-\x08\x0a-\x1f\x7f]*?)[ \t]*")
OWN = '/health', '/metrics'  # what the companion answers by itself
BAD = 400, 30, 'BadMessage'


def answer_of(status: int, body: str, kind: str = 'application/json') -> bytes:
    """An answer of this machine itself."""
    return (f'HTTP/1.1 {status} {http.HTTPStatus(status).phrase}\r\n'
            f'Date: {email.utils.formatdate(usegmt=True)}\r\nContent-Type: {kind}\r\n'
            f'Content-Length: {len(body.encode())}\r\n\r\n{body}').encode()


def json_answer(status: int, content: dict) -> bytes:
    return answer_of(status, json.dumps(content, separators=(',', ':'), sort_keys=True))


def no_answer(is_kept: str) -> bytes:
    """Answers a terminal that there is no answer, and whether its request is kept in the list or
    will be: no, yes or perhaps."""
    return json_answer(503, {'error': 'NoAnswer', 'kept': is_kept})


def numbered(answer: bytes, number: int) -> bytes:
    """The room's answer, with the number of the record that it answers, or of the last before."""
    first, _, rest = answer.partition(b'\r\n')
    return b'%b\r\nX-Record: %d\r\n%b' % (first, number, rest)


class Refused(Exception):
    """A request that the room isn't asked. What comes behind it can't be read."""

    def __init__(self, status: int, number: int, name: str, is_last: bool = True):
        super().__init__(name)
        self.answer = json_answer(status, {'error': name, 'number': number})
        self.is_last = is_last


class Request(typing.NamedTuple):
    """What a terminal asks: the message that the room is handed, what it says for the log, and
    whether the terminal's connection ends with its answer."""
    message: bytes
    token: str
    method: str
    path: str
    is_last: bool

    @property
    def is_question(self) -> bool:
        """Whether it changes nothing, whatever the room answers: only POST does."""
        return self.method != 'POST'


def fields_of(lines: list[str]) -> dict[str, list[str]]:
    if len(lines) > MOST_FIELDS:
        raise Refused(*BAD)
    fields: dict[str, list[str]] = {}
    for line in lines:
        found = FIELD.fullmatch(line)
        if not found:
            raise Refused(*BAD)
        fields.setdefault(found[1].lower(), []).append(found[2])
    return fields


def length_of_body(version: str, fields: dict[str, list[str]]) -> int:
    length, *more = fields.get('content-length', ['0'])
    if more or not re.fullmatch('[0-9]+', length, re.ASCII):
        raise Refused(*BAD)
    if 'transfer-encoding' in fields:
        raise Refused(501, 34, 'Coding')
    if version == 'HTTP/1.1' and 'expect' in fields:
        raise Refused(417, 33, 'Expectation')
    if len(length) > 10 or int(length) > LONGEST_BODY:
        raise Refused(413, 32, 'BodyTooLong')
    return int(length)


@functools.lru_cache(MOST_HEADS)
def head_of(text: bytes) -> tuple[Request, int, tuple[int, int, str] | None]:
    """Reads a head. Terminals send the same ones again and again. It gives what is asked as far as
    the head has it, how many bytes follow, and by which refusal the room isn't asked."""
    first, *lines = text.decode('latin-1').split('\r\n')
    method, path, version = (first.split(' ') + ['', '', ''])[:3]
    fields = fields_of(lines)
    if first.count(' ') != 2 or version not in ('HTTP/1.0', 'HTTP/1.1') or not path:
        raise Refused(*BAD)
    if not METHOD.fullmatch(method) or version == 'HTTP/1.1' and len(fields.get('host', [])) != 1:
        raise Refused(*BAD)
    length, words = length_of_body(version, fields), ','.join(fields.get('connection', []))
    is_last = version == 'HTTP/1.0' or 'close' in map(str.strip, words.lower().split(','))
    tokens, written, refusal = fields.get('x-terminal', []), b'', None
    if method == 'GET' and path in OWN:
        tokens = ['']
    elif not PATH.fullmatch(path):
        refusal = 404, 36, 'NoPath'
    elif len(tokens) != 1 or not TOKEN.fullmatch(tokens[0]):
        refusal = 403, 38, 'NoTerminal'
    else:
        written = (f'{method} {path} HTTP/1.1\r\nHost: room\r\nX-Terminal: {tokens[0]}\r\n'
                   f'Content-Length: {length}\r\n\r\n').encode()
    return Request(written, '' if refusal else tokens[0], method, path, is_last), length, refusal


def next_request(read: bytes) -> tuple[Request | Refused, int] | None:
    """The next request at the front of what was read, and how many bytes it has, with empty lines
    before it; nothing where it is not whole."""
    begin = len(read) - len(read.lstrip(b'\r\n'))
    end = read.find(b'\r\n\r\n', begin)
    if end < 0 or end + 4 > LONGEST_HEAD:
        if len(read) > LONGEST_HEAD:
            raise Refused(431, 31, 'HeadTooLong')
        return None
    (written, *head), length, refusal = head_of(read[begin:end])
    behind = end + 4 + length
    if len(read) < behind:
        return None
    if refusal:
        return Refused(*refusal, head[-1]), behind
    return Request(written and written + read[end + 4:behind], *head), behind
