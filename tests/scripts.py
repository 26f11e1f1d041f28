"""The scripts of rows/, each a talk with a room, and the answers to their messages.

A message of a script is a line MOMENT TOKEN METHOD PATH [BODY]; where the token is '-', none is
shown. The line after it says what is wanted: '= STATUS CONTENT' exactly, '~ STATUS TEXT' where the
content has this text in it, or '^ STATUS' where the answer is the head of the one before, and no
content.
"""
import collections

from room import TOP

ROWS = TOP / 'tests' / 'rows'

Answer = collections.namedtuple('Answer', 'head content')


class Message:
    """A message of a script, and what is wanted of its answer."""

    def __init__(self, line, wanted):
        self.line, self.wanted = line, wanted
        self.moment, self.token, self.method, self.path, *body = line.split(' ', 4)
        self.body = body[0] if body else ''
        self.sign, self.status, *content = wanted.split(' ', 2)
        self.content = content[0] if content else ''
        assert self.sign in '=~^', f'{line}: no answer is wanted of it'

    def text(self):
        head = f'{self.method} {self.path} HTTP/1.1\r\nHost: room\r\n'
        if self.token != '-':
            head += f'X-Terminal: {self.token}\r\n'
        if self.body or self.method == 'POST':
            head += f'Content-Length: {len(self.body)}\r\n'
        return head + '\r\n' + self.body

    def fits(self, got, before):
        """Whether an answer, with the one before, is as wanted."""
        if got.head.split(' ')[1] != self.status:
            return False
        if self.sign == '^':
            return before is not None and got.head == before.head and got.content == ''
        return got.content == self.content if self.sign == '=' else self.content in got.content


def messages(path):
    lines = [it for it in path.read_text().splitlines() if it and not it.startswith('#')]
    assert len(lines) % 2 == 0, f'{path.name}: a message without an answer'
    return [Message(line, wanted) for line, wanted in zip(lines[::2], lines[1::2])]


def answers(stream, asked):
    """The answers in a stream to these messages; those to HEAD have no content."""
    found = []
    while stream:
        head, _, stream = stream.partition('\r\n\r\n')
        fields = dict(line.split(': ', 1) for line in head.split('\r\n')[1:])
        is_head = len(found) < len(asked) and asked[len(found)].method == 'HEAD'
        length = 0 if is_head else int(fields['Content-Length'])
        found.append(Answer(head, stream[:length]))
        stream = stream[length:]
    return found
