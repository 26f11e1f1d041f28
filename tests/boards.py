"""What tests of a board share: something that listens in the place of a room, what it says, and
the board of which no table could be shown."""
import contextlib
import json
import socket
import threading

from room import PROGRAM, free_port

PATHS = ['/queue', '/incidents', '/vehicles', '/points', '/offers', '/loans']
TITLES = ['Queue', 'Incidents', 'Vehicles', 'Points', 'Offers', 'Loans']
UNHEARD = 'not reached: no whole answer came'
NOTHING = 'Room at no moment: nothing was heard'
DATE = 'Date: Wed, 25 Nov 2026 06:40:00 GMT\r\n'
# A board waits so long where a busy machine keeps a test waiting.
UNHURRIED = ['--patience', '60']


def typed(folder):
    """Puts a command `dispatch_room` into a folder, for what is typed as a document has it: the
    program, which waits so long where the words name no other patience."""
    command = folder / 'dispatch_room'
    command.write_text(f'''#!/bin/sh
case "$* " in
*--patience*) ;;
'board '* | 'serve '*) set -- "$@" {' '.join(UNHURRIED)} ;;
esac
exec {PROGRAM} "$@"
''')
    command.chmod(0o755)


def answer(content, status='200 OK', date=DATE):
    return (f'HTTP/1.1 {status}\r\n{date}Content-Type: application/json\r\n'
            f'Content-Length: {len(content.encode())}\r\n\r\n{content}').encode()


EMPTY = [answer(f'{{"{path[1:]}":[]}}') for path in PATHS]


def history(calls=(), turns=(), **members):
    """The answer that has an incident's history, of which some members may be other ones."""
    found = {'calls': list(calls), 'class': 1, 'first_order': None, 'into': None,
             'needs': [1, 0, 0], 'number': 1, 'opened': 1795588800, 'place': [530000, 180000],
             'served': [0, 0, 0], 'state': 0, 'turns': list(turns)} | members
    return answer(json.dumps(found, ensure_ascii=False))


@contextlib.contextmanager
def peer(*speaks):
    """Something that listens, takes one connection after another, as many as there are ways to
    speak, and speaks to each; gives its address, and the bytes that it was sent on each before it
    spoke."""
    heard = []
    with socket.create_server(('127.0.0.1', free_port())) as listener:
        def serve():
            with contextlib.suppress(OSError):
                for speak in speaks:
                    stream, _ = listener.accept()
                    with stream:
                        stream.settimeout(60)
                        heard.append(b'')
                        while not heard[-1].endswith(b'Connection: close\r\n\r\n'):
                            piece = stream.recv(65536)
                            if not piece:
                                return
                            heard[-1] += piece
                        speak(stream)
        thread = threading.Thread(target=serve, daemon=True)
        thread.start()
        try:
            yield f'127.0.0.1:{listener.getsockname()[1]}', heard
        finally:
            listener.shutdown(socket.SHUT_RDWR)  # where nobody has called, it is waited no more


def without_tables(reason, first=NOTHING):
    """The board of which no table could be shown, each for the same reason."""
    return ''.join([f'{first}\n', *(f'\n{title}: {reason}\n' for title in TITLES)])
