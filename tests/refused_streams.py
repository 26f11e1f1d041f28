"""Streams to the dry run whose last message is refused, and the refusal of each."""
from room import CLOSE, call, message

NOT_FOUND, CONFLICT, FORBIDDEN = '404 Not Found', '409 Conflict', '403 Forbidden'
BAD_REQUEST, WRONG_METHOD = '400 Bad Request', '405 Method Not Allowed'
CLOSING = message('deskone1', 'POST /incidents/1/close')
SAME_INCIDENT = message('deskone1', 'POST /incidents/1/merge', '{"into":1}')
POSTED = 'POST /call HTTP/1.1\r\nHost: room\r\nX-Terminal: takerone\r\n'

# Number and name, the status, further lines of the head, and a stream whose last message is
# refused so.
REFUSALS = [
    (1, 'NoSuchIncident', NOT_FOUND, '', message('deskone1', 'GET /incidents/1/propose')),
    (2, 'IncidentNotOpen', CONFLICT, '', call(1, 'TQ300800') + CLOSING + CLOSING),
    (3, 'NoSuchVehicle', NOT_FOUND, '', message('deskone1', 'POST /vehicles/Z9/off')),
    (10, 'SameIncident', CONFLICT, '', call(1, 'TQ300800') + SAME_INCIDENT),
    (15, 'NoSuchException', NOT_FOUND, '', message('deskone1', 'POST /queue/A1/1/clear')),
    (16, 'OutsideArea', CONFLICT, '', call(1, 'TL300800')),
    (17, 'SerialReused', CONFLICT, '', call(1, 'TQ300800') + call(1, 'TQ302800')),
    (22, 'NoSuchOffer', NOT_FOUND, '', message('desktwo2', 'POST /vehicles/A1/accept')),
    (30, 'BadMessage', BAD_REQUEST, CLOSE,
     b'GET /incidents HTTP/1.1\r\nX-Terminal: deskone1\r\n\r\n'),
    (31, 'HeadTooLong', '431 Request Header Fields Too Large', CLOSE,
     b'GET /incidents HTTP/1.1\r\nHost: room\r\nX-Filler: ' + b'a' * 8192),
    (32, 'BodyTooLong', '413 Payload Too Large', CLOSE,
     f'{POSTED}Content-Length: 1025\r\n\r\n'.encode()),
    (33, 'Expectation', '417 Expectation Failed', CLOSE,
     f'{POSTED}Expect: 100-continue\r\nContent-Length: 67\r\n\r\n'.encode()),
    (34, 'Coding', '501 Not Implemented', CLOSE,
     f'{POSTED}Transfer-Encoding: chunked\r\n\r\n'.encode()),
    (36, 'NoPath', NOT_FOUND, '', message('deskone1', 'GET /incidents/')),
    (37, 'WrongMethod', WRONG_METHOD, 'Allow: POST\r\n', message('takerone', 'GET /call')),
    (37, 'WrongMethod', WRONG_METHOD, 'Allow: GET, HEAD\r\n',
     message('deskone1', 'POST /incidents')),
    (38, 'NoTerminal', FORBIDDEN, '', message('nobodys1', 'GET /incidents')),
    (39, 'WrongRole', FORBIDDEN, '', message('deskone1', 'POST /call')),
    (40, 'BadBody', BAD_REQUEST, '', message('takerone', 'POST /call', '{"serial":1}')),
]
