"""Gets the lists of a served room, one connection each. Who has no answer says why."""
import email.utils
import http.client
import json

ANSWER_WITHIN = 3.0  # seconds that the room may be silent for
LONGEST_ANSWER = 16 << 20  # bytes


class NoAnswer(Exception):
    """What the room gave in place of an answer."""


class Refusal(NoAnswer):
    """The room answered, but not what it was asked for."""


def get(room, token, path):
    """One GET of the room over a connection of its own, which is closed again; gives the list that
    has the name of the path's last part, and the moment of the answer."""
    connection = http.client.HTTPConnection(*room, timeout=ANSWER_WITHIN)
    try:
        connection.request('GET', f'/{path}', headers={'X-Terminal': token, 'Connection': 'close'})
        with connection.getresponse() as answer:
            content = answer.read(LONGEST_ANSWER)
            if answer.status != 200:
                raise Refusal(f'It answers with status {answer.status}.')
            date = email.utils.parsedate_to_datetime(answer.headers['Date'])
            return list(json.loads(content)[path.split('/')[-1]]), int(date.timestamp())
    except TimeoutError:
        raise NoAnswer('It is silent.') from None
    except OSError:
        raise NoAnswer('It takes no connection.') from None
    except (http.client.HTTPException, ValueError, TypeError, KeyError, RecursionError):
        raise Refusal('Its answer can not be read.') from None
    finally:
        connection.close()
