"""What the companion says to whoever runs it, on standard error."""
import sys
import time

AGAIN = 600.0  # seconds until the same is said again
MOST = 100  # that are known to be the same

said: dict[str, float] = {}


def say(message: object, kind: str = '') -> None:
    """Says something, and the same once in a while; or what is of one kind, whatever it counts."""
    text, now = str(message), time.monotonic()
    if now < said.get(kind or text, -AGAIN) + AGAIN:
        return
    if len(said) >= MOST:
        said.clear()
    said[kind or text] = now
    print(f'companion: {text}', file=sys.stderr, flush=True)
