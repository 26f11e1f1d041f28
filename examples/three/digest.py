"""The digest of a room's file, as docs/FILES.md defines it: SHA-256 of all rows, or in version 1 of
all but that of the zone. The file is one that no program has open.

  python3 digest.py ROOM        prints it"""
import contextlib
import hashlib
import pathlib
import sqlite3
import sys

# The tables in their order, with their keys.
TABLES = {'meta': 'id', 'areas': 'n', 'terminals': 'token', 'divisions': 'number',
          'incidents': 'division, number', 'calls': 'position, serial', 'vehicles': 'callsign',
          'turns': 'callsign, ord', 'assignments': 'callsign', 'points': 'division, number',
          'loans': 'callsign', 'reports': 'callsign, number', 'offers': 'callsign'}


def of_number(number: int) -> bytes:
    """A number in groups of seven bits, the lowest first; each but the last has 128 added."""
    groups = bytearray()
    while number >= 128:
        groups.append(128 + number % 128)
        number //= 128
    return bytes(groups) + bytes([number])


def of_value(value: None | int | str | bytes) -> bytes:
    """A value's kind, and what it holds."""
    if value is None:
        return b'\0'
    if isinstance(value, int):
        return b'\1' + of_number(value) if value >= 0 else b'\2' + of_number(-1 - value)
    text = value.encode() if isinstance(value, str) else value
    return (b'\3' if isinstance(value, str) else b'\4') + of_number(len(text)) + text


def opened(file: pathlib.Path) -> sqlite3.Connection:
    """Opens a file to be read. Where it has no log, none is made beside it."""
    log = file.with_name(f'{file.name}-wal')
    has_log = log.exists() and log.stat().st_size > 0
    how = 'mode=ro' if has_log else 'mode=ro&immutable=1'
    return sqlite3.connect(f'{file.resolve().as_uri()}?{how}', uri=True)


def of_file(file: pathlib.Path, version: int = 2) -> str:
    """The digest in hexadecimal digits."""
    found = hashlib.sha256()
    with contextlib.closing(opened(file)) as room:
        for table, key in TABLES.items():
            if table == 'meta' and version == 1:
                continue
            count, = room.execute(f'SELECT count(*) FROM {table}').fetchone()
            found.update(of_number(count))
            for row in room.execute(f'SELECT * FROM {table} ORDER BY {key}'):
                found.update(of_number(len(row)) + b''.join(map(of_value, row)))
    return found.hexdigest()


def head_of(file: pathlib.Path, version: int = 2) -> str:
    """The head of a list that begins at the file's room."""
    return f'room {version} {of_file(file, version)}\n'


if __name__ == '__main__':
    print(of_file(pathlib.Path(sys.argv[1])))
