"""Files of version 1, as rooms were kept before loans were offered: made by Python's sqlite3, by
statements of its own. A vehicle was lent at once there, so no table has offers."""
import contextlib
import shutil
import sqlite3

from schema import INDEXES, PLAN_ROWS, TABLES, columns_of

# The tables of version 1, in the order in which they were made.
TABLES_BEFORE = {table: columns for table, columns in TABLES.items() if table != 'offers'}

UNTIL = 4_000_000_000

# The plan and the fleet of the examples, before anything was done.
NEW = {
    'meta': [(1, 1, 'GMT0BST,M3.5.0/1,M10.5.0')],
    'areas': PLAN_ROWS['areas'],
    'terminals': PLAN_ROWS['terminals'],
    'divisions': [(1, 0), (2, 0)],
    'vehicles': [
        ('A1', 1, 1, 1, 530300, 180400, 0, 0, None, 0, 0),
        ('A2', 1, 1, 1, 530400, 180300, 0, 0, None, 0, 0),
        ('A3', 1, 1, 1, 530000, 180100, 0, 0, None, 0, 0),
        ('B1', 2, 2, 1, 560000, 180000, 0, 0, None, 0, 0),
        ('C1', 1, 1, 2, 530000, 180000, 0, 0, None, 0, 0)],
}

# A day: desk 2 borrowed A1 and sent it to its incident 1, where it is on its way. It borrowed A2
# too, which desk 1 wants back. A3 was sent twice, to incidents of division 1: once it was stood
# down, and once it went through the whole turn; it showed that by reports, and by some that were
# late, wrong and of another order. C1 waits at a point. Incident 2 was merged into incident 1, and
# incident 3 is closed.
DAY = NEW | {
    'divisions': [(1, 3), (2, 1)],
    'incidents': [
        (1, 1, 530000, 180000, 1, 2, 1, 0, 1000, 1150, 0, None),
        (1, 2, 535000, 185000, 3, 1, 0, 0, 1100, 1150, 2, 1),
        (1, 3, 540000, 190000, 3, 0, 0, 1, 1120, None, 1, None),
        (2, 1, 560000, 180000, 2, 1, 0, 0, 1000, 2010, 0, None)],
    'calls': [
        (1, 1, 2, 1, 1, 0, 560000, 180000, 2, 1, 0, 0, b'', 1000),
        (1, 2, 1, 1, 1, 0, 530000, 180000, 2, 2, 0, 0, b'a fall', 1000),
        (1, 3, 1, 1, 1, 1, 530100, 180000, 1, 1, 1, 0, 'Gärten'.encode(), 1010),
        (1, 4, 1, 1, 2, 0, 535000, 185000, 3, 1, 0, 0, b'', 1100),
        (1, 5, 1, 3, 3, 0, 540000, 190000, 3, 0, 0, 1, b"it's", 1120)],
    'vehicles': [
        ('A1', 1, 2, 1, 530300, 180400, 2, UNTIL, None, 1, 1),
        ('A2', 1, 2, 1, 530400, 180300, 1, UNTIL, None, 0, 0),
        ('A3', 1, 1, 1, 530400, 180500, 1, UNTIL, None, 2, 9),
        ('B1', 2, 2, 1, 560000, 180000, 0, 0, None, 0, 0),
        ('C1', 1, 1, 2, 530000, 180000, 1, UNTIL, 7, 0, 0)],
    'turns': [
        ('A1', 1, 2, 1, 1, 2010, None, None, None, None, None, 0),
        ('A3', 1, 1, 2, 1, 1150, None, None, None, None, 1160, 1),
        ('A3', 2, 1, 1, 1, 1200, 1210, 1300, 1400, 1500, 1600, 0)],
    'assignments': [('A1', 2, 1, 1, 560000, 180000, 2)],
    'points': [(1, 7, 530001, 180002, 1), (2, 99, 560000, 180000, 0)],
    'loans': [('A1', 1, 2, 2000, UNTIL, 0), ('A2', 1, 2, 1900, UNTIL, 1)],
    'reports': [
        ('A1', 1, 0, 0, 530300, 180400, 1990, 1, 0, 1, 0),
        ('A3', 1, 1, 2, 530100, 180100, 1210, 1, 0, 2, 0),
        ('A3', 2, 2, 2, 530000, 180000, 1300, 1, 0, 3, 0),
        ('A3', 3, 3, 2, 530000, 180100, 1400, 1, 0, 4, 0),
        ('A3', 4, 4, 2, 531000, 181000, 1500, 1, 0, 5, 0),
        ('A3', 5, 5, 2, 531100, 181100, 1600, 1, 0, 6, 0),
        ('A3', 6, 0, 0, 532000, 182000, 1720, 1, 3, 1, 1),
        ('A3', 7, 6, 2, 530400, 180500, 1700, 1, 0, 1, 0),
        ('A3', 8, 1, 9, 532100, 182100, 1730, 1, 4, 1, 0),
        ('A3', 9, 2, 2, 532200, 182200, 1740, 1, 2, 1, 0)],
}


def table_statement(table):
    """What makes a table: its key is given with its column, or after all where it has two."""
    count, columns = TABLES_BEFORE[table]
    parts, key = [], []
    for name, kind, is_never_null, place in columns_of(count, columns):
        of_key = ' primary key' if place and count == 1 else ''
        parts.append(f'"{name}" {kind}{of_key}{" not null" if is_never_null else ""}')
        key += [name] if place else []
    if count > 1:
        parts.append(f'primary key ({", ".join(key)})')
    return f'create table "{table}" ({", ".join(parts)}) strict'


def index_statements():
    for line in INDEXES.split():
        name, table, columns = line.split('|')
        yield f'create index {name} on {table} ({columns})'


@contextlib.contextmanager
def opened(file):
    """A file in Python's sqlite3, where each statement is a transaction of its own."""
    with contextlib.closing(sqlite3.connect(file, isolation_level=None)) as room:
        yield room


def old_room(file, rows=DAY, indexed=True, journal='delete'):
    """Makes a file of version 1 with these rows."""
    with opened(file) as room:
        room.execute(f'pragma journal_mode = {journal}')
        room.execute('begin')
        for table in TABLES_BEFORE:
            room.execute(table_statement(table))
        for statement in index_statements() if indexed else ():
            room.execute(statement)
        for table, added in rows.items():
            places = ', '.join('?' * len(added[0]))
            room.executemany(f'insert into {table} values ({places})', added)
        room.execute('commit')
    return file


def killed_room(file, rows=DAY):
    """Makes a file of version 1 whose rows stand only in its log, as a program leaves it that was
    killed."""
    living = old_room(file.with_suffix('.living'), NEW, journal='wal')
    with opened(living) as room:
        room.execute('pragma wal_autocheckpoint = 0')
        room.execute('begin')
        for table, added in rows.items():
            room.execute(f'delete from {table}')
            places = ', '.join('?' * len(added[0]))
            room.executemany(f'insert into {table} values ({places})', added)
        room.execute('commit')
        shutil.copy(living, file)
        shutil.copy(f'{living}-wal', f'{file}-wal')
    return file


def all_rows(file):
    """The rows of each table of a file, by its name, in the order of their keys."""
    with opened(file) as room:
        names = [name for name, in room.execute(
            "select name from sqlite_schema where type = 'table' order by rowid")]
        return {name: room.execute(f'select * from "{name}" order by 1, 2').fetchall()
                for name in names}


def rows_after(rows):
    """The rows of a file of version 2 for the room that had these in version 1."""
    (number, _, zone), = rows['meta']
    return {table: rows.get(table, []) for table in TABLES} | {'meta': [(number, 2, zone)]}
