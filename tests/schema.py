"""The tables and indexes of a room's file, as sqlite3 gives them, and the rows that stay as they
are made of the example's plan and fleet."""

# The tables in the order in which they are made: how many of their first columns are the key, and
# their columns. A column is a whole number where no type is given; one with a question mark may be
# NULL.
TABLES = {
    'meta': (1, 'id version zone:TEXT'),
    'areas': (1, 'n division west south east north'),
    'terminals': (1, 'token:TEXT role number callsign:TEXT?'),
    'divisions': (1, 'number last_incident'),
    'incidents': (2, 'division number east north class need1 need2 need3 opened first_order? '
                     'state into_number?'),
    'calls': (2, 'position serial division incident given linked east north class need1 need2 '
                 'need3 note:BLOB moment'),
    'vehicles': (1, 'callsign:TEXT home holder kind east north status shift_end post? last_order '
                    'last_report'),
    'turns': (2, 'callsign:TEXT ord division incident kind ordered acknowledged? scene? left_at? '
                 'hospital? ended? stood_down'),
    'assignments': (1, 'callsign:TEXT division incident ord east north class'),
    'points': (2, 'division number east north cover'),
    'loans': (1, 'callsign:TEXT lender borrower since until recalled'),
    'reports': (2, 'callsign:TEXT number button ord east north moment division outcome status '
                   'cleared'),
    'offers': (1, 'callsign:TEXT lender borrower since until'),
}

INDEXES = """incidents_by_state|incidents|state,division
incidents_by_opening|incidents|opened,division
calls_by_incident|calls|incident,division
turns_by_incident|turns|incident,division
reports_by_outcome|reports|outcome,cleared,division
"""

# The columns of each index, in the order in which they were made.
INDEX_QUERY = """
SELECT it.name, tbl_name, (SELECT group_concat(name) FROM pragma_index_info(it.name))
FROM sqlite_schema AS it WHERE type = 'index' AND sql IS NOT NULL ORDER BY it.rowid
"""

# The rows of these tables, in the order of their keys.
PLAN_ROWS = {
    'meta': [(1, 2, 'GMT0BST,M3.5.0/1,M10.5.0')],
    'areas': [
        (1, 1, 500000, 100000, 549999, 199999),
        (2, 2, 550000, 100000, 599999, 199999)],
    'terminals': [
        ('crewofa1', 2, 0, 'A1'), ('crewofa2', 2, 0, 'A2'), ('crewofa3', 2, 0, 'A3'),
        ('crewofb1', 2, 0, 'B1'), ('crewofc1', 2, 0, 'C1'), ('deskone1', 0, 1, None),
        ('desktwo2', 0, 2, None), ('takerone', 1, 1, None)],
}


def lines(rows, written, between):
    """Rows as sqlite3 prints them, with their values written so and what is between each two."""
    return ''.join(between.join(written(value) for value in row) + '\n' for row in rows)


def columns_of(key, columns):
    """The columns of a table: name, type, whether it is never NULL, its place in the key."""
    for place, column in enumerate(columns.split(), 1):
        name, _, kind = column.rstrip('?').partition(':')
        yield name, kind or 'INTEGER', int(not column.endswith('?')), place if place <= key else 0
