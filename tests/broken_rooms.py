"""A room with something of everything, and what another program may do to its file: each agreement
of the rows broken once, and values that no row has."""

# A room with something of everything: A1 is on its way to incident 1, A2 is lent to division 2, A3
# is offered to it, B1 waits at a point; incident 2 was merged into 1, incident 3 is closed.
WORK = """
UPDATE divisions SET last_incident = 3 WHERE number = 1;
INSERT INTO incidents VALUES
  (1, 1, 530000, 180000, 2, 1, 0, 0, 1000, 1200, 0, NULL),
  (1, 2, 531000, 180000, 2, 1, 0, 0, 1100, NULL, 2, 1),
  (1, 3, 540000, 180000, 2, 1, 0, 0, 1050, NULL, 1, NULL);
INSERT INTO calls VALUES
  (1, 1, 1, 1, 1, 0, 530000, 180000, 2, 1, 0, 0, x'', 1000),
  (1, 2, 1, 1, 2, 0, 531000, 180000, 2, 1, 0, 0, x'61', 1100),
  (1, 3, 1, 3, 3, 0, 540000, 180000, 2, 1, 0, 0, x'', 1050);
UPDATE vehicles SET status = 2, shift_end = 9000, last_order = 1, last_report = 4
  WHERE callsign = 'A1';
INSERT INTO turns VALUES ('A1', 1, 1, 1, 1, 1200, NULL, NULL, NULL, NULL, NULL, 0);
INSERT INTO assignments VALUES ('A1', 1, 1, 1, 530000, 180000, 2);
INSERT INTO reports VALUES ('A1', 4, 0, 0, 530300, 180400, 1190, 1, 0, 1, 0);
UPDATE vehicles SET status = 1, holder = 2, shift_end = 9000 WHERE callsign = 'A2';
INSERT INTO loans VALUES ('A2', 1, 2, 1300, 8000, 0);
UPDATE vehicles SET status = 7, shift_end = 9000 WHERE callsign = 'A3';
INSERT INTO offers VALUES ('A3', 1, 2, 1300, 8000);
INSERT INTO points VALUES (2, 1, 560000, 180000, 1);
UPDATE vehicles SET status = 1, shift_end = 9000, post = 1 WHERE callsign = 'B1';
"""

BROKEN = {
    'a vehicle on its way without an assignment': "DELETE FROM assignments",
    'an assignment of a vehicle that waits':
        "INSERT INTO assignments VALUES ('B1', 1, 1, 1, 530000, 180000, 2)",
    'a vehicle on its way without an open turn': "UPDATE turns SET ended = 1300",
    'a turn and an assignment of different incidents': "UPDATE assignments SET incident = 3",
    'a turn and an assignment of different orders': "UPDATE assignments SET ord = 2",
    'an open turn that is not of the last order':
        "UPDATE vehicles SET last_order = 2 WHERE callsign = 'A1'",
    'a turn past the last order': "UPDATE vehicles SET last_order = 0 WHERE callsign = 'A1'",
    'an assignment to a closed incident': "UPDATE incidents SET state = 1 WHERE number = 1",
    'a vehicle on its way that another division holds':
        "UPDATE vehicles SET holder = 2 WHERE callsign = 'A1'",
    'an offered vehicle without an offer': "DELETE FROM offers",
    'an offer of a vehicle that is not offered':
        "UPDATE vehicles SET status = 1 WHERE callsign = 'A3'",
    'an offer to the lender': "UPDATE offers SET borrower = 1",
    'an offer to a division outside the plan': "UPDATE offers SET borrower = 3",
    'an offer by another than the holder': "UPDATE offers SET lender = 2, borrower = 1",
    'a vehicle elsewhere without a loan': "DELETE FROM loans",
    'a loan of a vehicle at home': "INSERT INTO loans VALUES ('C1', 1, 2, 1300, 8000, 0)",
    'a loan to another than the holder': "UPDATE loans SET borrower = 1, lender = 2",
    'an opening that is no call': "UPDATE incidents SET opened = 999 WHERE number = 1",
    'an active incident without a call': "DELETE FROM calls WHERE serial = 3",
    'a merged incident with a call': "UPDATE calls SET incident = 2 WHERE serial = 2",
    'a call of no incident': "UPDATE calls SET incident = 9 WHERE serial = 2",
    'a last report that is none': "UPDATE vehicles SET last_report = 5 WHERE callsign = 'A1'",
    'a report past the last': "UPDATE vehicles SET last_report = 3 WHERE callsign = 'A1'",
    'a post that is no point': "DELETE FROM points",
    'a post of a vehicle on its way': "UPDATE vehicles SET post = 1 WHERE callsign = 'A1'",
    'an incident past the last': "UPDATE divisions SET last_incident = 2 WHERE number = 1",
    'a division outside the plan': "INSERT INTO divisions VALUES (3, 0)",
    'a division of the plan without its row': "DELETE FROM divisions WHERE number = 2",
    'a report of no vehicle': "UPDATE reports SET callsign = 'Z9'",
    'a crew of no vehicle': "INSERT INTO terminals VALUES ('crewofz9', 2, 0, 'Z9')",
    'a vehicle without a crew': "DELETE FROM terminals WHERE callsign = 'C1'",
    'a vehicle with two crews': "INSERT INTO terminals VALUES ('crewofc9', 2, 0, 'C1')",
    'a desk of a division outside the plan':
        "INSERT INTO terminals VALUES ('deskthree', 0, 3, NULL)",
    'no area': "DELETE FROM areas",
    'no zone': "UPDATE meta SET zone = 'no zone'",
    'a table too few': "DROP TABLE offers",
    'a table too many': "CREATE TABLE notes (note TEXT)",
    'an index too many': "CREATE INDEX calls_by_moment ON calls (moment)",
    'a view': "CREATE VIEW lent AS SELECT callsign FROM loans",
}

WRONG = {
    'a class of 9': "UPDATE incidents SET class = 9 WHERE number = 3",
    'a truth value of 2': "UPDATE loans SET recalled = 2",
    'a callsign in small letters': "UPDATE offers SET callsign = 'a3'",
    'a token that is too short': "UPDATE terminals SET token = 'short' WHERE token = 'takerone'",
    'an outcome of 9': "UPDATE reports SET outcome = 9",
    'a status of 8': "UPDATE vehicles SET status = 8 WHERE callsign = 'C1'",
    'a place outside the squares': "UPDATE points SET east = 1",
    'a moment below 0': "UPDATE calls SET moment = -1 WHERE serial = 3",
    'a note of 121 bytes': "UPDATE calls SET note = zeroblob(121) WHERE serial = 3",
    'a division of 10': "UPDATE points SET division = 10",
}
