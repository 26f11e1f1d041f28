-- A room's past and present, for the file of a room that was just made: its plan that of examples/plan.csv, its fleet
-- twenty ambulances of each division, A1 to A20 and B1 to B20. At the moment :now it has :closed incidents behind it, a
-- multiple of 40, which are spread over forty days that ended a day and a half ago, and ten live ones. Both
-- divisions have half of each. In division 1 :waiting more incidents and as many reports out of turn wait to be seen to.

BEGIN;

-- ---- what is over: each incident had a call, a vehicle's turn and three reports

CREATE TEMP TABLE past AS
SELECT value AS nth, value % 2 + 1 AS division, value / 2 + 1 AS number,
  char(65 + value % 2) || (value / 2 % 20 + 1) AS callsign, value / 40 + 1 AS ord,
  500000 + value % 2 * 50000 + value * 7919 % 500 * 100 AS east, 100000 + value * 104729 % 1000 * 100 AS north,
  value % 3 + 1 AS class, :now - 129600 - (:closed - value) * 40 * 86400 / :closed AS opened
FROM generate_series(0, :closed - 1);

INSERT INTO incidents SELECT division, number, east, north, class, 1, 0, 0, opened, opened + 60, 1, NULL FROM past;

INSERT INTO calls
SELECT 1, nth + 1, division, number, number, 0, east, north, class, 1, 0, 0, CAST('call ' || (nth + 1) AS BLOB), opened FROM past;

INSERT INTO turns
SELECT callsign, ord, division, number, 1, opened + 60, opened + 90, opened + 400, NULL, NULL, opened + 1800, 0 FROM past;

-- Mobile, scene and return; in every tenth turn home instead, which leaves a button out. That was seen to.
WITH presses(nth_press, leaves_out, button, after, outcome, status) AS (VALUES
  (1, 0, 1, 90, 0, 2), (2, 0, 2, 400, 0, 3), (3, 0, 5, 1800, 0, 6),
  (1, 1, 1, 90, 0, 2), (2, 1, 2, 400, 0, 3), (3, 1, 6, 1800, 1, 1))
INSERT INTO reports
SELECT callsign, ord * 3 - 3 + nth_press, button, ord, east, north, opened + after, division, outcome, status, outcome
FROM past JOIN presses ON leaves_out = (nth % 10 = 0) ORDER BY nth, nth_press;

-- ---- what is alive: ten incidents, opened one to ten minutes ago; a vehicle is on its way to six of them

CREATE TEMP TABLE live AS
SELECT value AS nth, value % 2 + 1 AS division, :closed / 2 + value / 2 + 1 AS number,
  char(65 + value % 2) || (value / 2 + 1) AS callsign, :closed / 40 + 1 AS ord,
  510000 + value % 2 * 50000 + value * 1000 AS east, 150000 AS north,
  value % 3 + 1 AS class, :now - 60 * (value + 1) AS opened, value < 6 AS is_sent
FROM generate_series(0, 9);

INSERT INTO incidents
SELECT division, number, east, north, class, 1, 0, 0, opened, iif(is_sent, opened + 30, NULL), 0, NULL FROM live;

INSERT INTO calls SELECT 1, :closed + nth + 1, division, number, number, 0, east, north, class, 1, 0, 0, x'', opened FROM live;

INSERT INTO turns SELECT callsign, ord, division, number, 1, opened + 30, NULL, NULL, NULL, NULL, NULL, 0 FROM live WHERE is_sent;

INSERT INTO assignments SELECT callsign, division, number, ord, east, north, class FROM live WHERE is_sent;

UPDATE divisions SET last_incident = :closed / 2 + 5;

-- ---- what waits in division 1: incidents opened in the hours before the last, to which nobody was sent, a call each

CREATE TEMP TABLE waits AS
SELECT value AS nth, :closed / 2 + 6 + value AS number, 500000 + value * 7919 % 500 * 100 AS east,
  150000 + value * 104729 % 500 * 100 AS north, value % 3 + 1 AS class, :now - 3600 - value AS opened
FROM generate_series(0, :waiting - 1);

INSERT INTO incidents SELECT 1, number, east, north, class, 1, 0, 0, opened, NULL, 0, NULL FROM waits;

INSERT INTO calls SELECT 2, nth + 1, 1, number, number, 0, east, north, class, 1, 0, 0, x'', opened FROM waits;

UPDATE divisions SET last_incident = last_incident + :waiting WHERE number = 1;

-- All vehicles are on duty; one of each division holds a standby point, and two sent a report that nobody has seen to.
UPDATE vehicles SET status = 1, shift_end = :now + 8 * 3600, last_order = :closed / 40, last_report = :closed / 40 * 3;

UPDATE vehicles SET status = 2, last_order = last_order + 1 WHERE callsign IN (SELECT callsign FROM live WHERE is_sent);

INSERT INTO points VALUES (1, 1, 520000, 150000, 1), (2, 1, 570000, 150000, 1);

UPDATE vehicles SET post = 1 WHERE callsign IN ('A18', 'B18');

UPDATE vehicles SET last_report = last_report + 1 WHERE callsign IN ('A16', 'A17', 'B16', 'B17');

INSERT INTO reports
SELECT callsign, last_report, 4, last_order, east, north, :now - 120, holder, 2, 1, 0 FROM vehicles
WHERE callsign IN ('A16', 'A17', 'B16', 'B17');

INSERT INTO reports
SELECT callsign, last_report + value, 4, last_order, east, north, :now - 120, holder, 2, 1, 0
FROM vehicles, generate_series(1, :waiting) WHERE callsign = 'A15';

UPDATE vehicles SET last_report = last_report + :waiting WHERE callsign = 'A15';

COMMIT;
