/* The rules of docs/RULES.md over the tables of docs/FILES.md, a prepared statement a question. */
#include "room.h"

#include <sqlite3.h>
#include <stdarg.h>
#include <stdio.h>
#include <stdlib.h>
#include <string.h>

enum outcome { NORMAL, SKIPPED, WRONG, LATE, STALE };
enum button { POSITION_BUTTON, MOBILE, SCENE, LEAVE, HOSPITAL, RETURN, HOME };
enum status { OFF_DUTY, AVAILABLE, MOBILISED, AT_SCENE, LEAVING, AT_HOSPITAL, RETURNING, OFFERED };

/* ---- statements */

#define SERVED "(ended IS NULL OR scene IS NOT NULL OR left_at IS NOT NULL" \
    " OR hospital IS NOT NULL)"
#define SERVED_OF(KIND) ", (SELECT count(*) FROM turns" \
    " WHERE incident = i.number AND division = i.division AND kind = " KIND " AND " SERVED ")"

enum statement {
    BEGIN, COMMIT, ROLLBACK, TERMINAL,
    KEPT_CALL, DIVISION_OF, NEAR, LINK, LAST_INCIDENT, SET_LAST_INCIDENT, PUT_INCIDENT, PUT_CALL,
    KEPT_REPORT, VEHICLE, OPEN_TURN, DUE_LOAN, PUT_REPORT, COUNT_REPORT, MOVE_VEHICLE, SEND_BACK,
    DROP_LOAN, SET_MOBILE, SET_SCENE, SET_LEFT, SET_HOSPITAL, END_TURN, DROP_ASSIGNMENT,
    INCIDENT, SERVED_BY, LENT, SEND_VEHICLE, FIRST_ORDER, PUT_TURN, PUT_ASSIGNMENT, ATTENDED,
    CLOSE, ELIGIBLE, VEHICLES, INCIDENTS, QUEUE, STATEMENTS
};

static const char *const texts[STATEMENTS] = {
    [BEGIN] = "BEGIN",
    [COMMIT] = "COMMIT",
    [ROLLBACK] = "ROLLBACK",
    [TERMINAL] = "SELECT role, number, callsign FROM terminals WHERE token = ?1",
    [KEPT_CALL] = "SELECT division, given, linked, east = ?3 AND north = ?4 AND class = ?5"
        " AND need1 = ?6 AND need2 = ?7 AND need3 = ?8 AND note = ?9 FROM calls"
        " WHERE position = ?1 AND serial = ?2",
    [DIVISION_OF] = "SELECT min(division) FROM areas"
        " WHERE ?1 BETWEEN west AND east AND ?2 BETWEEN south AND north",
    [NEAR] = "SELECT number, east, north FROM incidents INDEXED BY incidents_by_opening"
        " WHERE opened >= ?2 AND division = ?1 AND state = 0"
        " AND east BETWEEN ?3 - 200 AND ?3 + 200 AND north BETWEEN ?4 - 200 AND ?4 + 200",
    [LINK] = "UPDATE incidents SET class = min(class, ?3), need1 = max(need1, ?4),"
        " need2 = max(need2, ?5), need3 = max(need3, ?6), opened = min(opened, ?7)"
        " WHERE division = ?1 AND number = ?2",
    [LAST_INCIDENT] = "SELECT last_incident FROM divisions WHERE number = ?1",
    [SET_LAST_INCIDENT] = "UPDATE divisions SET last_incident = ?2 WHERE number = ?1",
    [PUT_INCIDENT] = "INSERT INTO incidents"
        " VALUES (?1, ?2, ?3, ?4, ?5, ?6, ?7, ?8, ?9, NULL, 0, NULL)",
    [PUT_CALL] = "INSERT INTO calls"
        " VALUES (?1, ?2, ?3, ?4, ?4, ?5, ?6, ?7, ?8, ?9, ?10, ?11, ?12, ?13)",
    [KEPT_REPORT] = "SELECT outcome, status, button = ?3 AND ord = ?4 AND east = ?5 AND north = ?6"
        " FROM reports WHERE callsign = ?1 AND number = ?2",
    [VEHICLE] = "SELECT holder, kind, status, shift_end, last_order, last_report FROM vehicles"
        " WHERE callsign = ?1",
    [OPEN_TURN] = "SELECT acknowledged IS NOT NULL FROM turns"
        " WHERE callsign = ?1 AND ord = ?2 AND ended IS NULL",
    [DUE_LOAN] = "SELECT lender FROM loans WHERE callsign = ?1 AND (recalled OR until < ?2)",
    [PUT_REPORT] = "INSERT INTO reports VALUES (?1, ?2, ?3, ?4, ?5, ?6, ?7, ?8, ?9, ?10, 0)",
    [COUNT_REPORT] = "UPDATE vehicles SET last_report = max(last_report, ?2) WHERE callsign = ?1",
    [MOVE_VEHICLE] = "UPDATE vehicles SET last_report = max(last_report, ?2), status = ?3,"
        " east = ?4, north = ?5 WHERE callsign = ?1",
    [SEND_BACK] = "UPDATE vehicles SET holder = ?2, post = NULL WHERE callsign = ?1",
    [DROP_LOAN] = "DELETE FROM loans WHERE callsign = ?1",
    [SET_MOBILE] = "UPDATE turns SET acknowledged = ifnull(acknowledged, ?3)"
        " WHERE callsign = ?1 AND ord = ?2",
    [SET_SCENE] = "UPDATE turns SET scene = ifnull(scene, ?3) WHERE callsign = ?1 AND ord = ?2",
    [SET_LEFT] = "UPDATE turns SET left_at = ifnull(left_at, ?3) WHERE callsign = ?1 AND ord = ?2",
    [SET_HOSPITAL] = "UPDATE turns SET hospital = ifnull(hospital, ?3)"
        " WHERE callsign = ?1 AND ord = ?2",
    [END_TURN] = "UPDATE turns SET ended = ?3 WHERE callsign = ?1 AND ord = ?2",
    [DROP_ASSIGNMENT] = "DELETE FROM assignments WHERE callsign = ?1",
    [INCIDENT] = "SELECT state, east, north, class, need1, need2, need3 FROM incidents"
        " WHERE division = ?1 AND number = ?2",
    [SERVED_BY] = "SELECT kind, count(*) FROM turns WHERE division = ?1 AND incident = ?2"
        " AND " SERVED " GROUP BY kind",
    [LENT] = "SELECT 1 FROM loans WHERE callsign = ?1 AND lender = ?2",
    [SEND_VEHICLE] = "UPDATE vehicles SET status = 2, post = NULL, last_order = ?2"
        " WHERE callsign = ?1",
    [FIRST_ORDER] = "UPDATE incidents SET first_order = ifnull(first_order, ?3)"
        " WHERE division = ?1 AND number = ?2",
    [PUT_TURN] = "INSERT INTO turns"
        " VALUES (?1, ?2, ?3, ?4, ?5, ?6, NULL, NULL, NULL, NULL, NULL, 0)",
    [PUT_ASSIGNMENT] = "INSERT INTO assignments VALUES (?1, ?2, ?3, ?4, ?5, ?6, ?7)",
    [ATTENDED] = "SELECT 1 FROM turns WHERE division = ?1 AND incident = ?2 AND ended IS NULL",
    [CLOSE] = "UPDATE incidents SET state = 1 WHERE division = ?1 AND number = ?2",
    [ELIGIBLE] = "SELECT v.callsign, v.kind, v.east, v.north, v.post IS NOT NULL AND EXISTS ("
        " SELECT 1 FROM points p WHERE p.division = v.holder AND p.number = v.post"
        " AND p.cover >= (SELECT count(*) FROM vehicles w WHERE w.holder = v.holder"
        " AND w.status IN (1, 6) AND w.shift_end > ?2 AND w.post = v.post))"
        " FROM vehicles v WHERE v.holder = ?1 AND v.status IN (1, 6) AND v.shift_end > ?2",
    [VEHICLES] = "SELECT v.home, ifnull(a.incident, 'null'), v.kind, v.east, v.north,"
        " ifnull(v.post, 'null'), v.shift_end, v.status, v.callsign"
        " FROM vehicles v LEFT JOIN assignments a ON a.callsign = v.callsign"
        " WHERE v.holder = ?1 ORDER BY v.callsign",
    [INCIDENTS] = "SELECT number, east, north, class, need1, need2, need3, opened,"
        " (SELECT count(*) FROM calls WHERE incident = i.number AND division = i.division)"
        SERVED_OF("1") SERVED_OF("2") SERVED_OF("3")
        " FROM incidents i WHERE state = 0 AND division = ?1 ORDER BY number",
    [QUEUE] = "SELECT 1 AS rank, opened AS since, number, '' AS callsign FROM incidents i"
        " WHERE state = 0 AND division = ?1 AND opened < ?2 - 180 AND NOT EXISTS ("
        "  SELECT 1 FROM turns WHERE incident = i.number AND division = i.division AND " SERVED ")"
        " UNION ALL SELECT 2, t.ordered, t.incident, v.callsign"
        " FROM vehicles v JOIN turns t ON t.callsign = v.callsign AND t.ord = v.last_order"
        " WHERE v.holder = ?1 AND v.status = 2 AND t.acknowledged IS NULL AND t.ordered < ?2 - 60"
        " UNION ALL SELECT 3, i.opened, i.number, v.callsign"
        " FROM vehicles v JOIN assignments a ON a.callsign = v.callsign"
        " JOIN incidents i ON i.division = a.division AND i.number = a.incident"
        " WHERE v.holder = ?1 AND v.status = 2"
        " AND i.opened < ?2 - CASE i.class WHEN 1 THEN 480 WHEN 2 THEN 840 ELSE 3600 END"
        " UNION ALL SELECT 4, moment, number, callsign FROM reports"
        " WHERE outcome IN (1, 2, 3, 4) AND cleared = 0 AND division = ?1"
        " UNION ALL SELECT 5, until, iif(lender = ?1, borrower, lender), callsign FROM loans"
        " WHERE (lender = ?1 OR borrower = ?1) AND until < ?2"
        " UNION ALL SELECT 6, shift_end, 0, callsign FROM vehicles"
        " WHERE holder = ?1 AND status <> 0 AND shift_end <= ?2"
        " UNION ALL SELECT 7, 0, number, '' FROM points p WHERE division = ?1 AND cover > ("
        "  SELECT count(*) FROM vehicles WHERE holder = ?1 AND status IN (1, 6)"
        "  AND shift_end > ?2 AND post = p.number)"
        " UNION ALL SELECT 8, since, iif(lender = ?1, borrower, lender), callsign FROM offers"
        " WHERE (lender = ?1 OR borrower = ?1) AND since < ?2 - 300"
        " ORDER BY 1, 2, 3, 4"};

static sqlite3 *file;
static sqlite3_stmt *statements[STATEMENTS];

/* A fault of the file ends the server: what was not committed never was. */
static void expect(bool went_well)
{
    if (!went_well) {
        fprintf(stderr, "room: %s\n", sqlite3_errmsg(file));
        exit(3);
    }
}

void open_room(const char *path)
{
    expect(sqlite3_open_v2(path, &file, SQLITE_OPEN_READWRITE, NULL) == SQLITE_OK);
    expect(sqlite3_exec(file, "PRAGMA locking_mode = EXCLUSIVE; PRAGMA journal_mode = WAL;"
                              " PRAGMA synchronous = FULL; PRAGMA wal_autocheckpoint = 8192",
                              NULL, NULL, NULL) == SQLITE_OK);
    for (int which = 0; which < STATEMENTS; which++)
        expect(sqlite3_prepare_v3(file, texts[which], -1, SQLITE_PREPARE_PERSISTENT,
                                  &statements[which], NULL) == SQLITE_OK);
}

/* Binds parameters by a form: i a whole number, s a text, n the note of a call. */
static sqlite3_stmt *bound(enum statement which, const char *form, ...)
{
    sqlite3_stmt *it = statements[which];
    const struct call_form *call;
    va_list given;
    va_start(given, form);
    for (int at = 1; *form; form++, at++) {
        int result = SQLITE_MISUSE;
        if (*form == 'i')
            result = sqlite3_bind_int64(it, at, va_arg(given, long long));
        else if (*form == 's')
            result = sqlite3_bind_text(it, at, va_arg(given, const char *), -1, SQLITE_STATIC);
        else if (*form == 'n' && (call = va_arg(given, const struct call_form *)))
            result = sqlite3_bind_blob(it, at, call->note, call->note_length, SQLITE_STATIC);
        expect(result == SQLITE_OK);
    }
    va_end(given);
    return it;
}

static bool next(sqlite3_stmt *statement)
{
    int result = sqlite3_step(statement);
    if (result == SQLITE_ROW)
        return true;
    sqlite3_reset(statement);
    expect(result == SQLITE_DONE);
    return false;
}

/* Runs a statement of which no row is wanted; gives whether there was one. */
static bool run(sqlite3_stmt *statement)
{
    bool found = next(statement);
    sqlite3_reset(statement);
    return found;
}

static long long number_in(sqlite3_stmt *row, int column)
{
    return sqlite3_column_int64(row, column);
}

static const char *text_in(sqlite3_stmt *row, int column)
{
    return (const char *)sqlite3_column_text(row, column);
}

/* The number in the first column of the only row, or another where there is none. */
static long long number_or(long long other, sqlite3_stmt *statement)
{
    long long number = next(statement) ? number_in(statement, 0) : other;
    sqlite3_reset(statement);
    return number;
}

void begin_asking(void)
{
    run(statements[BEGIN]);
}

void end_asking(enum refusal refused)
{
    run(statements[refused ? ROLLBACK : COMMIT]);
}

bool find_terminal(struct slice token, struct terminal *terminal)
{
    sqlite3_stmt *row = statements[TERMINAL];
    expect(sqlite3_bind_text(row, 1, token.at, (int)token.length, SQLITE_STATIC) == SQLITE_OK);
    bool found = next(row);
    if (found) {
        const char *callsign = text_in(row, 2);
        terminal->role = (enum role)number_in(row, 0);
        terminal->number = number_in(row, 1);
        snprintf(terminal->callsign, sizeof terminal->callsign, "%s", callsign ? callsign : "");
    }
    sqlite3_reset(row);
    return found;
}

/* ---- calls */

/* The greatest whole number of metres whose square is no more. */
static long long distance(struct place place, struct place other)
{
    long long east = place.east - other.east, north = place.north - other.north;
    long long square = east * east + north * north;
    long long root = (long long)__builtin_sqrt((double)square);
    while (root * root > square)
        root--;
    while ((root + 1) * (root + 1) <= square)
        root++;
    return root;
}

static enum refusal answer_call(struct text *answer, long long division, long long incident,
                                bool linked)
{
    add(answer, "{\"division\":%lld,\"incident\":%lld,\"linked\":%s}", division, incident,
        linked ? "true" : "false");
    return NO_REFUSAL;
}

/* Whether the serial is kept: then the kept answer is given, or the call is refused. */
static bool is_kept_call(long long position, const struct call_form *form, struct text *answer,
                         enum refusal *refused)
{
    sqlite3_stmt *row = bound(KEPT_CALL, "iiiiiiiin", position, form->serial, form->place.east,
                              form->place.north, form->class, form->needs[0], form->needs[1],
                              form->needs[2], form);
    bool found = next(row);
    if (found)
        *refused = number_in(row, 3)
            ? answer_call(answer, number_in(row, 0), number_in(row, 1), number_in(row, 2))
            : SERIAL_REUSED;
    sqlite3_reset(row);
    return found;
}

/* The incident that a call is linked to, or 0. */
static long long link_target(long long division, struct place place, long long now)
{
    sqlite3_stmt *row = bound(NEAR, "iiii", division, now - 900, place.east, place.north);
    long long nearest = 201, target = 0;
    while (next(row)) {
        long long number = number_in(row, 0);
        long long metres = distance(place, (struct place){number_in(row, 1), number_in(row, 2)});
        if (metres < nearest || (metres == nearest && target && number < target))
            nearest = metres, target = number;
    }
    return target;
}

/* Gives the incident's number, or one above the limit where they are used up. */
static long long new_incident(long long division, const struct call_form *form, long long now)
{
    long long number = 1 + number_or(NUMBER_LIMIT, bound(LAST_INCIDENT, "i", division));
    if (number > NUMBER_LIMIT)
        return number;
    run(bound(SET_LAST_INCIDENT, "ii", division, number));
    run(bound(PUT_INCIDENT, "iiiiiiiii", division, number, form->place.east, form->place.north,
              form->class, form->needs[0], form->needs[1], form->needs[2], now));
    return number;
}

enum refusal take_call(long long position, const struct call_form *form, long long now,
                       struct text *answer)
{
    enum refusal refused;
    const long long *needs = form->needs;
    struct place place = form->place;
    if (is_kept_call(position, form, answer, &refused))
        return refused;
    long long division = number_or(0, bound(DIVISION_OF, "ii", place.east, place.north));
    if (!division)
        return OUTSIDE_AREA;
    long long incident = link_target(division, place, now), linked = incident != 0;
    if (linked)
        run(bound(LINK, "iiiiiii", division, incident, form->class, needs[0], needs[1], needs[2],
                  now));
    else
        incident = new_incident(division, form, now);
    if (incident > NUMBER_LIMIT)
        return NUMBERS_USED_UP;
    run(bound(PUT_CALL, "iiiiiiiiiiini", position, form->serial, division, incident, linked,
              place.east, place.north, form->class, needs[0], needs[1], needs[2], form, now));
    return answer_call(answer, division, incident, linked);
}

/* ---- reports */

struct vehicle {
    long long holder, kind, status, shift_end, last_order, last_report;
};

static bool find_vehicle(const char *callsign, struct vehicle *vehicle)
{
    sqlite3_stmt *row = bound(VEHICLE, "s", callsign);
    bool found = next(row);
    if (found)
        *vehicle = (struct vehicle){number_in(row, 0), number_in(row, 1), number_in(row, 2),
                                    number_in(row, 3), number_in(row, 4), number_in(row, 5)};
    sqlite3_reset(row);
    return found;
}

/* What a button comes to at a status; of Scene at a mobilised vehicle more is asked below. */
static const enum outcome pressed[8][7] = {
    /* Position  Mobile   Scene    Leave    Hospital Return   Home */
    {WRONG,      WRONG,   WRONG,   WRONG,   WRONG,   WRONG,   WRONG},
    {NORMAL,     WRONG,   WRONG,   WRONG,   WRONG,   WRONG,   NORMAL},
    {NORMAL,     NORMAL,  NORMAL,  SKIPPED, SKIPPED, SKIPPED, SKIPPED},
    {NORMAL,     WRONG,   NORMAL,  NORMAL,  SKIPPED, NORMAL,  SKIPPED},
    {NORMAL,     WRONG,   WRONG,   NORMAL,  NORMAL,  SKIPPED, SKIPPED},
    {NORMAL,     WRONG,   WRONG,   WRONG,   NORMAL,  NORMAL,  SKIPPED},
    {NORMAL,     WRONG,   WRONG,   WRONG,   WRONG,   NORMAL,  NORMAL},
    {NORMAL,     WRONG,   WRONG,   WRONG,   WRONG,   WRONG,   NORMAL}};

/* The open turn of a vehicle, which is that of its last order. */
enum turn { NO_TURN, UNACKNOWLEDGED, ACKNOWLEDGED };

static enum turn open_turn(const char *callsign, long long last_order)
{
    long long found = number_or(-1, bound(OPEN_TURN, "si", callsign, last_order));
    return found < 0 ? NO_TURN : found ? ACKNOWLEDGED : UNACKNOWLEDGED;
}

static enum outcome outcome_of(const struct vehicle *vehicle, enum turn turn,
                               const struct press *press)
{
    bool is_of_order = press->button >= MOBILE && press->button <= RETURN;
    if (press->number < vehicle->last_report)
        return LATE;
    if (is_of_order && press->order != vehicle->last_order)
        return STALE;
    if (vehicle->status == MOBILISED && press->button == SCENE && turn != ACKNOWLEDGED)
        return SKIPPED;
    return pressed[vehicle->status][press->button];
}

static long long status_after(long long status, long long button)
{
    static const enum status after[] = {
        [SCENE] = AT_SCENE, [LEAVE] = LEAVING, [HOSPITAL] = AT_HOSPITAL, [RETURN] = RETURNING,
        [HOME] = AVAILABLE};
    return button < SCENE || (button == HOME && status == OFFERED) ? status : after[button];
}

/* What a report that acts does beside being kept. */
static void act(const char *callsign, long long order, enum turn turn, const struct press *press,
                long long status, long long now)
{
    static const enum statement sets[] = {
        [MOBILE] = SET_MOBILE, [SCENE] = SET_SCENE, [LEAVE] = SET_LEFT, [HOSPITAL] = SET_HOSPITAL,
        [RETURN] = END_TURN, [HOME] = END_TURN};
    if (turn && press->button != POSITION_BUTTON)
        run(bound(sets[press->button], "sii", callsign, order, now));
    if (turn && press->button >= RETURN)
        run(bound(DROP_ASSIGNMENT, "s", callsign));
    run(bound(MOVE_VEHICLE, "siiii", callsign, press->number, status, press->place.east,
              press->place.north));
    if (press->button != HOME)
        return;
    long long lender = number_or(0, bound(DUE_LOAN, "si", callsign, now));
    if (lender) {
        run(bound(SEND_BACK, "si", callsign, lender));
        run(bound(DROP_LOAN, "s", callsign));
    }
}

static enum refusal answer_report(struct text *answer, long long number, long long outcome,
                                  long long status)
{
    static const char *const names[] = {"normal", "skipped", "wrong", "late", "stale"};
    add(answer, "{\"number\":%lld,\"outcome\":\"%s\",\"status\":%lld}", number, names[outcome],
        status);
    return NO_REFUSAL;
}

static bool is_kept_report(const char *callsign, const struct press *press, struct text *answer,
                           enum refusal *refused)
{
    sqlite3_stmt *row = bound(KEPT_REPORT, "siiiii", callsign, press->number, press->button,
                              press->order, press->place.east, press->place.north);
    bool found = next(row);
    if (found)
        *refused = number_in(row, 2)
            ? answer_report(answer, press->number, number_in(row, 0), number_in(row, 1))
            : NUMBER_REUSED;
    sqlite3_reset(row);
    return found;
}

enum refusal take_report(const char *callsign, const struct press *press, long long now,
                         struct text *answer)
{
    enum refusal refused;
    struct vehicle vehicle;
    if (is_kept_report(callsign, press, answer, &refused))
        return refused;
    expect(find_vehicle(callsign, &vehicle));
    enum turn turn = open_turn(callsign, vehicle.last_order);
    long long outcome = outcome_of(&vehicle, turn, press), status = vehicle.status;
    bool acts = outcome == NORMAL || outcome == SKIPPED;
    if (acts)
        status = status_after(status, press->button);
    run(bound(PUT_REPORT, "siiiiiiiii", callsign, press->number, press->button, press->order,
              press->place.east, press->place.north, now, vehicle.holder, outcome, status));
    if (acts)
        act(callsign, vehicle.last_order, turn, press, status, now);
    else
        run(bound(COUNT_REPORT, "si", callsign, press->number));
    return answer_report(answer, press->number, outcome, status);
}

/* ---- incidents */

struct incident {
    long long state, class, lack[3];
    struct place place;
};

/* An active incident, with what it lacks of each kind. */
static enum refusal find_active(long long division, long long number, struct incident *incident)
{
    sqlite3_stmt *row = bound(INCIDENT, "ii", division, number);
    if (!next(row))
        return NO_SUCH_INCIDENT;
    *incident = (struct incident){
        .state = number_in(row, 0), .place = {number_in(row, 1), number_in(row, 2)},
        .class = number_in(row, 3), .lack = {number_in(row, 4), number_in(row, 5),
                                             number_in(row, 6)}};
    sqlite3_reset(row);
    if (incident->state != 0)
        return INCIDENT_NOT_OPEN;
    for (row = bound(SERVED_BY, "ii", division, number); next(row);) {
        long long *lack = &incident->lack[number_in(row, 0) - 1], served = number_in(row, 1);
        *lack = *lack > served ? *lack - served : 0;
    }
    return NO_REFUSAL;
}

/* Why a desk may not send a vehicle that it names. */
static enum refusal test_vehicle(long long division, const struct incident *incident,
                                 const char *callsign, long long now, struct vehicle *vehicle)
{
    if (!find_vehicle(callsign, vehicle) || vehicle->holder != division)
        return run(bound(LENT, "si", callsign, division)) ? VEHICLE_LENT : NO_SUCH_VEHICLE;
    if (vehicle->status != AVAILABLE && vehicle->status != RETURNING)
        return WRONG_STATUS;
    if (vehicle->shift_end <= now)
        return SHIFT_OVER;
    if (!incident->lack[vehicle->kind - 1])
        return NOT_NEEDED;
    return vehicle->last_order >= NUMBER_LIMIT ? NUMBERS_USED_UP : NO_REFUSAL;
}

enum refusal mobilise(long long division, long long number, const char *callsign, long long now,
                      struct text *answer)
{
    struct incident incident;
    struct vehicle vehicle;
    enum refusal refused = find_active(division, number, &incident);
    if (!refused)
        refused = test_vehicle(division, &incident, callsign, now, &vehicle);
    if (refused)
        return refused;
    long long order = vehicle.last_order + 1;
    run(bound(FIRST_ORDER, "iii", division, number, now));
    run(bound(SEND_VEHICLE, "si", callsign, order));
    run(bound(PUT_TURN, "siiiii", callsign, order, division, number, vehicle.kind, now));
    run(bound(PUT_ASSIGNMENT, "siiiiii", callsign, division, number, order, incident.place.east,
              incident.place.north, incident.class));
    add(answer, "{\"order\":%lld,\"vehicle\":\"%s\"}", order, callsign);
    return NO_REFUSAL;
}

enum refusal close_incident(long long division, long long number, struct text *answer)
{
    struct incident incident;
    enum refusal refused = find_active(division, number, &incident);
    if (!refused && run(bound(ATTENDED, "ii", division, number)))
        refused = STILL_ASSIGNED;
    if (refused)
        return refused;
    run(bound(CLOSE, "ii", division, number));
    add(answer, "{\"done\":true}");
    return NO_REFUSAL;
}

/* ---- proposals */

struct proposal {
    bool breaks;
    long long distance, kind;
    char callsign[9];
};

static struct proposal *proposals;
static size_t proposal_room;

static int by_worth(const void *left, const void *right)
{
    const struct proposal *one = left, *other = right;
    if (one->kind != other->kind)
        return one->kind < other->kind ? -1 : 1;
    if (one->breaks != other->breaks)
        return one->breaks ? 1 : -1;
    if (one->distance != other->distance)
        return one->distance < other->distance ? -1 : 1;
    return strcmp(one->callsign, other->callsign);
}

static struct proposal *new_proposal(size_t count)
{
    if (count == proposal_room) {
        proposal_room = proposal_room * 2 + 64;
        proposals = realloc(proposals, proposal_room * sizeof *proposals);
        if (!proposals)
            abort();
    }
    return &proposals[count];
}

/* The eligible vehicles of the kinds that an incident lacks, best first; gives how many. */
static size_t find_proposals(long long division, const struct incident *incident, long long now)
{
    size_t count = 0;
    for (sqlite3_stmt *row = bound(ELIGIBLE, "ii", division, now); next(row);) {
        struct place place = {number_in(row, 2), number_in(row, 3)};
        if (!incident->lack[number_in(row, 1) - 1])
            continue;
        struct proposal *found = new_proposal(count++);
        found->kind = number_in(row, 1);
        found->distance = distance(incident->place, place);
        found->breaks = number_in(row, 4);
        snprintf(found->callsign, sizeof found->callsign, "%s", text_in(row, 0));
    }
    if (count)
        qsort(proposals, count, sizeof *proposals, by_worth);
    return count;
}

enum refusal propose(long long division, long long number, long long now, struct text *answer)
{
    struct incident incident;
    enum refusal refused = find_active(division, number, &incident);
    if (refused)
        return refused;
    size_t count = find_proposals(division, &incident, now);
    const char *before = "";
    add(answer, "{\"proposals\":[");
    for (const struct proposal *it = proposals; it < proposals + count; it++) {
        if (incident.lack[it->kind - 1]-- <= 0)
            continue;
        add(answer, "%s{\"breaks\":%s,\"distance\":%lld,\"kind\":%lld,\"vehicle\":\"%s\"}",
            before, it->breaks ? "true" : "false", it->distance, it->kind, it->callsign);
        before = ",";
    }
    add(answer, "]}");
    return NO_REFUSAL;
}

/* ---- lists */

enum refusal show_vehicles(long long division, struct text *answer)
{
    const char *before = "";
    add(answer, "{\"vehicles\":[");
    for (sqlite3_stmt *row = bound(VEHICLES, "i", division); next(row); before = ",")
        add(answer, "%s{\"home\":%lld,\"incident\":%s,\"kind\":%lld,\"place\":[%lld,%lld],"
                    "\"post\":%s,\"shift_end\":%lld,\"status\":%lld,\"vehicle\":\"%s\"}",
            before, number_in(row, 0), text_in(row, 1), number_in(row, 2), number_in(row, 3),
            number_in(row, 4), text_in(row, 5), number_in(row, 6), number_in(row, 7),
            text_in(row, 8));
    add(answer, "]}");
    return NO_REFUSAL;
}

enum refusal show_incidents(long long division, struct text *answer)
{
    const char *before = "";
    add(answer, "{\"incidents\":[");
    for (sqlite3_stmt *row = bound(INCIDENTS, "i", division); next(row); before = ",") {
        long long needs[3], lack[3];
        for (int kind = 0; kind < 3; kind++) {
            long long served = number_in(row, 9 + kind);
            needs[kind] = number_in(row, 4 + kind);
            lack[kind] = needs[kind] > served ? needs[kind] - served : 0;
        }
        add(answer, "%s{\"calls\":%lld,\"class\":%lld,\"lack\":[%lld,%lld,%lld],"
                    "\"needs\":[%lld,%lld,%lld],\"number\":%lld,\"opened\":%lld,"
                    "\"place\":[%lld,%lld]}",
            before, number_in(row, 8), number_in(row, 3), lack[0], lack[1], lack[2], needs[0],
            needs[1], needs[2], number_in(row, 0), number_in(row, 7), number_in(row, 1),
            number_in(row, 2));
    }
    add(answer, "]}");
    return NO_REFUSAL;
}

enum refusal show_queue(long long division, long long now, struct text *answer)
{
    const char *before = "";
    add(answer, "{\"queue\":[");
    for (sqlite3_stmt *row = bound(QUEUE, "ii", division, now); next(row); before = ",")
        add(answer, "%s{\"number\":%lld,\"rank\":%lld,\"since\":%lld,\"vehicle\":\"%s\"}",
            before, number_in(row, 2), number_in(row, 0), number_in(row, 1), text_in(row, 3));
    add(answer, "]}");
    return NO_REFUSAL;
}
