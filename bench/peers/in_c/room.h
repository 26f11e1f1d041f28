/* A room in a file of SQLite: who asks, what is asked, and what is answered. */
#ifndef ROOM_H
#define ROOM_H

#include <stdbool.h>
#include <stddef.h>

#define NUMBER_LIMIT 2147483647LL

enum role { DESK, POSITION, CREW };

/* The refusals that this server gives, by their numbers in docs/HTTP.md. */
enum refusal {
    NO_REFUSAL = 0, NO_SUCH_INCIDENT = 1, INCIDENT_NOT_OPEN = 2, NO_SUCH_VEHICLE = 3,
    VEHICLE_LENT = 4, WRONG_STATUS = 5, SHIFT_OVER = 6, NOT_NEEDED = 7, STILL_ASSIGNED = 9,
    OUTSIDE_AREA = 16, SERIAL_REUSED = 17, NUMBER_REUSED = 18, NUMBERS_USED_UP = 19,
    BAD_MESSAGE = 30, NO_PATH = 36, WRONG_METHOD = 37, NO_TERMINAL = 38, WRONG_ROLE = 39,
    BAD_BODY = 40
};

/* Bytes that stand elsewhere. */
struct slice {
    const char *at;
    size_t length;
};

/* Text that grows: what answers are made of. */
struct text {
    char *at;
    size_t length, room;
};

struct terminal {
    enum role role;
    long long number;
    char callsign[9];
};

struct place {
    long long east, north;
};

struct call_form {
    long long serial, class, needs[3];
    char note[121];
    int note_length;
    struct place place;
};

struct press {
    long long number, button, order;
    struct place place;
};

/* Adds what printf would write. */
void add(struct text *text, const char *form, ...) __attribute__((format(printf, 2, 3)));

/* Each reads a whole body; false where it isn't what its path asks for. */
bool read_call(struct slice body, struct call_form *form);
bool read_press(struct slice body, struct press *press);
bool read_vehicle(struct slice body, char callsign[9]);

/* Opens a room's file and prepares what is asked of it; ends the program where that fails. */
void open_room(const char *path);

/* What is asked between these two is one transaction, which a refusal leaves without a change. */
void begin_asking(void);
void end_asking(enum refusal refused);

bool find_terminal(struct slice token, struct terminal *terminal);

/* What is asked at a moment; each adds its answer to a text, or refuses and adds nothing. */
enum refusal take_call(long long position, const struct call_form *form, long long now,
                       struct text *answer);
enum refusal take_report(const char *callsign, const struct press *press, long long now,
                         struct text *answer);
enum refusal mobilise(long long division, long long incident, const char *callsign, long long now,
                      struct text *answer);
enum refusal close_incident(long long division, long long incident, struct text *answer);
enum refusal propose(long long division, long long incident, long long now, struct text *answer);
enum refusal show_vehicles(long long division, struct text *answer);
enum refusal show_incidents(long long division, struct text *answer);
enum refusal show_queue(long long division, long long now, struct text *answer);

#endif
