/* A room served by HTTP/1.1 on loopback, in C over libsqlite3: what bench/peers/run sets beside
   dispatch_room. It serves one connection after another, as that does, until it is killed.
   Usage: room FILE PORT */
#define _GNU_SOURCE
#include "room.h"

#include <arpa/inet.h>
#include <netinet/tcp.h>
#include <signal.h>
#include <stdio.h>
#include <stdlib.h>
#include <string.h>
#include <strings.h>
#include <time.h>
#include <unistd.h>

#define HEAD_LIMIT 8192
#define BODY_LIMIT 1024

/* ---- requests */

struct request {
    struct slice method, path, token, body;
    bool has_token, closes;
};

static bool is_text(struct slice slice, const char *text)
{
    return slice.length == strlen(text) && !memcmp(slice.at, text, slice.length);
}

/* Takes off the part before a separator, and that; false where it is not there. */
static bool cut(struct slice *rest, const char *separator, struct slice *part)
{
    const char *found = memmem(rest->at, rest->length, separator, strlen(separator));
    if (!found)
        return false;
    *part = (struct slice){rest->at, (size_t)(found - rest->at)};
    rest->length -= part->length + strlen(separator);
    rest->at = found + strlen(separator);
    return true;
}

/* A number of at most ten digits; -1 where it is none. */
static long long number_of(struct slice text)
{
    long long number = 0;
    for (size_t at = 0; at < text.length; at++) {
        if (text.at[at] < '0' || text.at[at] > '9')
            return -1;
        number = number * 10 + (text.at[at] - '0');
    }
    return text.length && text.length <= 10 ? number : -1;
}

static bool is_field(struct slice line, const char *name, struct slice *value)
{
    size_t length = strlen(name);
    if (line.length <= length || line.at[length] != ':' || strncasecmp(line.at, name, length))
        return false;
    *value = (struct slice){line.at + length + 1, line.length - length - 1};
    for (; value->length && *value->at == ' '; value->at++)
        value->length--;
    while (value->length && value->at[value->length - 1] == ' ')
        value->length--;
    return true;
}

/* Reads a head, each line of which ends in CR LF; gives the length of its body, or -1. */
static long long read_head(struct slice head, struct request *request)
{
    struct slice line, value;
    long long length = 0;
    *request = (struct request){0};
    if (!cut(&head, "\r\n", &line) || !cut(&line, " ", &request->method)
        || !cut(&line, " ", &request->path) || !is_text(line, "HTTP/1.1"))
        return -1;
    while (cut(&head, "\r\n", &line)) {
        if (is_field(line, "Content-Length", &value))
            length = number_of(value);
        else if (is_field(line, "X-Terminal", &value))
            request->token = value, request->has_token = !request->has_token;
        else if (is_field(line, "Connection", &value))
            request->closes = value.length == 5 && !strncasecmp(value.at, "close", 5);
    }
    return length <= BODY_LIMIT ? length : -1;
}

/* ---- routes */

enum target { CALL, REPORT, QUEUE, VEHICLES, INCIDENTS, PROPOSE, MOBILISE, CLOSE, NOWHERE };

static const struct {
    const char *method, *path; /* what of it follows an incident's number */
    enum role role;
} targets[] = {
    [CALL] = {"POST", "/call", POSITION}, [REPORT] = {"POST", "/report", CREW},
    [QUEUE] = {"GET", "/queue", DESK}, [VEHICLES] = {"GET", "/vehicles", DESK},
    [INCIDENTS] = {"GET", "/incidents", DESK},
    [PROPOSE] = {"GET", "propose", DESK}, [MOBILISE] = {"POST", "mobilise", DESK},
    [CLOSE] = {"POST", "close", DESK}};

/* Takes an incident's number off the front of a path; false where there is none. */
static bool cut_incident(struct slice *path, long long *number)
{
    struct slice before, digits;
    if (!cut(path, "/incidents/", &before) || before.length || !cut(path, "/", &digits))
        return false;
    *number = number_of(digits);
    return *number > 0 && *number <= NUMBER_LIMIT && *digits.at != '0';
}

static enum target find_target(struct slice path, long long *incident)
{
    bool has_incident = cut_incident(&path, incident);
    enum target target = has_incident ? PROPOSE : CALL, end = has_incident ? NOWHERE : PROPOSE;
    while (target < end && !is_text(path, targets[target].path))
        target++;
    return target < end ? target : NOWHERE;
}

/* ---- answers */

static enum refusal ask(enum target target, long long incident, const struct terminal *by,
                        struct slice body, long long now, struct text *answer)
{
    struct call_form form;
    struct press press;
    char name[9];
    switch (target) {
    case CALL:
        return read_call(body, &form) ? take_call(by->number, &form, now, answer) : BAD_BODY;
    case REPORT:
        return read_press(body, &press) ? take_report(by->callsign, &press, now, answer)
                                        : BAD_BODY;
    case MOBILISE:
        return read_vehicle(body, name) ? mobilise(by->number, incident, name, now, answer)
                                        : BAD_BODY;
    case QUEUE: return show_queue(by->number, now, answer);
    case VEHICLES: return show_vehicles(by->number, answer);
    case INCIDENTS: return show_incidents(by->number, answer);
    case PROPOSE: return propose(by->number, incident, now, answer);
    case CLOSE: return close_incident(by->number, incident, answer);
    default: return NO_PATH;
    }
}

static enum refusal answer_request(const struct request *request, long long now,
                                   struct text *answer)
{
    struct terminal by;
    long long incident = 0;
    enum refusal refused;
    enum target target = find_target(request->path, &incident);
    if (target == NOWHERE)
        return NO_PATH;
    if (!is_text(request->method, targets[target].method))
        return WRONG_METHOD;
    begin_asking();
    if (!request->has_token || !find_terminal(request->token, &by))
        refused = NO_TERMINAL;
    else if (by.role != targets[target].role)
        refused = WRONG_ROLE;
    else
        refused = ask(target, incident, &by, request->body, now, answer);
    end_asking(refused);
    return refused;
}

static const struct {
    const char *name, *status;
} refusal_parts[] = {
    [NO_REFUSAL] = {"", "200 OK"},
    [NO_SUCH_INCIDENT] = {"NoSuchIncident", "404 Not Found"},
    [INCIDENT_NOT_OPEN] = {"IncidentNotOpen", "409 Conflict"},
    [NO_SUCH_VEHICLE] = {"NoSuchVehicle", "404 Not Found"},
    [VEHICLE_LENT] = {"VehicleLent", "409 Conflict"},
    [WRONG_STATUS] = {"WrongStatus", "409 Conflict"},
    [SHIFT_OVER] = {"ShiftOver", "409 Conflict"},
    [NOT_NEEDED] = {"NotNeeded", "409 Conflict"},
    [STILL_ASSIGNED] = {"StillAssigned", "409 Conflict"},
    [OUTSIDE_AREA] = {"OutsideArea", "409 Conflict"},
    [SERIAL_REUSED] = {"SerialReused", "409 Conflict"},
    [NUMBER_REUSED] = {"NumberReused", "409 Conflict"},
    [NUMBERS_USED_UP] = {"NumbersUsedUp", "409 Conflict"},
    [BAD_MESSAGE] = {"BadMessage", "400 Bad Request"},
    [NO_PATH] = {"NoPath", "404 Not Found"},
    [WRONG_METHOD] = {"WrongMethod", "405 Method Not Allowed"},
    [NO_TERMINAL] = {"NoTerminal", "403 Forbidden"},
    [WRONG_ROLE] = {"WrongRole", "403 Forbidden"},
    [BAD_BODY] = {"BadBody", "400 Bad Request"}};

/* Makes the message of an answer, of which a refusal has none yet. */
static void make_message(struct text *out, enum refusal refused, bool closes, time_t now,
                         struct text *answer)
{
    char date[40];
    strftime(date, sizeof date, "%a, %d %b %Y %H:%M:%S GMT", gmtime(&now));
    if (refused)
        add(answer, "{\"error\":\"%s\",\"number\":%d}", refusal_parts[refused].name, refused);
    add(out, "HTTP/1.1 %s\r\nDate: %s\r\n%sContent-Type: application/json\r\n"
             "Content-Length: %zu\r\n\r\n%.*s", refusal_parts[refused].status, date,
        closes ? "Connection: close\r\n" : "", answer->length, (int)answer->length, answer->at);
}

/* ---- connections */

static struct {
    int socket;
    char inbox[HEAD_LIMIT + BODY_LIMIT];
    size_t length;
} peer;

static bool receive(void)
{
    ssize_t got = read(peer.socket, peer.inbox + peer.length, sizeof peer.inbox - peer.length);
    if (got > 0)
        peer.length += (size_t)got;
    return got > 0;
}

static bool send_all(const struct text *out)
{
    for (size_t sent = 0; sent < out->length;) {
        ssize_t wrote = write(peer.socket, out->at + sent, out->length - sent);
        if (wrote <= 0)
            return false;
        sent += (size_t)wrote;
    }
    return true;
}

/* Reads the next request, whose bytes stay in the inbox; gives how many they are, or 0 at the end.
   What can't be read is refused with all that came. */
static size_t next_request(struct request *request, enum refusal *refused)
{
    char *end;
    while (!(end = memmem(peer.inbox, peer.length, "\r\n\r\n", 4)))
        if (!receive())
            return 0;
    size_t head = (size_t)(end - peer.inbox) + 4;
    long long body = read_head((struct slice){peer.inbox, head - 2}, request);
    *refused = body < 0 || head > HEAD_LIMIT ? BAD_MESSAGE : NO_REFUSAL;
    if (*refused)
        return peer.length;
    while (peer.length < head + (size_t)body)
        if (!receive())
            return 0;
    request->body = (struct slice){peer.inbox + head, (size_t)body};
    return head + (size_t)body;
}

static void serve(void)
{
    static struct text answer, out;
    struct request request;
    enum refusal refused;
    bool closes = false;
    for (size_t took; !closes && (took = next_request(&request, &refused)) != 0;) {
        time_t now = time(NULL);
        answer.length = out.length = 0;
        closes = refused || request.closes;
        if (!refused)
            refused = answer_request(&request, now, &answer);
        make_message(&out, refused, closes, now, &answer);
        if (!send_all(&out))
            return;
        peer.length -= took;
        memmove(peer.inbox, peer.inbox + took, peer.length);
    }
}

/* ---- the server */

static int listen_at(int port)
{
    int yes = 1, listener = socket(AF_INET, SOCK_STREAM, 0);
    struct sockaddr_in address = {.sin_family = AF_INET, .sin_port = htons((uint16_t)port),
                                  .sin_addr.s_addr = htonl(INADDR_LOOPBACK)};
    setsockopt(listener, SOL_SOCKET, SO_REUSEADDR, &yes, sizeof yes);
    if (bind(listener, (struct sockaddr *)&address, sizeof address) || listen(listener, 64)) {
        perror("room");
        exit(4);
    }
    return listener;
}

int main(int count, char **words)
{
    int yes = 1;
    if (count != 3) {
        fprintf(stderr, "usage: room FILE PORT\n");
        return 2;
    }
    signal(SIGPIPE, SIG_IGN);
    open_room(words[1]);
    int listener = listen_at(atoi(words[2]));
    puts("serving");
    fflush(stdout);
    while ((peer.socket = accept(listener, NULL, NULL)) >= 0) {
        setsockopt(peer.socket, IPPROTO_TCP, TCP_NODELAY, &yes, sizeof yes);
        peer.length = 0;
        serve();
        close(peer.socket);
    }
    return 4;
}
