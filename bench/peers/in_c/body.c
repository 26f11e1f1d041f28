/* The text of answers, and what the bodies of requests say, read with libjansson. */
#include "room.h"

#include <jansson.h>
#include <stdarg.h>
#include <stdio.h>
#include <stdlib.h>
#include <string.h>

void add(struct text *text, const char *form, ...)
{
    for (;;) {
        va_list given;
        size_t space = text->room - text->length;
        va_start(given, form);
        size_t length = (size_t)vsnprintf(text->at + text->length, space, form, given);
        va_end(given);
        if (length < space) {
            text->length += length;
            return;
        }
        text->room = (text->room + length + 1) * 2;
        text->at = realloc(text->at, text->room);
        if (!text->at)
            abort();
    }
}

static bool read_square(const char *letters, struct place *corner)
{
    static const struct { char name[3]; struct place corner; } squares[] = {
        {"TQ", {500000, 100000}}, {"TL", {500000, 200000}},
        {"SU", {400000, 100000}}, {"SP", {400000, 200000}}};
    for (int i = 0; i < 4; i++)
        if (!memcmp(letters, squares[i].name, 2))
            return *corner = squares[i].corner, true;
    return false;
}

/* Drops the space that may stand after the letters, and the one between the halves; gives how many
   digits there are, or 0. */
static size_t read_digits(const char *text, size_t length, char digits[10])
{
    size_t count = 0, space = 0;
    for (size_t i = 0; i < length; i++) {
        if (text[i] >= '0' && text[i] <= '9' && count < 10)
            digits[count++] = text[i];
        else if (text[i] == ' ' && count > 0 && !space)
            space = count;
        else if (text[i] != ' ' || i > 0)
            return 0;
    }
    bool is_even = count == 6 || count == 8 || count == 10;
    return is_even && (!space || space * 2 == count) ? count : 0;
}

static bool read_place(const char *text, size_t length, struct place *place)
{
    char digits[10];
    if (length < 2 || !read_square(text, place))
        return false;
    size_t count = read_digits(text + 2, length - 2, digits);
    long long east = 0, north = 0, scale = count == 6 ? 100 : count == 8 ? 10 : 1;
    for (size_t i = 0; i < count / 2; i++) {
        east = east * 10 + (digits[i] - '0');
        north = north * 10 + (digits[count / 2 + i] - '0');
    }
    place->east += east * scale;
    place->north += north * scale;
    return count > 0;
}

static bool is_within(long long number, long long least, long long greatest)
{
    return number >= least && number <= greatest;
}

static bool are_needs(const long long needs[3])
{
    for (int kind = 0; kind < 3; kind++)
        if (!is_within(needs[kind], 0, 9))
            return false;
    return needs[0] + needs[1] + needs[2] > 0;
}

static bool read_button(const char *name, long long *button)
{
    static const char *const names[] = {"position", "mobile", "scene", "leave",
                                        "hospital", "return", "home"};
    for (*button = 0; *button < 7 && strcmp(names[*button], name);)
        ++*button;
    return *button < 7;
}

bool read_call(struct slice body, struct call_form *form)
{
    const char *note, *place;
    size_t note_length, place_length;
    json_t *found = json_loadb(body.at, body.length, 0, NULL);
    bool is_call = !json_unpack_ex(found, NULL, JSON_STRICT, "{s:I, s:[I,I,I], s:s%, s:s%, s:I}",
                                   "class", &form->class, "needs", &form->needs[0],
                                   &form->needs[1], &form->needs[2], "note", &note, &note_length,
                                   "place", &place, &place_length, "serial", &form->serial)
        && is_within(form->class, 1, 3) && are_needs(form->needs) && note_length <= 120
        && read_place(place, place_length, &form->place)
        && is_within(form->serial, 1, NUMBER_LIMIT);
    if (is_call)
        memcpy(form->note, note, (size_t)(form->note_length = (int)note_length));
    json_decref(found);
    return is_call;
}

bool read_press(struct slice body, struct press *press)
{
    const char *button, *place;
    size_t place_length;
    json_t *found = json_loadb(body.at, body.length, 0, NULL);
    bool is_press = !json_unpack_ex(found, NULL, JSON_STRICT, "{s:s, s:I, s:I, s:s%}",
                                    "button", &button, "number", &press->number,
                                    "order", &press->order, "place", &place, &place_length)
        && read_button(button, &press->button) && is_within(press->number, 1, NUMBER_LIMIT)
        && is_within(press->order, 0, NUMBER_LIMIT)
        && read_place(place, place_length, &press->place);
    json_decref(found);
    return is_press;
}

bool read_vehicle(struct slice body, char callsign[9])
{
    static const char letters[] = "ABCDEFGHIJKLMNOPQRSTUVWXYZ0123456789";
    const char *text;
    size_t length;
    json_t *found = json_loadb(body.at, body.length, 0, NULL);
    bool is_callsign = !json_unpack_ex(found, NULL, JSON_STRICT, "{s:s%}",
                                       "vehicle", &text, &length)
        && is_within((long long)length, 1, 8) && strspn(text, letters) == length;
    if (is_callsign)
        memcpy(callsign, text, length + 1);
    json_decref(found);
    return is_callsign;
}
