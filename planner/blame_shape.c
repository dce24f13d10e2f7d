#include "blame.h"

#include "forms.h"

#include <string.h>

static bool has_blank(const struct field *field)
{
    return memchr(field->begin, ' ', field->length) != NULL;
}

static bool is_all_digits(const struct field *field)
{
    size_t at = 0;

    while (at < field->length && '0' <= field->begin[at] && field->begin[at] <= '9') {
        at++;
    }
    return at == field->length;
}

static const char *why_no_number(const struct field *field)
{
    if (field->length == 0) {
        return "is empty";
    }
    if (has_blank(field)) {
        return "has a blank";
    }
    if (!is_all_digits(field)) {
        return "is no number";
    }
    return field->length > 4 ? "has more than four digits" : "begins with 0";
}

/* Blames the first field that is neither a number or time, as it should be, nor empty where it may be. */
static bool blame_form(const struct shape *shape, const struct line *line, struct blame *blame)
{
    int at;

    for (at = 1; at < shape->fields; at++) {
        const struct form *form = &shape->form[at];
        const struct field *field = &line->field[at];
        bool may_be_empty = shape == &stop_shape && ARRIVE <= at && at <= RIDE_PENALTY;
        if (field->length == 0 && may_be_empty) {
            continue;
        }
        if (form->time && !is_time(field)) {
            put_wrong(blame, at, "%s %s", form->name, has_blank(field) ? "has a blank" : "is no time");
            put_right(blame, "a time hh:mm of two digits each, as 08:00, with 24:00 for the second midnight");
            return true;
        }
        if (!form->time && !is_number(field)) {
            put_wrong(blame, at, "%s %s", form->name, why_no_number(field));
            put_right(blame, "a number of one to four digits, without a leading zero, a blank or a sign");
            return true;
        }
    }
    return false;
}

/* Blames what is empty, or filled, where it must not be. Each field by itself is well formed. */
static void blame_emptiness(const struct line *line, struct blame *blame)
{
    int stop = number_of(&line->field[STOP_NUMBER]);
    bool arrives = line->field[ARRIVE].length > 0;
    bool departs = line->field[DEPART].length > 0;

    if (arrives && stop == 1) {
        put_wrong(blame, ARRIVE, "arrive is filled at stop 1");
        put_right(blame, "arrive is empty at the first stop of a trip, and there alone");
    } else if (!arrives && stop != 1) {
        put_wrong(blame, ARRIVE, "arrive is empty at stop %d", stop);
        put_right(blame, "a time hh:mm; arrive is empty at the first stop of a trip alone");
    } else if (departs != (line->field[RIDE_PENALTY].length > 0)) {
        put_wrong(blame, departs ? RIDE_PENALTY : DEPART, "%s is empty, and %s is not",
                  departs ? "ride penalty" : "depart", departs ? "depart" : "ride penalty");
        put_right(blame, "both filled where the trip goes on, both empty at its last stop");
    } else {
        put_wrong(blame, DEPART, "depart is empty at stop 1");
        put_right(blame, "a trip has two stops or more: a departure and the penalty of the ride to the next stop");
    }
}

static void blame_fields(const struct shape *shape, const struct line *line, struct blame *blame)
{
    if (line->fields != shape->fields) {
        put_wrong(blame, NO_FIELD, "%s fields than the %d of a line that begins with %s",
                  line->fields < shape->fields ? "fewer" : "more", shape->fields, shape->letter);
        put_right(blame, "%s", shape->spelled);
    } else if (!blame_form(shape, line, blame)) {
        blame_emptiness(line, blame);
    }
}

static bool ends_with_return(const struct line *line)
{
    return line->whole.length > 0 && line->whole.begin[line->whole.length - 1] == '\r';
}

void blame_shape(const struct line *line, struct blame *blame)
{
    if (line->whole.length == 0) {
        put_wrong(blame, NO_FIELD, "the line is empty");
        put_right(blame, "no empty lines, not at the end either");
    } else if (ends_with_return(line)) {
        put_wrong(blame, NO_FIELD, "byte 13 stands before the end of the line");
        put_right(blame, "lines that end with byte 10 alone: save the file with line ends as on Unix");
    } else if (shape_of(line) == NULL) {
        put_wrong(blame, 0, "the line begins with neither S, W nor T");
        put_right(blame, "%s or %s or %s", station_shape.spelled, walk_shape.spelled, stop_shape.spelled);
    } else if (!line->ended) {
        put_wrong(blame, NO_FIELD, "the last line has no end");
        put_right(blame, "each line ends with byte 10, the last one too");
    } else {
        blame_fields(shape_of(line), line, blame);
    }
}
