/* What the lines of a timetable text look like. */
#ifndef PLANNER_FORMS_H
#define PLANNER_FORMS_H

#include "timetable.h"

/* A field: its name, whether it is a time or a number, and its range. */
struct form {
    const char *name;
    bool time;
    int least;
    int most; /* EMPTY: a number that is judged by its place has no range */
};

struct shape {
    const char *letter;
    const char *spelled;
    int fields;
    struct form form[STOP_FIELDS];
};

extern const struct shape station_shape;
extern const struct shape walk_shape;
extern const struct shape stop_shape;

/* The shape that the first field of a line asks for; none if it is no such letter. */
const struct shape *shape_of(const struct line *line);

/* Whether a field of the right form has a value within its range, or none. */
bool in_range(const struct form *form, const struct field *field);

#endif
