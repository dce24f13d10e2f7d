/* Lines of text, and their fields: what stands between commas. */
#ifndef PLANNER_TEXT_H
#define PLANNER_TEXT_H

#include <stdbool.h>
#include <stddef.h>

/* In the place of the number or time of a field that is empty. */
#define EMPTY (-1)

/* As many fields are cut out of a line; the last of them has the rest of the line, with its commas. */
#define FIELDS_MOST 9

/* "hh:mm" and its end. */
#define TIME_BYTES 6

struct field {
    const char *begin;
    size_t length;
};

struct line {
    struct field whole;
    bool ended; /* by byte 10, as every line of a timetable text is */
    int fields;
    struct field field[FIELDS_MOST];
};

/* Cuts the line that begins at *from, and moves *from to the next. False if there is none. */
bool next_line(const char **from, const char *end, struct line *line);

/* Whether a field is this text. */
bool is_text(const struct field *field, const char *text);

/* One to four decimal digits without a leading zero, but for 0 itself. */
bool is_number(const struct field *field);

/* Two digits, a colon, two digits. */
bool is_time(const struct field *field);

/* The value of a field that is a number, or EMPTY. */
int number_of(const struct field *field);

/* The minute of a field that is a time, or EMPTY. */
int minute_of(const struct field *field);

/* Writes a minute as hh:mm. */
void write_time(int minute, char time[TIME_BYTES]);

#endif
