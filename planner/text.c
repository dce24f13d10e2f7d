#include "text.h"

#include <string.h>

static void cut_fields(struct line *line)
{
    const char *at = line->whole.begin;
    const char *end = at + line->whole.length;
    const char *comma;

    line->fields = 0;
    do {
        struct field *field = &line->field[line->fields++];
        comma = line->fields < FIELDS_MOST ? memchr(at, ',', (size_t)(end - at)) : NULL;
        field->begin = at;
        field->length = (size_t)((comma != NULL ? comma : end) - at);
        at = field->begin + field->length + 1;
    } while (comma != NULL);
}

bool next_line(const char **from, const char *end, struct line *line)
{
    const char *newline;

    if (*from == end) {
        return false;
    }
    newline = memchr(*from, '\n', (size_t)(end - *from));
    line->ended = newline != NULL;
    line->whole.begin = *from;
    line->whole.length = (size_t)((line->ended ? newline : end) - *from);
    *from = line->ended ? newline + 1 : end;
    cut_fields(line);
    return true;
}

bool is_text(const struct field *field, const char *text)
{
    return field->length == strlen(text) && memcmp(field->begin, text, field->length) == 0;
}

static bool is_digit(char byte)
{
    return '0' <= byte && byte <= '9';
}

bool is_number(const struct field *field)
{
    size_t at;

    for (at = 0; at < field->length; at++) {
        if (!is_digit(field->begin[at])) {
            return false;
        }
    }
    return 1 <= field->length && field->length <= 4 && (field->length == 1 || field->begin[0] != '0');
}

bool is_time(const struct field *field)
{
    const char *at = field->begin;

    return field->length == 5 && is_digit(at[0]) && is_digit(at[1]) && at[2] == ':' && is_digit(at[3]) &&
           is_digit(at[4]);
}

int number_of(const struct field *field)
{
    int number = 0;
    size_t at;

    if (field->length == 0) {
        return EMPTY;
    }
    for (at = 0; at < field->length; at++) {
        number = 10 * number + (field->begin[at] - '0');
    }
    return number;
}

int minute_of(const struct field *field)
{
    struct field hours = {field->begin, 2}, minutes = {field->begin + 3, 2};

    return field->length == 0 ? EMPTY : 60 * number_of(&hours) + number_of(&minutes);
}

void write_time(int minute, char time[TIME_BYTES])
{
    time[0] = (char)('0' + minute / 600);
    time[1] = (char)('0' + minute / 60 % 10);
    time[2] = ':';
    time[3] = (char)('0' + minute % 60 / 10);
    time[4] = (char)('0' + minute % 10);
    time[5] = '\0';
}
