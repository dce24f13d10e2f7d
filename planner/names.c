#include "names.h"

#include "ending.h"
#include "files.h"
#include "text.h"

#include <stdio.h>
#include <string.h>

#define FILE_NAME "names.txt"
#define PATH_BYTES 4096
/* More than the lines of all stations and trips. */
#define NAMES_BYTES 65536

/* The fields of a line. The name is the rest of the line, with its commas. */
enum { KIND, NUMBER, NAME };

/* The path of names.txt beside a timetable. */
static void path_beside(const char *timetable_path, char path[PATH_BYTES])
{
    const char *slash = strrchr(timetable_path, '/');
    int folder = slash == NULL ? 0 : (int)(slash - timetable_path) + 1;

    if (folder + sizeof FILE_NAME > PATH_BYTES) {
        end_with_bad_input("the path of the timetable is too long");
    }
    snprintf(path, PATH_BYTES, "%.*s%s", folder, timetable_path, FILE_NAME);
}

/* The rest of the line from its name on; a file from elsewhere may have byte 13 before the line's end. */
static struct field name_of(const struct line *line)
{
    struct field name = line->field[NAME];

    name.length = (size_t)(line->whole.begin + line->whole.length - name.begin);
    if (name.length > 0 && name.begin[name.length - 1] == '\r') {
        name.length--;
    }
    return name;
}

static bool is_name(const struct field *name)
{
    size_t at;

    for (at = 0; at < name->length; at++) {
        unsigned char byte = (unsigned char)name->begin[at];
        if (byte < ' ' || byte == 0x7f) {
            return false;
        }
    }
    return 1 <= name->length && name->length <= NAME_BYTES_MOST;
}

/* The label that a line of names.txt names, or none if the line has no such shape. */
static char *label_of(struct names *names, const struct line *line)
{
    int number;

    if (line->fields <= NAME || !is_number(&line->field[NUMBER])) {
        return NULL;
    }
    number = number_of(&line->field[NUMBER]);
    if (is_text(&line->field[KIND], "S") && 1 <= number && number <= DAIRYEPOCH_STATIONS_MOST) {
        return names->station[number];
    }
    if (is_text(&line->field[KIND], "T") && 1 <= number && number <= DAIRYEPOCH_TRIPS_MOST) {
        return names->trip[number];
    }
    return NULL;
}

static void take_name(struct names *names, const struct line *line, const char *path, int number)
{
    char *label = label_of(names, line);
    struct field name;

    if (label == NULL) {
        end_with_bad_input("%s: line %d is neither S,station,name nor T,trip,name", path, number);
    }
    name = name_of(line);
    if (!is_name(&name)) {
        end_with_bad_input("%s: the name in line %d has not 1 to %d printed bytes", path, number, NAME_BYTES_MOST);
    }
    if (strchr(label, ' ') != NULL) {
        end_with_bad_input("%s: line %d names what has a name already", path, number);
    }
    snprintf(label + strlen(label), LABEL_BYTES - strlen(label), " %.*s", (int)name.length, name.begin);
}

static void take_numbers(struct names *names)
{
    int number;

    for (number = 0; number <= DAIRYEPOCH_STATIONS_MOST; number++) {
        snprintf(names->station[number], LABEL_BYTES, "%d", number);
    }
    for (number = 0; number <= DAIRYEPOCH_TRIPS_MOST; number++) {
        snprintf(names->trip[number], LABEL_BYTES, "%d", number);
    }
}

void take_names(struct names *names, const char *timetable_path)
{
    static char text[NAMES_BYTES];
    char path[PATH_BYTES];
    const char *at = text;
    struct line line;
    size_t bytes;
    int number = 0;

    take_numbers(names);
    path_beside(timetable_path, path);
    if (!read_file(path, text, NAMES_BYTES, &bytes)) {
        return;
    }
    if (bytes == NAMES_BYTES) {
        end_with_bad_input("%s: too long", path);
    }
    while (next_line(&at, text + bytes, &line)) {
        take_name(names, &line, path, ++number);
    }
}
