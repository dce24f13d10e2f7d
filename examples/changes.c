/*
 * A control room in C: reads a timetable, makes all its stores, and then cancels and adds trips as a day's script says.
 *
 *   changes TIMETABLE DAY
 *
 * The script has a line for each thing that happens:
 *
 *   cancel TRIP          the trip does not run
 *   add TRIP             an extra trip; its T lines follow, and after them a line with a full stop
 *   ask FROM TO MINUTE   a rider asks, and is answered from the stores that there are
 *   stores               all stores are made again
 *
 * examples/link target/changes examples/changes.c compiles it and links it with the library.
 */
#include "dairyepoch.h"

#include <stdio.h>
#include <stdlib.h>
#include <string.h>

#define TEXT_BYTES (DAIRYEPOCH_TEXT_BYTES_MOST + 1)
#define STORE_WORDS 32768
#define ANSWER_WORDS 16384
#define LINE_BYTES 256

static uint8_t text[TEXT_BYTES];
static uint16_t timetable[DAIRYEPOCH_TIMETABLE_WORDS];
static uint16_t lines[DAIRYEPOCH_LINES_WORDS];
static uint32_t work[DAIRYEPOCH_WORK_WORDS];
static uint16_t stores[DAIRYEPOCH_STATIONS_MOST + 1][STORE_WORDS]; /* that of station 1 is the second */
static uint32_t answer[ANSWER_WORDS];

static FILE *opened(const char *name)
{
    FILE *file = fopen(name, "rb");

    if (file == NULL) {
        perror(name);
        exit(2);
    }
    return file;
}

/* Whether a reply is a success; tells its number and line if it is not. */
static int is_done(uint64_t reply)
{
    uint32_t number = DAIRYEPOCH_NUMBER(reply);

    if (number == DAIRYEPOCH_DONE) {
        return 1;
    }
    printf("  refused with number %lu", (unsigned long)number);
    if (number <= DAIRYEPOCH_ENDS_EARLY) {
        printf(", line %lu", (unsigned long)DAIRYEPOCH_LINE(reply));
    }
    printf(": %s\n", dairyepoch_words(number));
    return 0;
}

static void need(uint64_t reply)
{
    if (!is_done(reply)) {
        exit(1);
    }
}

/* The first word of the timetable is its number of stations; the second, used below, that of its running trips. */
static void make_stores(void)
{
    uint32_t source;

    for (source = 1; source <= timetable[0]; source++) {
        need(dairyepoch_make_store(timetable, DAIRYEPOCH_TIMETABLE_WORDS, lines, DAIRYEPOCH_LINES_WORDS, work,
                                   DAIRYEPOCH_WORK_WORDS, source, stores[source], STORE_WORDS));
    }
}

static void load(const char *name)
{
    FILE *file = opened(name);
    size_t bytes = fread(text, 1, TEXT_BYTES, file);

    fclose(file);
    need(dairyepoch_read(text, bytes, timetable, DAIRYEPOCH_TIMETABLE_WORDS));
    need(dairyepoch_build_lines(timetable, DAIRYEPOCH_TIMETABLE_WORDS, lines, DAIRYEPOCH_LINES_WORDS, work,
                                DAIRYEPOCH_WORK_WORDS));
    make_stores();
}

/* Tells what runs after a change. A refused one has left both tables as they were. */
static void tell_change(uint64_t reply)
{
    if (is_done(reply)) {
        printf("  running trips: %u, lines: %lu\n", (unsigned)timetable[1], (unsigned long)DAIRYEPOCH_COUNT(reply));
    }
}

static void cancel(uint32_t trip)
{
    tell_change(dairyepoch_cancel_trip(timetable, DAIRYEPOCH_TIMETABLE_WORDS, lines, DAIRYEPOCH_LINES_WORDS, work,
                                       DAIRYEPOCH_WORK_WORDS, trip));
}

/* The lines of the extra trip are those of the script up to the full stop. */
static void add(uint32_t trip, FILE *day)
{
    char line[LINE_BYTES];
    size_t bytes = 0;

    while (fgets(line, LINE_BYTES, day) != NULL && strcmp(line, ".\n") != 0) {
        size_t more = strlen(line);
        if (more > TEXT_BYTES - bytes) {
            fprintf(stderr, "an extra trip of more bytes than this program has room for\n");
            exit(2);
        }
        memcpy(text + bytes, line, more);
        bytes += more;
    }
    tell_change(dairyepoch_add_trip(timetable, DAIRYEPOCH_TIMETABLE_WORDS, lines, DAIRYEPOCH_LINES_WORDS, work,
                                    DAIRYEPOCH_WORK_WORDS, trip, text, bytes));
}

/* Prints the row that begins at a word of the answer, and returns the word after it. */
static const uint32_t *print_row(const uint32_t *row)
{
    uint32_t rides = row[2];

    printf("  %lu minutes, %lu points:", (unsigned long)row[0], (unsigned long)row[1]);
    for (row += 3; rides > 0; rides--, row += 3) {
        printf(" trip %lu from stop %lu to %lu%s", (unsigned long)row[0], (unsigned long)row[1],
               (unsigned long)row[2], rides > 1 ? "," : "\n");
    }
    return row;
}

static void ask(uint32_t from, uint32_t to, uint32_t minute)
{
    /* A station that is not listed has no store: the query refuses it before it looks at one. */
    const uint16_t *store = stores[from <= DAIRYEPOCH_STATIONS_MOST ? from : 0];
    uint64_t reply = dairyepoch_query(timetable, DAIRYEPOCH_TIMETABLE_WORDS, lines, DAIRYEPOCH_LINES_WORDS, store,
                                      STORE_WORDS, work, DAIRYEPOCH_WORK_WORDS, from, to, minute, answer,
                                      ANSWER_WORDS);
    const uint32_t *row = answer;
    uint32_t rows;

    if (is_done(reply)) {
        for (rows = DAIRYEPOCH_COUNT(reply); rows > 0; rows--) {
            row = print_row(row);
        }
    }
}

int main(int count, char **arguments)
{
    char line[LINE_BYTES];
    unsigned long one, other, third;
    FILE *day;

    if (count != 3) {
        fprintf(stderr, "changes TIMETABLE DAY\n");
        return 2;
    }
    load(arguments[1]);
    day = opened(arguments[2]);
    while (fgets(line, LINE_BYTES, day) != NULL) {
        fputs(line, stdout);
        if (sscanf(line, "cancel %lu", &one) == 1) {
            cancel((uint32_t)one);
        } else if (sscanf(line, "add %lu", &one) == 1) {
            add((uint32_t)one, day);
        } else if (sscanf(line, "ask %lu %lu %lu", &one, &other, &third) == 3) {
            ask((uint32_t)one, (uint32_t)other, (uint32_t)third);
        } else if (strcmp(line, "stores\n") == 0) {
            make_stores();
        } else {
            fprintf(stderr, "no line of a day\n");
            return 2;
        }
    }
    fclose(day);
    return 0;
}
