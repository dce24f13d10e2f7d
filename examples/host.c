/*
 * A host in C: reads a timetable, makes the store of a station and asks it one query.
 *
 *   host TIMETABLE FROM TO MINUTE
 *
 * examples/link target/host examples/host.c compiles it and links it with the library.
 */
#include "dairyepoch.h"

#include <stdio.h>
#include <stdlib.h>

/* One more than a text may have, so that a longer one is refused and not cut off. */
#define TEXT_BYTES (DAIRYEPOCH_TEXT_BYTES_MOST + 1)

/* A store and an answer have no least length: these are those of the program listing. */
#define STORE_WORDS 32768
#define ANSWER_WORDS 16384

/* All that the library works with is lent to it by the host, here as memory that is set aside once. */
static uint8_t text[TEXT_BYTES];
static uint16_t timetable[DAIRYEPOCH_TIMETABLE_WORDS];
static uint16_t lines[DAIRYEPOCH_LINES_WORDS];
static uint32_t work[DAIRYEPOCH_WORK_WORDS];
static uint16_t store[STORE_WORDS];
static uint32_t answer[ANSWER_WORDS];

static size_t read_file(const char *name)
{
    size_t bytes;
    FILE *file = fopen(name, "rb");

    if (file == NULL) {
        perror(name);
        exit(2);
    }
    bytes = fread(text, 1, TEXT_BYTES, file);
    fclose(file);
    return bytes;
}

/* The count of a reply; a refusal ends the program, with its words. */
static uint32_t done(const char *call, uint64_t reply)
{
    uint32_t number = DAIRYEPOCH_NUMBER(reply);

    if (number != DAIRYEPOCH_DONE) {
        printf("%s: refused with number %lu", call, (unsigned long)number);
        if (number <= DAIRYEPOCH_ENDS_EARLY) {
            printf(", line %lu", (unsigned long)DAIRYEPOCH_LINE(reply));
        }
        printf(": %s\n", dairyepoch_words(number));
        exit(1);
    }
    return DAIRYEPOCH_COUNT(reply);
}

/* Prints the row that begins at a word of the answer, and returns the word after it. */
static const uint32_t *print_row(const uint32_t *row)
{
    uint32_t ride, rides = row[2];

    printf("%lu minutes, %lu points\n", (unsigned long)row[0], (unsigned long)row[1]);
    row += 3;
    for (ride = 0; ride < rides; ride++) {
        printf("    trip %lu from stop %lu to stop %lu\n", (unsigned long)row[0], (unsigned long)row[1],
               (unsigned long)row[2]);
        row += 3;
    }
    return row;
}

static uint32_t number_of(const char *argument)
{
    return (uint32_t)strtoul(argument, NULL, 10);
}

int main(int count, char **arguments)
{
    const uint32_t *row = answer;
    uint32_t from, to, minute, rows;
    size_t bytes;

    if (count != 5) {
        fprintf(stderr, "host TIMETABLE FROM TO MINUTE\n");
        return 2;
    }
    from = number_of(arguments[2]);
    to = number_of(arguments[3]);
    minute = number_of(arguments[4]);

    bytes = read_file(arguments[1]);
    done("read", dairyepoch_read(text, bytes, timetable, DAIRYEPOCH_TIMETABLE_WORDS));
    done("build lines", dairyepoch_build_lines(timetable, DAIRYEPOCH_TIMETABLE_WORDS, lines, DAIRYEPOCH_LINES_WORDS,
                                               work, DAIRYEPOCH_WORK_WORDS));
    done("make store", dairyepoch_make_store(timetable, DAIRYEPOCH_TIMETABLE_WORDS, lines, DAIRYEPOCH_LINES_WORDS,
                                             work, DAIRYEPOCH_WORK_WORDS, from, store, STORE_WORDS));
    rows = done("query", dairyepoch_query(timetable, DAIRYEPOCH_TIMETABLE_WORDS, lines, DAIRYEPOCH_LINES_WORDS, store,
                                          STORE_WORDS, work, DAIRYEPOCH_WORK_WORDS, from, to, minute, answer,
                                          ANSWER_WORDS));
    while (rows > 0) {
        row = print_row(row);
        rows--;
    }
    return 0;
}
