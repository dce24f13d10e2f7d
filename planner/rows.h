/* The rows of an answer, and how a rider reads them. */
#ifndef PLANNER_ROWS_H
#define PLANNER_ROWS_H

#include "library.h"

#include <stdio.h>

struct row {
    int duration;
    int penalty;
    int rides;
    const uint32_t *ride; /* for each: trip, boarding stop, alighting stop */
};

struct ride {
    int trip;
    int board;
    int alight;
};

/* The rows of an answer that are still to be read. */
struct rows {
    const uint32_t *next;
    int left;
};

struct rows rows_of(const struct answer *answer);

/* Reads the next row. False if there is none left. */
bool next_row(struct rows *rows, struct row *row);

/* A ride of a row, counted from 0. */
struct ride ride_of(const struct row *row, int number);

const struct stop *boarded_at(const struct timetable *timetable, const struct ride *ride);
const struct stop *alighted_at(const struct timetable *timetable, const struct ride *ride);

/* The minute at which a row's first ride departs. */
int departure_of(const struct timetable *timetable, const struct row *row);

/* Prints a row of an answer at a minute, with its rides below, so many columns from the left. */
void print_row(FILE *to, const struct loaded *loaded, const struct row *row, int minute, int left);

/* Prints all rows of an answer. */
void print_rows(FILE *to, const struct loaded *loaded, const struct answer *answer, int minute, int left);

#endif
