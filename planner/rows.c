#include "rows.h"

#include "flow.h"

#include <string.h>

/* The words of a row before its rides, and those of a ride. */
enum { ROW_WORDS = 3, RIDE_WORDS = 3 };

/* The column of what is said after a time: "hh:mm  ". */
#define AFTER_TIME 7

struct rows rows_of(const struct answer *answer)
{
    struct rows rows;

    rows.next = answer->words;
    rows.left = answer->rows;
    return rows;
}

bool next_row(struct rows *rows, struct row *row)
{
    if (rows->left == 0) {
        return false;
    }
    row->duration = (int)rows->next[0];
    row->penalty = (int)rows->next[1];
    row->rides = (int)rows->next[2];
    row->ride = rows->next + ROW_WORDS;
    rows->next = row->ride + RIDE_WORDS * row->rides;
    rows->left--;
    return true;
}

struct ride ride_of(const struct row *row, int number)
{
    const uint32_t *words = row->ride + RIDE_WORDS * number;
    struct ride ride;

    ride.trip = (int)words[0];
    ride.board = (int)words[1];
    ride.alight = (int)words[2];
    return ride;
}

const struct stop *boarded_at(const struct timetable *timetable, const struct ride *ride)
{
    return stop_of(timetable, ride->trip, ride->board);
}

const struct stop *alighted_at(const struct timetable *timetable, const struct ride *ride)
{
    return stop_of(timetable, ride->trip, ride->alight);
}

int departure_of(const struct timetable *timetable, const struct row *row)
{
    struct ride first = ride_of(row, 0);

    return boarded_at(timetable, &first)->depart;
}

/* Begins a paragraph with a time, so many columns from the left. */
static void begin_at_time(struct flow *flow, FILE *to, int left, int minute)
{
    char front[TIME_BYTES + 2];

    write_time(minute, front);
    strcat(front, "  ");
    begin_flow(flow, to, left, front, AFTER_TIME);
}

/* Adds how one changes from where a ride was left to where the next is boarded. */
static void add_change(struct flow *flow, const struct loaded *loaded, const struct stop *alight,
                       const struct stop *next)
{
    struct change change = change_between(&loaded->timetable, alight->station, next->station);

    if (!change.on_foot) {
        add_words(flow, "change:");
    } else if (alight->station == next->station) {
        add_words(flow, "along it on foot:");
    } else {
        add_words(flow, "on foot to station %s:", loaded->names.station[next->station]);
    }
    add_words(flow, "%d minute%s, %d point%s", change.minutes, plural(change.minutes), change.penalty,
              plural(change.penalty));
}

static void print_ride(FILE *to, const struct loaded *loaded, const struct row *row, int number, int left)
{
    struct ride ride = ride_of(row, number);
    const struct stop *board = boarded_at(&loaded->timetable, &ride);
    const struct stop *alight = alighted_at(&loaded->timetable, &ride);
    struct flow flow;

    begin_at_time(&flow, to, left, board->depart);
    add_words(&flow, "trip %s from station %s", loaded->names.trip[ride.trip], loaded->names.station[board->station]);
    end_flow(&flow);
    begin_at_time(&flow, to, left, alight->arrive);
    add_words(&flow, "at station %s%s", loaded->names.station[alight->station], number < row->rides - 1 ? "," : "");
    if (number < row->rides - 1) {
        struct ride next = ride_of(row, number + 1);
        add_change(&flow, loaded, alight, boarded_at(&loaded->timetable, &next));
    }
    end_flow(&flow);
}

static void print_cost(FILE *to, const struct row *row, int minute, int left)
{
    char arrival[TIME_BYTES];
    int changes = row->rides - 1;
    struct flow flow;

    write_time(minute + row->duration, arrival);
    begin_flow(&flow, to, left, "", 0);
    add_words(&flow, "arrives %s in %d minute%s, %d point%s,", arrival, row->duration, plural(row->duration),
              row->penalty, plural(row->penalty));
    if (changes == 0) {
        add_words(&flow, "no change");
    } else {
        add_words(&flow, "%d change%s", changes, plural(changes));
    }
    end_flow(&flow);
}

void print_row(FILE *to, const struct loaded *loaded, const struct row *row, int minute, int left)
{
    int number;

    print_cost(to, row, minute, left);
    for (number = 0; number < row->rides; number++) {
        print_ride(to, loaded, row, number, left + 2);
    }
}

void print_rows(FILE *to, const struct loaded *loaded, const struct answer *answer, int minute, int left)
{
    struct rows rows = rows_of(answer);
    struct row row;

    while (next_row(&rows, &row)) {
        print_row(to, loaded, &row, minute, left);
    }
}
