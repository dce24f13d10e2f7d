/* planner ask: the rows of one question, as a rider reads them. */
#include "commands.h"

#include "ending.h"
#include "flow.h"
#include "refusals.h"
#include "rows.h"

#include <stdio.h>

static struct loaded loaded;
static struct store store;
static struct answer answer;

static void print_heading(int to, int minute)
{
    char time[TIME_BYTES];

    write_time(minute, time);
    say(stdout, 0, "", 2, "From station %s to station %s at %s: %d row%s", loaded.names.station[store.source],
        loaded.names.station[to], time, answer.rows, plural(answer.rows));
}

/* One line for each ride. Times are as in the timetable, all else are numbers. */
static void print_csv_row(const struct row *row, int number)
{
    int at;

    for (at = 0; at < row->rides; at++) {
        struct ride ride = ride_of(row, at);
        const struct stop *board = boarded_at(&loaded.timetable, &ride);
        const struct stop *alight = alighted_at(&loaded.timetable, &ride);
        char departure[TIME_BYTES], arrival[TIME_BYTES];

        write_time(board->depart, departure);
        write_time(alight->arrive, arrival);
        printf("%d,%d,%d,%d,%d,%d,%d,%s,%d,%d,%s\n", number, row->duration, row->penalty, at + 1, ride.trip, ride.board,
               board->station, departure, ride.alight, alight->station, arrival);
    }
}

static void print_csv(void)
{
    struct rows rows = rows_of(&answer);
    struct row row;
    int number = 0;

    printf("row,duration,penalty,ride,trip,board,from,depart,alight,to,arrive\n");
    while (next_row(&rows, &row)) {
        print_csv_row(&row, ++number);
    }
}

/* The last minute at which there is a connection, with its rows; EMPTY if there is none all day. */
static int find_last(int to)
{
    int minutes[DAIRYEPOCH_MINUTES];
    int at = departures(&loaded.timetable, store.source, minutes);

    while (at > 0) {
        at--;
        if (find_rows(&loaded, &store, to, minutes[at], &answer)) {
            return minutes[at];
        }
    }
    return EMPTY;
}

/* Why there is no connection. */
static void tell_none(FILE *out, int to, int minute)
{
    char time[TIME_BYTES];
    int last = find_last(to);

    write_time(minute, time);
    say(out, 0, "", 2, "No connection from station %s to station %s at %s (number %d).",
        loaded.names.station[store.source], loaded.names.station[to], time, DAIRYEPOCH_NO_CONNECTION);
    if (last == EMPTY) {
        say(out, 0, "", 2, "There is none at any time.");
    } else {
        write_time(last, time);
        say(out, 0, "", 2, "There is none from this minute on: the last one left at %s.", time);
        print_rows(out, &loaded, &answer, last, 2);
    }
}

int ask(const struct arguments *arguments)
{
    bool csv = (arguments->options & OPTION_CSV) != 0;
    int from, to, minute;

    load_or_end(&loaded, arguments->word[0]);
    from = station_named(&loaded, arguments->word[1]);
    to = other_station_named(&loaded, arguments->word[2], from);
    minute = minute_named(arguments->word[3]);
    if (!has_store(&loaded, from, &store)) {
        return REFUSED;
    }
    if (!find_rows(&loaded, &store, to, minute, &answer)) {
        tell_none(csv ? stderr : stdout, to, minute);
        return REFUSED;
    }
    if (csv) {
        print_csv();
    } else {
        print_heading(to, minute);
        print_rows(stdout, &loaded, &answer, minute, 2);
    }
    return WELL;
}
