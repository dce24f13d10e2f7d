#include "losses.h"

#include "flow.h"
#include "refusals.h"
#include "rows.h"

#include <stdio.h>

/*
 * The connections that have left, by the minutes that they take from departure to arrival: the least penalty, and
 * when the one of that penalty left. EMPTY where there is none.
 */
struct gone {
    int penalty[DAIRYEPOCH_MINUTES];
    int departure[DAIRYEPOCH_MINUTES];
};

static struct answer answer;
static struct gone gone;

/*
 * The first mistake: struck since one that left earlier takes fewer minutes and costs no more. Measured so, from
 * departure to arrival, the later one looks worse; to who came too late for the other it is the best there is.
 */
static bool is_slower(const struct loaded *loaded, const struct row *row, int minute, char reason[SENTENCE_BYTES])
{
    int departure = departure_of(&loaded->timetable, row);
    int taken = minute + row->duration - departure;
    char time[TIME_BYTES];
    int quicker = 0;

    while (quicker < taken && (gone.penalty[quicker] == EMPTY || gone.penalty[quicker] > row->penalty)) {
        quicker++;
    }
    if (quicker == taken) {
        return false;
    }
    write_time(gone.departure[quicker], time);
    snprintf(reason, SENTENCE_BYTES, "the one that leaves at %s takes %d minute%s, this one %d", time, quicker,
             plural(quicker), taken);
    return true;
}

/* Whether a ride passes a stop where the bus stands for less than the minutes of a change. */
static bool is_seated(const struct loaded *loaded, const struct ride *ride, char reason[SENTENCE_BYTES])
{
    int number;

    for (number = ride->board + 1; number < ride->alight; number++) {
        const struct stop *stop = stop_of(&loaded->timetable, ride->trip, number);
        int change = change_between(&loaded->timetable, stop->station, stop->station).minutes;
        int stands = stop->depart - stop->arrive;
        if (stands < change) {
            snprintf(reason, SENTENCE_BYTES, "trip %d stands at station %s for %d minute%s, and a change takes %d",
                     ride->trip, loaded->names.station[stop->station], stands, plural(stands), change);
            return true;
        }
    }
    return false;
}

/* The second mistake: struck since change minutes are charged to who stays in the seat. */
static bool stays_seated(const struct loaded *loaded, const struct row *row, char reason[SENTENCE_BYTES])
{
    int number;

    for (number = 0; number < row->rides; number++) {
        struct ride ride = ride_of(row, number);
        if (is_seated(loaded, &ride, reason)) {
            return true;
        }
    }
    return false;
}

/* The third mistake: struck since another row, the first, is quicker. */
static bool is_not_quickest(int row, int minute, char reason[SENTENCE_BYTES])
{
    struct rows rows = rows_of(&answer);
    struct row quickest;
    char time[TIME_BYTES];

    if (row == 0 || !next_row(&rows, &quickest)) {
        return false;
    }
    write_time(minute + quickest.duration, time);
    snprintf(reason, SENTENCE_BYTES, "another row arrives at %s, for %d point%s", time, quickest.penalty,
             plural(quickest.penalty));
    return true;
}

static bool loses(const struct loaded *loaded, enum mistake mistake, const struct row *row, struct lost *lost)
{
    switch (mistake) {
    case SLOWER:
        return is_slower(loaded, row, lost->minute, lost->reason);
    case SEATED:
        return stays_seated(loaded, row, lost->reason);
    default:
        return is_not_quickest(lost->row, lost->minute, lost->reason);
    }
}

static void clear_gone(void)
{
    int minutes;

    for (minutes = 0; minutes < DAIRYEPOCH_MINUTES; minutes++) {
        gone.penalty[minutes] = EMPTY;
    }
}

/* The rows that leave at this minute are gone for who comes later. */
static void note_gone(const struct loaded *loaded, int minute)
{
    struct rows rows = rows_of(&answer);
    struct row row;

    while (next_row(&rows, &row)) {
        if (departure_of(&loaded->timetable, &row) != minute) {
            continue;
        }
        if (gone.penalty[row.duration] == EMPTY || row.penalty < gone.penalty[row.duration]) {
            gone.penalty[row.duration] = row.penalty;
            gone.departure[row.duration] = minute;
        }
    }
}

/* Notes the first row of the answer that each mistake loses, where none is noted yet. */
static void note_lost(const struct loaded *loaded, int from, int to, int since, int minute,
                      struct lost lost[MISTAKES])
{
    struct rows rows = rows_of(&answer);
    struct row row;
    int number, mistake;

    for (number = 0; next_row(&rows, &row); number++) {
        for (mistake = 0; mistake < MISTAKES; mistake++) {
            struct lost found = {from, to, since, minute, number, ""};
            if (lost[mistake].minute == EMPTY && loses(loaded, (enum mistake)mistake, &row, &found)) {
                lost[mistake] = found;
            }
        }
    }
}

/* Asking at each departure is enough: in between nothing changes but the minutes that a rider waits. */
void find_lost(const struct loaded *loaded, const struct store *store, int to, struct lost lost[MISTAKES])
{
    int minutes[DAIRYEPOCH_MINUTES];
    int count = departures(&loaded->timetable, store->source, minutes);
    int at, mistake;

    for (mistake = 0; mistake < MISTAKES; mistake++) {
        lost[mistake].minute = EMPTY;
    }
    clear_gone();
    for (at = 0; at < count; at++) {
        int since = at == 0 ? 0 : minutes[at - 1] + 1;
        find_rows(loaded, store, to, minutes[at], &answer);
        note_lost(loaded, store->source, to, since, minutes[at], lost);
        note_gone(loaded, minutes[at]);
    }
}
