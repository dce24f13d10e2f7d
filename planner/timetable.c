#include "timetable.h"

#include <string.h>

static void take_station(struct timetable *timetable, const struct line *line)
{
    struct station *station = &timetable->station[++timetable->stations];

    station->change_minutes = number_of(&line->field[CHANGE_MINUTES]);
    station->change_penalty = number_of(&line->field[CHANGE_PENALTY]);
}

static void take_walk(struct timetable *timetable, const struct line *line)
{
    struct walk *walk = &timetable->walk[++timetable->walks];

    walk->from = number_of(&line->field[WALK_FROM]);
    walk->to = number_of(&line->field[WALK_TO]);
    walk->minutes = number_of(&line->field[WALK_MINUTES]);
    walk->penalty = number_of(&line->field[WALK_PENALTY]);
}

static void take_stop(struct timetable *timetable, const struct line *line)
{
    struct stop *stop = &timetable->stop[++timetable->stops];

    if (number_of(&line->field[STOP_NUMBER]) == 1) {
        timetable->first_stop[++timetable->trips] = timetable->stops;
    }
    stop->station = number_of(&line->field[STOP_STATION]);
    stop->arrive = minute_of(&line->field[ARRIVE]);
    stop->depart = minute_of(&line->field[DEPART]);
    stop->penalty = number_of(&line->field[RIDE_PENALTY]);
    stop->mark = number_of(&line->field[MARK]);
}

void take_lines(struct timetable *timetable, const char *text, size_t bytes, int lines)
{
    struct line line;
    const char *at = text;

    timetable->stations = timetable->walks = timetable->trips = timetable->stops = 0;
    for (; lines > 0 && next_line(&at, text + bytes, &line); lines--) {
        if (is_text(&line.field[0], "S")) {
            take_station(timetable, &line);
        } else if (is_text(&line.field[0], "W")) {
            take_walk(timetable, &line);
        } else {
            take_stop(timetable, &line);
        }
    }
}

int stops_of(const struct timetable *timetable, int trip)
{
    int next = trip < timetable->trips ? timetable->first_stop[trip + 1] : timetable->stops + 1;

    return next - timetable->first_stop[trip];
}

const struct stop *stop_of(const struct timetable *timetable, int trip, int stop)
{
    return &timetable->stop[timetable->first_stop[trip] + stop - 1];
}

const struct stop *last_stop(const struct timetable *timetable)
{
    return timetable->stops > 0 ? &timetable->stop[timetable->stops] : NULL;
}

bool is_open(const struct timetable *timetable)
{
    const struct stop *last = last_stop(timetable);

    return last != NULL && last->depart != EMPTY;
}

struct change change_between(const struct timetable *timetable, int from, int to)
{
    const struct station *station = &timetable->station[from];
    struct change change = {false, station->change_minutes, station->change_penalty};
    int at;

    for (at = 1; at <= timetable->walks; at++) {
        const struct walk *walk = &timetable->walk[at];
        if (walk->from == from && walk->to == to) {
            change.on_foot = true;
            change.minutes = walk->minutes;
            change.penalty = walk->penalty;
        }
    }
    return change;
}

/* Whether a ride begins at a stop: one may board there, and alight at a later stop of the trip. */
static bool begins_ride(const struct stop *stop)
{
    const struct stop *later = stop;

    if (stop->mark == SETTING_DOWN_ONLY) {
        return false;
    }
    while (later->depart != EMPTY) {
        later++;
        if (later->mark != BOARDING_ONLY) {
            return true;
        }
    }
    return false;
}

int departures(const struct timetable *timetable, int station, int minutes[DAIRYEPOCH_MINUTES])
{
    bool leaves[DAIRYEPOCH_MINUTES] = {false};
    int stop, minute, count = 0;

    for (stop = 1; stop <= timetable->stops; stop++) {
        const struct stop *left = &timetable->stop[stop];
        if (left->station == station && begins_ride(left)) {
            leaves[left->depart] = true;
        }
    }
    for (minute = 0; minute < DAIRYEPOCH_MINUTES; minute++) {
        if (leaves[minute]) {
            minutes[count++] = minute;
        }
    }
    return count;
}
