#include "blame.h"

#include "forms.h"

#include <stdarg.h>
#include <stdio.h>

void put_wrong(struct blame *blame, int field, const char *format, ...)
{
    va_list values;

    blame->field = field;
    va_start(values, format);
    vsnprintf(blame->wrong, BLAME_BYTES, format, values);
    va_end(values);
}

void put_right(struct blame *blame, const char *format, ...)
{
    va_list values;

    va_start(values, format);
    vsnprintf(blame->right, BLAME_BYTES, format, values);
    va_end(values);
}

/* 1 and 7: there is no line to blame. */

static void blame_length(struct blame *blame)
{
    put_wrong(blame, NO_FIELD, "the text has more than %d bytes", DAIRYEPOCH_TEXT_BYTES_MOST);
    put_right(blame, "a smaller timetable, or a part of the network; look for lines that stand twice, for blanks, or "
                     "for a wrong file");
}

static void blame_end(const struct timetable *timetable, struct blame *blame)
{
    if (timetable->stations == 0) {
        put_wrong(blame, NO_FIELD, "the text is empty");
        put_right(blame, "at least one station: S,station,change minutes,change penalty");
    } else {
        put_wrong(blame, NO_FIELD, "the text ends, and trip %d has not ended", timetable->trips);
        put_right(blame, "the last stop of a trip has an empty depart and an empty ride penalty");
    }
}

/* 3: a value is out of its range. */

static void blame_range(const struct line *line, struct blame *blame)
{
    const struct shape *shape = shape_of(line);
    int at = 1;

    while (at < shape->fields - 1 && in_range(&shape->form[at], &line->field[at])) {
        at++;
    }
    put_wrong(blame, at, "%s is %.*s", shape->form[at].name, (int)line->field[at].length, line->field[at].begin);
    if (shape->form[at].time) {
        put_right(blame, "a time from 00:00 to 47:59, with minutes to 59");
    } else if (shape == &stop_shape && at == MARK) {
        put_right(blame, "%d for both, %d for boarding only, %d for setting down only", BOTH, BOARDING_ONLY,
                  SETTING_DOWN_ONLY);
    } else {
        put_right(blame, "%d to %d", shape->form[at].least, shape->form[at].most);
    }
}

/* 4: the line is out of place. */

static void blame_station_place(const struct timetable *timetable, const struct line *line, struct blame *blame)
{
    if (timetable->trips > 0) {
        put_wrong(blame, NO_FIELD, "a station follows a trip");
        put_right(blame, "all S lines stand before the first T line");
    } else if (timetable->walks > 0) {
        put_wrong(blame, NO_FIELD, "a station follows a walk");
        put_right(blame, "all S lines stand before the first W line");
    } else {
        put_wrong(blame, STATION_NUMBER, "station is %d, and %d is next", number_of(&line->field[STATION_NUMBER]),
                  timetable->stations + 1);
        put_right(blame, "stations 1, 2, 3.. without gaps, each once");
    }
}

static void blame_walk_place(const struct timetable *timetable, const struct line *line, struct blame *blame)
{
    const struct walk *last = &timetable->walk[timetable->walks];

    if (timetable->trips > 0) {
        put_wrong(blame, NO_FIELD, "a walk follows a trip");
        put_right(blame, "all W lines stand after the S lines and before the first T line");
    } else {
        put_wrong(blame, number_of(&line->field[WALK_FROM]) < last->from ? WALK_FROM : WALK_TO,
                  "the walk does not come after that from %d to %d", last->from, last->to);
        put_right(blame, "walks rise by from, then by to, and no two have both alike");
    }
}

/* While a trip is open, its next stop is due. */
static void blame_open_trip(const struct timetable *timetable, const struct line *line, struct blame *blame)
{
    int trip = number_of(&line->field[TRIP_NUMBER]);
    int due = stops_of(timetable, timetable->trips) + 1;

    if (trip != timetable->trips) {
        put_wrong(blame, TRIP_NUMBER, "trip is %d, and trip %d has not ended", trip, timetable->trips);
        put_right(blame, "stop %d of trip %d; the last stop of a trip has an empty depart and ride penalty", due,
                  timetable->trips);
    } else {
        put_wrong(blame, STOP_NUMBER, "stop is %d, and %d is next", number_of(&line->field[STOP_NUMBER]), due);
        put_right(blame, "stops 1, 2, 3.. on each trip, without gaps, each once");
    }
}

/* After the end of a trip, or before the first, a trip begins. */
static void blame_next_trip(const struct timetable *timetable, const struct line *line, struct blame *blame)
{
    int trip = number_of(&line->field[TRIP_NUMBER]);

    if (trip == timetable->trips) {
        put_wrong(blame, TRIP_NUMBER, "trip %d has ended, at its stop %d", trip, stops_of(timetable, trip));
        put_right(blame, "depart and ride penalty are empty at the last stop of a trip alone; trip %d is next",
                  trip + 1);
    } else if (trip != timetable->trips + 1) {
        put_wrong(blame, TRIP_NUMBER, "trip is %d, and %d is next", trip, timetable->trips + 1);
        put_right(blame, "trips 1, 2, 3.. without gaps, each once");
    } else {
        put_wrong(blame, STOP_NUMBER, "stop is %d where a trip begins", number_of(&line->field[STOP_NUMBER]));
        put_right(blame, "a trip begins with stop 1");
    }
}

static void blame_place(const struct timetable *timetable, const struct line *line, struct blame *blame)
{
    if (is_text(&line->field[0], "S")) {
        blame_station_place(timetable, line, blame);
    } else if (is_text(&line->field[0], "W")) {
        blame_walk_place(timetable, line, blame);
    } else if (is_open(timetable)) {
        blame_open_trip(timetable, line, blame);
    } else {
        blame_next_trip(timetable, line, blame);
    }
}

/* 5: one too many. */

static void blame_count(const struct timetable *timetable, const struct line *line, struct blame *blame)
{
    if (is_text(&line->field[0], "S")) {
        put_wrong(blame, STATION_NUMBER, "one station too many");
        put_right(blame, "at most %d stations: load a part of the network", DAIRYEPOCH_STATIONS_MOST);
    } else if (is_text(&line->field[0], "W")) {
        put_wrong(blame, NO_FIELD, "one walk too many");
        put_right(blame, "at most %d walks: leave some out, or load a part of the network", DAIRYEPOCH_WALKS_MOST);
    } else if (timetable->stops < DAIRYEPOCH_STOPS_MOST) {
        put_wrong(blame, TRIP_NUMBER, "one trip too many");
        put_right(blame, "at most %d trips: leave some out, or load a part of the network", DAIRYEPOCH_TRIPS_MOST);
    } else {
        put_wrong(blame, STOP_NUMBER, "one stop too many on all trips together");
        put_right(blame, "at most %d stops: leave trips out, or load a part of the network", DAIRYEPOCH_STOPS_MOST);
    }
}

/* 6: a station is not listed, or the stop does not fit. */

static void blame_walk(const struct timetable *timetable, const struct line *line, struct blame *blame)
{
    int from = number_of(&line->field[WALK_FROM]);
    bool listed = 1 <= from && from <= timetable->stations;

    put_wrong(blame, listed ? WALK_TO : WALK_FROM, "%s is %d, which has no S line", listed ? "to" : "from",
              listed ? number_of(&line->field[WALK_TO]) : from);
    put_right(blame, "a station that has an S line, or an S line for it before the first W line");
}

static void blame_stop(const struct timetable *timetable, const struct line *line, struct blame *blame)
{
    const struct stop *before = is_open(timetable) ? last_stop(timetable) : NULL;
    int station = number_of(&line->field[STOP_STATION]);
    char departure[TIME_BYTES];

    if (station < 1 || station > timetable->stations) {
        put_wrong(blame, STOP_STATION, "station is %d, which has no S line", station);
        put_right(blame, "a station that has an S line, or an S line for it before the first T line");
    } else if (before != NULL && station == before->station) {
        put_wrong(blame, STOP_STATION, "station is %d, as at the stop before", station);
        put_right(blame, "another station than that of the stop before");
    } else if (before != NULL && minute_of(&line->field[ARRIVE]) <= before->depart) {
        write_time(before->depart, departure);
        put_wrong(blame, ARRIVE, "arrive is not after the departure of the stop before, %s", departure);
        put_right(blame, "a later time; a trip past midnight goes on with 24:00");
    } else {
        put_wrong(blame, DEPART, "depart is before arrive");
        put_right(blame, "a departure at the time of arrival or later; past midnight the hours go on with 24:00");
    }
}

void find_blame(const struct loaded *loaded, uint64_t reply, const struct line *line, struct blame *blame)
{
    const struct timetable *before = &loaded->timetable;

    switch (DAIRYEPOCH_NUMBER(reply)) {
    case DAIRYEPOCH_TEXT_TOO_LONG:
        blame_length(blame);
        break;
    case DAIRYEPOCH_NO_SHAPE:
        blame_shape(line, blame);
        break;
    case DAIRYEPOCH_OUT_OF_RANGE:
        blame_range(line, blame);
        break;
    case DAIRYEPOCH_OUT_OF_PLACE:
        blame_place(before, line, blame);
        break;
    case DAIRYEPOCH_TOO_MANY:
        blame_count(before, line, blame);
        break;
    case DAIRYEPOCH_STOP_UNFIT:
        if (is_text(&line->field[0], "W")) {
            blame_walk(before, line, blame);
        } else {
            blame_stop(before, line, blame);
        }
        break;
    default:
        blame_end(before, blame);
        break;
    }
}
