/* A timetable as people read it: the change values, walks, stations, times and penalties of its text. */
#ifndef PLANNER_TIMETABLE_H
#define PLANNER_TIMETABLE_H

#include "dairyepoch.h"
#include "text.h"

/* The fields of an S line, a W line and a T line, after their letter. */
enum { STATION_NUMBER = 1, CHANGE_MINUTES, CHANGE_PENALTY, STATION_FIELDS };
enum { WALK_FROM = 1, WALK_TO, WALK_MINUTES, WALK_PENALTY, WALK_FIELDS };
enum { TRIP_NUMBER = 1, STOP_NUMBER, STOP_STATION, ARRIVE, DEPART, RIDE_PENALTY, MARK, STOP_FIELDS };

/* The mark of a stop: what riders may do there. */
enum mark { BOTH, BOARDING_ONLY, SETTING_DOWN_ONLY };

struct station {
    int change_minutes;
    int change_penalty;
};

/* A change on foot, from one station to another or along one. */
struct walk {
    int from;
    int to;
    int minutes;
    int penalty;
};

/* A way of changing between two rides. */
struct change {
    bool on_foot;
    int minutes;
    int penalty;
};

/* Arrive, or depart and penalty, are EMPTY where the text leaves them empty. */
struct stop {
    int station;
    int arrive;
    int depart;
    int penalty;
    int mark;
};

/* Stations, walks, trips and the stops of a trip count from 1, and so do the arrays. */
struct timetable {
    int stations;
    int walks;
    int trips;
    int stops; /* of all trips */
    struct station station[DAIRYEPOCH_STATIONS_MOST + 1];
    struct walk walk[DAIRYEPOCH_WALKS_MOST + 1];
    int first_stop[DAIRYEPOCH_TRIPS_MOST + 1]; /* the place of each trip's stop 1 */
    struct stop stop[DAIRYEPOCH_STOPS_MOST + 1];
};

/* Takes in the first so many lines of a text. The library has found nothing wrong with these. */
void take_lines(struct timetable *timetable, const char *text, size_t bytes, int lines);

/* How many stops a trip has. */
int stops_of(const struct timetable *timetable, int trip);

const struct stop *stop_of(const struct timetable *timetable, int trip, int stop);

/* The last stop so far; none before the first. */
const struct stop *last_stop(const struct timetable *timetable);

/* Whether the last trip so far has not ended. */
bool is_open(const struct timetable *timetable);

/*
 * How one changes who alights at one station and boards at another, or the same, between two rides of a row: rows tell
 * rides alone. A walk goes first, along a station too.
 */
struct change change_between(const struct timetable *timetable, int from, int to);

/* The minutes at which a ride begins at a station. Returns how many they are: rising, each once. */
int departures(const struct timetable *timetable, int station, int minutes[DAIRYEPOCH_MINUTES]);

#endif
