#include "arguments.h"

#include "ending.h"

#include <string.h>

static struct field as_field(const char *word)
{
    struct field field;

    field.begin = word;
    field.length = strlen(word);
    return field;
}

int station_named(const struct loaded *loaded, const char *word)
{
    struct field field = as_field(word);
    int station = is_number(&field) ? number_of(&field) : 0;

    if (station < 1 || station > loaded->timetable.stations) {
        end_with_bad_input("'%s' is no station: the timetable has 1 to %d", word, loaded->timetable.stations);
    }
    return station;
}

int other_station_named(const struct loaded *loaded, const char *word, int station)
{
    int other = station_named(loaded, word);

    if (other == station) {
        end_with_bad_input("station %d is named twice: from and to must differ", station);
    }
    return other;
}

int minute_named(const char *word)
{
    struct field field = as_field(word);
    bool sixtieth = is_time(&field) && word[3] > '5';

    if (!is_time(&field) || sixtieth || minute_of(&field) >= DAIRYEPOCH_MINUTES) {
        end_with_bad_input("'%s' is no time from 00:00 to 47:59", word);
    }
    return minute_of(&field);
}
