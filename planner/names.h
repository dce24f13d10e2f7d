/* What stations and trips are called in what people read: their number, and the name that names.txt has for it. */
#ifndef PLANNER_NAMES_H
#define PLANNER_NAMES_H

#include "dairyepoch.h"

#define NAME_BYTES_MOST 60
/* The number, a blank, the name, and the end. */
#define LABEL_BYTES (4 + 1 + NAME_BYTES_MOST + 1)

struct names {
    char station[DAIRYEPOCH_STATIONS_MOST + 1][LABEL_BYTES];
    char trip[DAIRYEPOCH_TRIPS_MOST + 1][LABEL_BYTES];
};

/* Takes the names of names.txt in the timetable's folder. Without that file the numbers stand alone. */
void take_names(struct names *names, const char *timetable_path);

#endif
