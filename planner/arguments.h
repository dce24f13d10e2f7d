/* What the program was started with. */
#ifndef PLANNER_ARGUMENTS_H
#define PLANNER_ARGUMENTS_H

#include "library.h"

#define WORDS_MOST 4
#define TIMES_MOST 24

/* The options that a command may have. */
enum { OPTION_CSV = 1, OPTION_WHY = 2, OPTION_AT = 4 };

/* The words after the command's name in their order, apart from its options. */
struct arguments {
    int words;
    const char *word[WORDS_MOST];
    int options;
    int times; /* each after an --at */
    const char *time[TIMES_MOST];
};

/* The station that a word names, one of the timetable. */
int station_named(const struct loaded *loaded, const char *word);

/* The same, for a station that is not to be this one. */
int other_station_named(const struct loaded *loaded, const char *word, int station);

/* The minute that a word names as hh:mm. */
int minute_named(const char *word);

#endif
