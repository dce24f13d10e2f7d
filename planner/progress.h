/* How far something has come that takes longer than a second, told on standard error once a second. */
#ifndef PLANNER_PROGRESS_H
#define PLANNER_PROGRESS_H

#include <time.h>

struct progress {
    const char *what;
    int all;
    clock_t told;
};

/* Begins to count things of which there are so many. */
void begin_progress(struct progress *progress, const char *what, int all);

/* So many are done. */
void tell_progress(struct progress *progress, int done);

#endif
