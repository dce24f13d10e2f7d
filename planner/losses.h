/* The rows that the three mistakes of planners would lose. */
#ifndef PLANNER_LOSSES_H
#define PLANNER_LOSSES_H

#include "library.h"

/*
 * A later departure is struck, since an earlier one is quicker; change minutes are charged to who stays in the seat;
 * only the quickest way is kept.
 */
enum mistake { SLOWER, SEATED, QUICKEST, MISTAKES };

#define SENTENCE_BYTES 200

/* A row that a mistake strikes. It is the same for all who come after the departure before and up to its minute. */
struct lost {
    int from;
    int to;
    int since;
    int minute; /* EMPTY: nothing is lost */
    int row;    /* counted from 0 */
    char reason[SENTENCE_BYTES];
};

/* Finds the first row from the source of a store to a station that each mistake loses. */
void find_lost(const struct loaded *loaded, const struct store *store, int to, struct lost lost[MISTAKES]);

#endif
