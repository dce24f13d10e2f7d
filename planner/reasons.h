/* Why a store holds its sequences: for each a minute at which an optimal connection changes there. */
#ifndef PLANNER_REASONS_H
#define PLANNER_REASONS_H

#include "library.h"
#include "progress.h"
#include "rows.h"

/* The sequences to one target, which stand next to each other in a store. */
struct group {
    int target;
    int begin;
    int end; /* the first that is none of them */
};

struct reason {
    int minute;
    struct row row; /* holds as long as nothing else is asked */
};

/* Finds a minute for each sequence of a group. */
void find_reasons(const struct loaded *loaded, const struct store *store, const struct group *group,
                  struct progress *progress);

/* The reason of a sequence whose minute was found. */
struct reason reason_of(const struct loaded *loaded, const struct store *store, int sequence);

#endif
