/* The sequences of stations that a store holds. */
#ifndef PLANNER_SEQUENCES_H
#define PLANNER_SEQUENCES_H

#include "flow.h"
#include "library.h"

/* The source, the stations alighted and boarded at for each change in order, the target. */
struct sequence {
    int source;
    int changes;
    int alighted[DAIRYEPOCH_RIDES_MOST - 1];
    int boarded[DAIRYEPOCH_RIDES_MOST - 1];
    int target;
};

/* How many sequences a store holds. They count from 0, by target; to one target the shorter ones come first. */
int sequences_of(const struct store *store);

/* The target of a sequence. */
int target_of(const struct store *store, int sequence);

/* Reads a sequence, from its arc back through the parents to the root. */
void read_sequence(const struct store *store, int number, struct sequence *sequence);

/* Writes a store that holds this sequence alone. */
void store_alone(const struct sequence *sequence, struct store *store);

/* The order of sequences in a store: below 0 if one comes before the other, 0 if they are the same. */
int order_of(const struct sequence *one, const struct sequence *other);

/* Adds the stations of a sequence to a paragraph. */
void add_sequence(struct flow *flow, const struct names *names, const struct sequence *sequence);

#endif
