#include "reasons.h"

#include "refusals.h"
#include "sequences.h"

/* No store has more sequences. */
#define SEQUENCES_MOST 16383

struct cost {
    int duration;
    int penalty;
};

/* The costs that are optimal from the source of a store to a target at a minute, in rising duration. */
struct optimum {
    const struct store *store;
    int target;
    int minute;
    int costs;
    struct cost cost[DAIRYEPOCH_MINUTES];
};

static struct optimum optimum;
static struct store alone;
static struct answer answer;

/* The minute that was found for each sequence of the store; EMPTY until there is one. */
static int minute_found[SEQUENCES_MOST];

/*
 * What the whole store has rows for is optimal. Asking is slow where many sequences cost the same, and these have one
 * minute: so what was found last is kept.
 */
static void find_optimum(const struct loaded *loaded, const struct store *store, int target, int minute)
{
    struct rows rows;
    struct row row;

    if (optimum.store == store && optimum.target == target && optimum.minute == minute) {
        return;
    }
    find_rows(loaded, store, target, minute, &answer);
    optimum.store = store;
    optimum.target = target;
    optimum.minute = minute;
    optimum.costs = 0;
    rows = rows_of(&answer);
    while (next_row(&rows, &row)) {
        struct cost *cost = &optimum.cost[optimum.costs++];
        cost->duration = row.duration;
        cost->penalty = row.penalty;
    }
}

/* Finds a row of the answer whose cost is optimal. Both rise by duration. */
static bool find_optimal_row(struct row *row)
{
    const struct cost *cost = optimum.cost, *end = optimum.cost + optimum.costs;
    struct rows rows = rows_of(&answer);

    while (next_row(&rows, row)) {
        while (cost < end && cost->duration < row->duration) {
            cost++;
        }
        if (cost < end && cost->duration == row->duration && cost->penalty == row->penalty) {
            return true;
        }
    }
    return false;
}

/*
 * Whether a sequence is that of an optimal connection at the minute of the optimum: a store that holds it alone then
 * has a row of an optimal cost.
 */
static bool is_optimal(const struct loaded *loaded, const struct store *store, int number, struct row *row)
{
    struct sequence sequence;

    read_sequence(store, number, &sequence);
    store_alone(&sequence, &alone);
    return find_rows(loaded, &alone, optimum.target, optimum.minute, &answer) && find_optimal_row(row);
}

/* Notes the minute of the optimum for the sequences of a group that have none yet. Returns for how many it was. */
static int note_minute(const struct loaded *loaded, const struct store *store, const struct group *group)
{
    int number, noted = 0;
    struct row row;

    for (number = group->begin; number < group->end; number++) {
        if (minute_found[number] == EMPTY && is_optimal(loaded, store, number, &row)) {
            minute_found[number] = optimum.minute;
            noted++;
        }
    }
    return noted;
}

/* What is feasible changes only where a departure has been missed: so asking at each departure is enough. */
void find_reasons(const struct loaded *loaded, const struct store *store, const struct group *group,
                  struct progress *progress)
{
    int minutes[DAIRYEPOCH_MINUTES];
    int count = departures(&loaded->timetable, store->source, minutes);
    int found = group->begin;
    int at, number;

    for (number = group->begin; number < group->end; number++) {
        minute_found[number] = EMPTY;
    }
    for (at = 0; at < count && found < group->end; at++) {
        find_optimum(loaded, store, group->target, minutes[at]);
        found += note_minute(loaded, store, group);
        tell_progress(progress, found);
    }
}

struct reason reason_of(const struct loaded *loaded, const struct store *store, int sequence)
{
    struct reason reason;

    reason.minute = minute_found[sequence];
    find_optimum(loaded, store, target_of(store, sequence), reason.minute);
    is_optimal(loaded, store, sequence, &reason.row);
    return reason;
}
