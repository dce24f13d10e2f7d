/* planner compare: what a new timetable gains and loses against an old one. */
#include "commands.h"

#include "ending.h"
#include "flow.h"
#include "progress.h"
#include "refusals.h"
#include "rows.h"
#include "sequences.h"

#include <stdio.h>

/* One of the two timetables, and what is looked at of it. */
struct side {
    struct loaded loaded;
    struct store store;
    struct answer answer;
    int sequence; /* the next one to be compared */
};

static struct side old_side, new_side;

/* What differs, over all sources. */
static int lost, gained, answers;

/* The source that is looked at. Its heading is printed before the first difference. */
static int source;
static bool headed;

/* A station as the side calls it that lists it, the new one first. */
static const char *name_of(int station)
{
    const struct side *side = station <= new_side.loaded.timetable.stations ? &new_side : &old_side;

    return side->loaded.names.station[station];
}

static void print_heading(void)
{
    if (!headed) {
        say(stdout, 0, "", 2, "From station %s", name_of(source));
        headed = true;
    }
}

static void print_sequence(const char *what, const struct side *side, const struct sequence *sequence)
{
    struct flow flow;

    print_heading();
    begin_flow(&flow, stdout, 2, what, 10);
    add_sequence(&flow, &side->loaded.names, sequence);
    end_flow(&flow);
}

/* Makes the store of the source. A timetable that does not list the source has an empty one. */
static bool take_store(struct side *side)
{
    side->sequence = 0;
    side->store.words[0] = side->store.words[1] = 0;
    return source > side->loaded.timetable.stations || has_store(&side->loaded, source, &side->store);
}

/* The next sequence of a side; false if there is none left. */
static bool next_sequence(const struct side *side, struct sequence *sequence)
{
    if (side->sequence == sequences_of(&side->store)) {
        return false;
    }
    read_sequence(&side->store, side->sequence, sequence);
    return true;
}

/* Both stores have their sequences in the same order, so that one pass finds those that only one of them has. */
static void compare_sequences(void)
{
    struct sequence before, after;
    bool has_before = next_sequence(&old_side, &before);
    bool has_after = next_sequence(&new_side, &after);

    while (has_before || has_after) {
        int order = !has_after ? -1 : !has_before ? 1 : order_of(&before, &after);
        if (order < 0) {
            print_sequence("lost      ", &old_side, &before);
            lost++;
        } else if (order > 0) {
            print_sequence("gained    ", &new_side, &after);
            gained++;
        }
        old_side.sequence += order <= 0;
        new_side.sequence += order >= 0;
        has_before = next_sequence(&old_side, &before);
        has_after = next_sequence(&new_side, &after);
    }
}

/* Asks a side for the rows to a target at a minute. One that does not list both stations has none. */
static void take_answer(struct side *side, int to, int minute)
{
    int stations = side->loaded.timetable.stations;

    side->answer.rows = 0;
    if (source <= stations && to <= stations) {
        find_rows(&side->loaded, &side->store, to, minute, &side->answer);
    }
}

/* Whether a rider reads the same of two rides, but for the trip's number: one trip more moves all later numbers. */
static bool same_ride(const struct ride *before, const struct ride *after)
{
    const struct timetable *old_table = &old_side.loaded.timetable, *new_table = &new_side.loaded.timetable;
    const struct stop *old_board = boarded_at(old_table, before), *new_board = boarded_at(new_table, after);
    const struct stop *old_alight = alighted_at(old_table, before), *new_alight = alighted_at(new_table, after);

    return old_board->station == new_board->station && old_board->depart == new_board->depart &&
           old_alight->station == new_alight->station && old_alight->arrive == new_alight->arrive;
}

static bool same_row(const struct row *before, const struct row *after)
{
    int number;

    if (before->duration != after->duration || before->penalty != after->penalty || before->rides != after->rides) {
        return false;
    }
    for (number = 0; number < before->rides; number++) {
        struct ride old_ride = ride_of(before, number), new_ride = ride_of(after, number);
        if (!same_ride(&old_ride, &new_ride)) {
            return false;
        }
    }
    return true;
}

static bool same_answer(void)
{
    struct rows old_rows = rows_of(&old_side.answer), new_rows = rows_of(&new_side.answer);
    struct row before, after;

    if (old_rows.left != new_rows.left) {
        return false;
    }
    while (next_row(&old_rows, &before) && next_row(&new_rows, &after)) {
        if (!same_row(&before, &after)) {
            return false;
        }
    }
    return true;
}

static void print_answer(const char *name, const struct side *side, int minute)
{
    int rows = side->answer.rows;

    if (rows == 0) {
        say(stdout, 4, "", 0, "%s: no connection", name);
    } else {
        say(stdout, 4, "", 0, "%s: %d row%s", name, rows, plural(rows));
    }
    print_rows(stdout, &side->loaded, &side->answer, minute, 6);
}

static void compare_answers(int to, int minute)
{
    char time[TIME_BYTES];

    take_answer(&old_side, to, minute);
    take_answer(&new_side, to, minute);
    if (same_answer()) {
        return;
    }
    answers++;
    write_time(minute, time);
    print_heading();
    say(stdout, 2, "", 2, "to station %s at %s", name_of(to), time);
    print_answer("old", &old_side, minute);
    print_answer("new", &new_side, minute);
}

static int stations_of_both(void)
{
    int before = old_side.loaded.timetable.stations, after = new_side.loaded.timetable.stations;

    return before > after ? before : after;
}

/* Compares the sequences of the source, and its answers at the given minutes. False if a store was refused. */
static bool compare_source(const struct arguments *arguments)
{
    int at, to;

    headed = false;
    if (!take_store(&old_side) || !take_store(&new_side)) {
        return false;
    }
    compare_sequences();
    for (at = 0; at < arguments->times; at++) {
        for (to = 1; to <= stations_of_both(); to++) {
            if (to != source) {
                compare_answers(to, minute_named(arguments->time[at]));
            }
        }
    }
    return true;
}

/* The station that is named must be listed by one of the two. */
static int named_source(const char *word)
{
    bool more_in_old = old_side.loaded.timetable.stations > new_side.loaded.timetable.stations;

    return station_named(more_in_old ? &old_side.loaded : &new_side.loaded, word);
}

static void check_times(const struct arguments *arguments)
{
    int at;

    for (at = 0; at < arguments->times; at++) {
        minute_named(arguments->time[at]);
    }
}

int compare(const struct arguments *arguments)
{
    struct progress progress;
    int first = 1, last, code = WELL;

    load_or_end(&old_side.loaded, arguments->word[0]);
    load_or_end(&new_side.loaded, arguments->word[1]);
    check_times(arguments);
    last = stations_of_both();
    if (arguments->words > 2) {
        first = last = named_source(arguments->word[2]);
    }
    begin_progress(&progress, "station", last);
    for (source = first; source <= last; source++) {
        if (!compare_source(arguments)) {
            code = REFUSED;
        }
        tell_progress(&progress, source);
    }
    say(stdout, 0, "", 2, "%d sequence%s lost, %d gained; %d answer%s", lost, plural(lost), gained, answers,
        answers == 1 ? " differs" : "s differ");
    return code;
}
