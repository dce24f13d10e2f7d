/* planner sequences: what the store of a station holds, and why. */
#include "commands.h"

#include "ending.h"
#include "flow.h"
#include "progress.h"
#include "reasons.h"
#include "refusals.h"
#include "rows.h"
#include "sequences.h"

#include <stdio.h>

/* In the place of a target where none is named. */
#define ALL_TARGETS 0

static struct loaded loaded;
static struct store store;

/* The sequences from this one on that have its target. */
static struct group group_at(int begin)
{
    struct group group;

    group.target = target_of(&store, begin);
    group.begin = begin;
    group.end = begin;
    while (group.end < sequences_of(&store) && target_of(&store, group.end) == group.target) {
        group.end++;
    }
    return group;
}

static void print_why(int number)
{
    struct reason reason = reason_of(&loaded, &store, number);
    char time[TIME_BYTES];

    write_time(reason.minute, time);
    say(stdout, 8, "", 0, "for who comes at %s:", time);
    print_row(stdout, &loaded, &reason.row, reason.minute, 8);
}

static void print_group(const struct group *group, bool why)
{
    int number;

    say(stdout, 2, "", 2, "to station %s", loaded.names.station[group->target]);
    for (number = group->begin; number < group->end; number++) {
        struct sequence sequence;
        struct flow flow;

        read_sequence(&store, number, &sequence);
        begin_flow(&flow, stdout, 4, "", 4);
        add_sequence(&flow, &loaded.names, &sequence);
        end_flow(&flow);
        if (why) {
            print_why(number);
        }
    }
}

static void print_csv_why(int number)
{
    struct reason reason = reason_of(&loaded, &store, number);
    char time[TIME_BYTES];
    int at;

    write_time(reason.minute, time);
    printf(",%s,%d,%d,", time, reason.row.duration, reason.row.penalty);
    for (at = 0; at < reason.row.rides; at++) {
        struct ride ride = ride_of(&reason.row, at);
        printf("%s%d:%d-%d", at == 0 ? "" : " ", ride.trip, ride.board, ride.alight);
    }
}

/* The stations of a sequence; where one walks from one to another, both with a - between them. */
static void print_csv_stations(const struct sequence *sequence)
{
    int at;

    printf("%d", sequence->source);
    for (at = 0; at < sequence->changes; at++) {
        printf(" %d", sequence->alighted[at]);
        if (sequence->alighted[at] != sequence->boarded[at]) {
            printf("-%d", sequence->boarded[at]);
        }
    }
    printf(" %d", sequence->target);
}

static void print_csv_group(const struct group *group, bool why)
{
    int number;

    for (number = group->begin; number < group->end; number++) {
        struct sequence sequence;

        read_sequence(&store, number, &sequence);
        printf("%d,%d,%d,", store.source, group->target, sequence.changes);
        print_csv_stations(&sequence);
        if (why) {
            print_csv_why(number);
        }
        printf("\n");
    }
}

/* The sequences to a target, or to all. */
static void print_sequences(int target, bool csv, bool why)
{
    struct progress progress;
    struct group group;
    int begin;

    begin_progress(&progress, "sequence", sequences_of(&store));
    for (begin = 0; begin < sequences_of(&store); begin = group.end) {
        group = group_at(begin);
        if (target != ALL_TARGETS && target != group.target) {
            continue;
        }
        if (why) {
            find_reasons(&loaded, &store, &group, &progress);
        }
        if (csv) {
            print_csv_group(&group, why);
        } else {
            print_group(&group, why);
        }
    }
}

/* How many sequences lead to a target, or to all. */
static int count_sequences(int target)
{
    int number, count = 0;

    for (number = 0; number < sequences_of(&store); number++) {
        count += target == ALL_TARGETS || target_of(&store, number) == target;
    }
    return count;
}

static void print_heading(int target)
{
    int count = count_sequences(target);
    struct flow flow;

    begin_flow(&flow, stdout, 0, "", 2);
    add_words(&flow, "From station %s", loaded.names.station[store.source]);
    if (target != ALL_TARGETS) {
        add_words(&flow, "to station %s", loaded.names.station[target]);
    }
    if (count == 0) {
        add_words(&flow, "there is no sequence");
    } else {
        add_words(&flow, "there %s %d sequence%s", count == 1 ? "is" : "are", count, plural(count));
    }
    end_flow(&flow);
}

int show_sequences(const struct arguments *arguments)
{
    bool csv = (arguments->options & OPTION_CSV) != 0;
    bool why = (arguments->options & OPTION_WHY) != 0;
    int target = ALL_TARGETS;
    int source;

    load_or_end(&loaded, arguments->word[0]);
    source = station_named(&loaded, arguments->word[1]);
    if (arguments->words > 2) {
        target = other_station_named(&loaded, arguments->word[2], source);
    }
    if (!has_store(&loaded, source, &store)) {
        return REFUSED;
    }
    if (csv) {
        printf("source,target,changes,stations%s\n", why ? ",minute,duration,penalty,rides" : "");
    } else {
        print_heading(target);
    }
    print_sequences(target, csv, why);
    return WELL;
}
