/* planner mistakes: what the three mistakes that planners make would lose. */
#include "commands.h"

#include "ending.h"
#include "flow.h"
#include "losses.h"
#include "progress.h"
#include "refusals.h"
#include "rows.h"
#include "sequences.h"

#include <stdio.h>

static struct loaded loaded;
static struct store store;
static struct answer answer;

/* Over all pairs: how many lose a row, and the first row lost. */
static int pairs_losing[MISTAKES];
static struct lost first_lost[MISTAKES];

/* How the program ends: a store that is refused is told, and the other sources are looked at. */
static int code = WELL;

static void print_pair(const struct lost lost[MISTAKES], int to)
{
    char time[MISTAKES][TIME_BYTES] = {"-", "-", "-"};
    char front[COLUMNS];
    int mistake;

    for (mistake = 0; mistake < MISTAKES; mistake++) {
        if (lost[mistake].minute != EMPTY) {
            write_time(lost[mistake].minute, time[mistake]);
        }
    }
    snprintf(front, sizeof front, "%-8s%-8s%-10s", time[SLOWER], time[SEATED], time[QUICKEST]);
    say(stdout, 0, front, 28, "%s > %s", loaded.names.station[store.source], loaded.names.station[to]);
}

static void count_pair(const struct lost lost[MISTAKES])
{
    int mistake;

    for (mistake = 0; mistake < MISTAKES; mistake++) {
        if (lost[mistake].minute == EMPTY) {
            continue;
        }
        if (pairs_losing[mistake] == 0) {
            first_lost[mistake] = lost[mistake];
        }
        pairs_losing[mistake]++;
    }
}

/* The pairs of a source: the targets that its store leads to, each once. Returns how many they are. */
static int look_at_source(int source)
{
    struct lost lost[MISTAKES];
    int number, to = 0, pairs = 0;

    if (!has_store(&loaded, source, &store)) {
        code = REFUSED;
        return 0;
    }
    for (number = 0; number < sequences_of(&store); number++) {
        if (target_of(&store, number) == to) {
            continue;
        }
        to = target_of(&store, number);
        find_lost(&loaded, &store, to, lost);
        print_pair(lost, to);
        count_pair(lost);
        pairs++;
    }
    return pairs;
}

static int look_at_sources(void)
{
    struct progress progress;
    int source, pairs = 0;

    begin_progress(&progress, "station", loaded.timetable.stations);
    for (source = 1; source <= loaded.timetable.stations; source++) {
        pairs += look_at_source(source);
        tell_progress(&progress, source);
    }
    return pairs;
}

/* The row of an example, asked for again. */
static void print_lost_row(const struct lost *lost)
{
    struct rows rows;
    struct row row;
    int number = 0;

    make_store(&loaded, lost->from, &store);
    find_rows(&loaded, &store, lost->to, lost->minute, &answer);
    rows = rows_of(&answer);
    while (number <= lost->row && next_row(&rows, &row)) {
        number++;
    }
    print_row(stdout, &loaded, &row, lost->minute, 4);
}

/* Who loses the row, and when. */
static void print_loser(const struct lost *lost)
{
    char since[TIME_BYTES], minute[TIME_BYTES];
    struct flow flow;

    write_time(lost->since, since);
    write_time(lost->minute, minute);
    begin_flow(&flow, stdout, 2, "", 2);
    add_words(&flow, "From station %s to station %s, who comes", loaded.names.station[lost->from],
              loaded.names.station[lost->to]);
    if (lost->since < lost->minute) {
        add_words(&flow, "from %s to %s loses this row, as it reads at %s:", since, minute, minute);
    } else {
        add_words(&flow, "at %s loses this row:", minute);
    }
    end_flow(&flow);
}

static void print_example(const char *mistake, int pairs, const struct lost *lost)
{
    printf("\n");
    say(stdout, 0, "", 2, "%s: %d pair%s", mistake, pairs, plural(pairs));
    if (pairs == 0) {
        return;
    }
    print_loser(lost);
    print_lost_row(lost);
    say(stdout, 2, "", 2, "Struck since %s.", lost->reason);
}

int show_mistakes(const struct arguments *arguments)
{
    static const char *const sentence[MISTAKES] = {
        "slower: a later departure is struck, since an earlier one is quicker",
        "seated: change minutes are charged to who stays in the seat",
        "quickest: only the quickest way is kept",
    };
    int pairs, mistake;

    load_or_end(&loaded, arguments->word[0]);
    printf("The first minute for which each mistake would lose a row; -: it loses none\n\n");
    printf("slower  seated  quickest  from > to\n");
    pairs = look_at_sources();
    printf("\n");
    say(stdout, 0, "", 2, "%d pair%s of stations with a connection, of %d", pairs, plural(pairs),
        loaded.timetable.stations * (loaded.timetable.stations - 1));
    for (mistake = 0; mistake < MISTAKES; mistake++) {
        print_example(sentence[mistake], pairs_losing[mistake], &first_lost[mistake]);
    }
    return code;
}
