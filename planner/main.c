/*
 * The planner's program: checks timetables, shows the sequences of a station and why they are stored, answers as a
 * display would, and tells what mistakes and changes do. All of it comes from the public calls of dairyepoch.h.
 */
#include "commands.h"
#include "ending.h"

#include <errno.h>
#include <stdio.h>
#include <string.h>

struct command {
    const char *name;
    int (*run)(const struct arguments *arguments);
    const char *usage;
    int words_least;
    int words_most;
    int options;
    const char *help;
};

static const struct command commands[] = {
    {"check", check, "planner check FILE", 1, 1, 0,
     "Is the timetable accepted? Counts its stations, walks, trips, stops and lines;\n"
     "or shows the line that is refused, the field to blame, what is wrong with it\n"
     "and what would be right.\n"},
    {"sequences", show_sequences, "planner sequences FILE STATION [TARGET] [--why] [--csv]", 2, 3,
     OPTION_WHY | OPTION_CSV,
     "The sequences of stations that a display stores for STATION, to TARGET or to\n"
     "all: the station, those where changing can pay, the target. Where one walks to\n"
     "change, both stations are named.\n"
     "  --why  for each a minute and a connection for which it is optimal\n"
     "  --csv  a line for each: source, target, changes, stations; with --why also\n"
     "         minute, duration, penalty, rides (trip:boarding stop-alighting stop)\n"},
    {"ask", ask, "planner ask FILE FROM TO hh:mm [--csv]", 4, 4, OPTION_CSV,
     "The rows that a rider reads who is at FROM at that time and wants to go to TO.\n"
     "Minutes count from that time until arrival. Of two rows the slower one costs\n"
     "fewer points.\n"
     "  --csv  a line for each ride\n"},
    {"mistakes", show_mistakes, "planner mistakes FILE", 1, 1, 0,
     "For each pair of stations: the first time at which a rider would miss a row,\n"
     "if the planner had made one of the three mistakes, with the first example of\n"
     "each.\n"
     "  slower    a departure is struck since one that leaves earlier takes fewer\n"
     "            minutes, from departure to arrival, and costs no more\n"
     "  seated    a connection is struck since a bus on which the rider stays stands\n"
     "            at a station for less than a change there takes\n"
     "  quickest  all rows are struck but the quickest\n"},
    {"compare", compare, "planner compare OLD NEW [STATION] [--at hh:mm]..", 2, 3, OPTION_AT,
     "The sequences that the new timetable loses and gains, for STATION or for all.\n"
     "  --at  compares the answers at this time as well, to all stations; rows that\n"
     "        differ in nothing but the numbers of trips are the same\n"},
    {"stores", write_stores, "planner stores FILE FOLDER", 2, 2, 0,
     "Writes the store of every station to FOLDER, which must be there: 1.store and\n"
     "so on, words of two bytes, the lower one first (docs/LAYOUT.md).\n"},
};

#define COMMANDS (sizeof commands / sizeof commands[0])

static void print_help(void)
{
    size_t at;

    printf("planner: what a display answers, for those who make timetables\n\n");
    for (at = 0; at < COMMANDS; at++) {
        printf("  %s\n", commands[at].usage);
    }
    printf("\nplanner COMMAND --help tells more. FILE is a timetable text (docs/FORMAT.md).\n"
           "A file names.txt beside it has names for what people read, line by line:\n"
           "S,1,Valley school for station 1, T,12,Market bus for trip 12.\n"
           "Exit code: 0; 1 if the library refuses something; 2 for bad input.\n");
}

static const struct command *command_named(const char *name)
{
    size_t at;

    for (at = 0; at < COMMANDS; at++) {
        if (strcmp(commands[at].name, name) == 0) {
            return &commands[at];
        }
    }
    end_with_bad_input("'%s' is no command: planner --help tells them", name);
    return NULL;
}

static int option_named(const char *word)
{
    if (strcmp(word, "--csv") == 0) {
        return OPTION_CSV;
    }
    if (strcmp(word, "--why") == 0) {
        return OPTION_WHY;
    }
    return strcmp(word, "--at") == 0 ? OPTION_AT : 0;
}

/* Takes the option that a word is, and for --at the word after it. Returns how many words were taken. */
static int take_option(struct arguments *arguments, const struct command *command, char **words)
{
    int option = option_named(words[0]);

    if ((option & command->options) == 0) {
        end_with_bad_input("no option '%s': planner %s --help tells them", words[0], command->name);
    }
    arguments->options |= option;
    if (option != OPTION_AT) {
        return 1;
    }
    if (words[1] == NULL || arguments->times == TIMES_MOST) {
        end_with_bad_input("--at wants one time after it, and stands at most %d times", TIMES_MOST);
    }
    arguments->time[arguments->times++] = words[1];
    return 2;
}

/* Parts the words after a command's name from its options. The list of words ends with NULL. */
static void take_arguments(struct arguments *arguments, const struct command *command, char **words)
{
    memset(arguments, 0, sizeof *arguments);
    while (*words != NULL) {
        if (strncmp(*words, "--", 2) == 0) {
            words += take_option(arguments, command, words);
            continue;
        }
        if (arguments->words == command->words_most) {
            end_with_bad_input("'%s' is a word too many: planner %s --help tells what is wanted", *words,
                               command->name);
        }
        arguments->word[arguments->words++] = *words++;
    }
    if (arguments->words < command->words_least) {
        end_with_bad_input("a word is missing: planner %s --help tells what is wanted", command->name);
    }
}

static bool wants_help(char **words)
{
    while (*words != NULL && strcmp(*words, "--help") != 0) {
        words++;
    }
    return *words != NULL;
}

static int run(const struct command *command, char **words)
{
    struct arguments arguments;

    if (wants_help(words)) {
        printf("%s\n\n%s", command->usage, command->help);
        return WELL;
    }
    take_arguments(&arguments, command, words);
    return command->run(&arguments);
}

int main(int count, char **words)
{
    int code = WELL;

    if (count < 2) {
        end_with_bad_input("a command is missing: planner --help tells them");
    }
    if (strcmp(words[1], "--help") == 0) {
        print_help();
    } else {
        code = run(command_named(words[1]), words + 2);
    }
    if (fflush(stdout) != 0 || ferror(stdout)) {
        end_with_bad_input("standard output: %s", strerror(errno));
    }
    return code;
}
