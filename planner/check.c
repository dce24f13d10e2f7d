/* planner check: is the timetable accepted, and if not, what is wrong with it? */
#include "commands.h"

#include "ending.h"
#include "flow.h"
#include "refusals.h"

static void print_count(const char *what, int count)
{
    printf("  %-14s %5d\n", what, count);
}

int check(const struct arguments *arguments)
{
    static struct loaded loaded;
    uint64_t reply = load(&loaded, arguments->word[0]);

    if (DAIRYEPOCH_NUMBER(reply) != DAIRYEPOCH_DONE) {
        tell_refused_text(stdout, &loaded, reply);
        return REFUSED;
    }
    say(stdout, 0, "", 2, "%s: accepted", loaded.path);
    print_count("stations", loaded.timetable.stations);
    print_count("walks", loaded.timetable.walks);
    print_count("trips", loaded.timetable.trips);
    print_count("stops", loaded.timetable.stops);
    print_count("lines", loaded.lines);
    print_count("lines of text", loaded.text_lines);
    return WELL;
}
