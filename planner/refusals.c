#include "refusals.h"

#include "blame.h"
#include "ending.h"
#include "flow.h"

#include <stdlib.h>

#define EXCERPT_INDENT 4
#define EXCERPT_COLUMNS (COLUMNS - EXCERPT_INDENT)

/* The line of this number; false if the text has no such line. */
static bool line_of(const struct loaded *loaded, uint32_t number, struct line *line)
{
    const char *at = loaded->text;
    const char *end = loaded->text + loaded->bytes;
    uint32_t count = 0;

    while (count < number && next_line(&at, end, line)) {
        count++;
    }
    return number > 0 && count == number;
}

/* The line as far as it fits, with a mark for each byte that is no printed one. */
static void print_excerpt(FILE *to, const struct field *line)
{
    size_t at;

    fprintf(to, "%*s", EXCERPT_INDENT, "");
    for (at = 0; at < line->length && at < EXCERPT_COLUMNS; at++) {
        char byte = line->begin[at];
        putc(' ' <= byte && byte <= '~' ? byte : '?', to);
    }
    putc('\n', to);
}

/* Marks a field below the line, as far as it was printed; an empty field by a mark where it should stand. */
static void print_marks(FILE *to, const struct field *line, const struct field *field)
{
    size_t before = (size_t)(field->begin - line->begin);
    size_t marks = field->length > 0 ? field->length : 1;

    if (before >= EXCERPT_COLUMNS) {
        return;
    }
    if (marks > EXCERPT_COLUMNS - before) {
        marks = EXCERPT_COLUMNS - before;
    }
    fprintf(to, "%*s", EXCERPT_INDENT + (int)before, "");
    for (; marks > 0; marks--) {
        putc('^', to);
    }
    putc('\n', to);
}

/* Where the text was refused: in a line, at its end, or as a whole. */
static void print_place(FILE *to, const struct loaded *loaded, uint64_t reply)
{
    const char *where = DAIRYEPOCH_NUMBER(reply) == DAIRYEPOCH_ENDS_EARLY ? "at its end," : "in";

    if (DAIRYEPOCH_LINE(reply) == 0) {
        say(to, 0, "", 2, "%s: refused", loaded->path);
    } else {
        say(to, 0, "", 2, "%s: refused %s line %lu", loaded->path, where, (unsigned long)DAIRYEPOCH_LINE(reply));
    }
}

void tell_refused_text(FILE *to, const struct loaded *loaded, uint64_t reply)
{
    uint32_t number = DAIRYEPOCH_NUMBER(reply);
    struct line line;
    struct blame blame;
    bool has_line = line_of(loaded, DAIRYEPOCH_LINE(reply), &line);

    print_place(to, loaded, reply);
    say(to, 0, "", 2, "number %lu: %s", (unsigned long)number, dairyepoch_words(number));
    find_blame(loaded, reply, has_line ? &line : NULL, &blame);
    if (has_line && line.whole.length > 0) {
        print_excerpt(to, &line.whole);
    }
    if (has_line && blame.field != NO_FIELD) {
        print_marks(to, &line.whole, &line.field[blame.field]);
    }
    say(to, 0, "wrong: ", 7, "%s", blame.wrong);
    say(to, 0, "right: ", 7, "%s", blame.right);
}

/* Tells that something to do with a station is refused. */
static void tell_refused(const struct loaded *loaded, const char *what, int station, uint64_t reply)
{
    uint32_t number = DAIRYEPOCH_NUMBER(reply);

    say(stderr, 0, "", 2, "%s: the %s of station %s is refused with number %lu: %s", loaded->path, what,
        loaded->names.station[station], (unsigned long)number, dairyepoch_words(number));
}

void load_or_end(struct loaded *loaded, const char *path)
{
    uint64_t reply = load(loaded, path);

    if (DAIRYEPOCH_NUMBER(reply) != DAIRYEPOCH_DONE) {
        tell_refused_text(stderr, loaded, reply);
        exit(REFUSED);
    }
}

bool has_store(const struct loaded *loaded, int source, struct store *store)
{
    uint64_t reply = make_store(loaded, source, store);

    if (DAIRYEPOCH_NUMBER(reply) != DAIRYEPOCH_DONE) {
        tell_refused(loaded, "store", source, reply);
    }
    return DAIRYEPOCH_NUMBER(reply) == DAIRYEPOCH_DONE;
}

bool find_rows(const struct loaded *loaded, const struct store *store, int to, int minute, struct answer *answer)
{
    uint64_t reply = answer_from(loaded, store, to, minute, answer);
    uint32_t number = DAIRYEPOCH_NUMBER(reply);

    if (number != DAIRYEPOCH_DONE && number != DAIRYEPOCH_NO_CONNECTION) {
        tell_refused(loaded, "query", store->source, reply);
        exit(REFUSED);
    }
    return number == DAIRYEPOCH_DONE;
}
