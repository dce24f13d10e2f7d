/* The library's calls on a timetable file, with all that is lent to them. */
#ifndef PLANNER_LIBRARY_H
#define PLANNER_LIBRARY_H

#include "dairyepoch.h"
#include "names.h"
#include "timetable.h"

/* A timetable file: its text, what the library made of it, and what people read of it. */
struct loaded {
    const char *path;
    char text[DAIRYEPOCH_TEXT_BYTES_MOST + 1]; /* one more than a text may have, so that a longer one is refused */
    size_t bytes;
    int text_lines;
    int lines; /* of the line tables */
    uint16_t words[DAIRYEPOCH_TIMETABLE_WORDS];
    uint16_t line_tables[DAIRYEPOCH_LINES_WORDS];
    struct timetable timetable;
    struct names names;
};

/* The store of a source, or one that holds some sequences from it. */
struct store {
    int source;
    size_t length;
    uint16_t words[DAIRYEPOCH_STORE_WORDS_MOST];
};

struct answer {
    int rows;
    uint32_t words[DAIRYEPOCH_ANSWER_WORDS_MOST];
};

/*
 * Reads a timetable file and builds its line tables. The reply is that of reading; after a refusal there is the text,
 * and of the timetable what the lines before the refused one say.
 */
uint64_t load(struct loaded *loaded, const char *path);

/* Makes the store of a source. The reply is the library's. */
uint64_t make_store(const struct loaded *loaded, int source, struct store *store);

/*
 * Asks a store for the rows from its source to a station at a minute; where this is refused, there are none. The
 * reply is the library's.
 */
uint64_t answer_from(const struct loaded *loaded, const struct store *store, int to, int minute, struct answer *answer);

#endif
