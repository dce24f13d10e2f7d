/* Why a timetable text was refused: the field to blame, what is wrong, and what would be right. */
#ifndef PLANNER_BLAME_H
#define PLANNER_BLAME_H

#include "library.h"

#define BLAME_BYTES 240
/* In the place of a field where the whole line, or the end of the text, is to blame. */
#define NO_FIELD (-1)

struct blame {
    int field;
    char wrong[BLAME_BYTES];
    char right[BLAME_BYTES];
};

/* The reply is a refusal of this text. The line is the refused one; none for a text that is too long or ends early. */
void find_blame(const struct loaded *loaded, uint64_t reply, const struct line *line, struct blame *blame);

/* What is wrong with a field, or with the line, and what would be right. */
void put_wrong(struct blame *blame, int field, const char *format, ...);
void put_right(struct blame *blame, const char *format, ...);

/* Blames a line that has no shape. */
void blame_shape(const struct line *line, struct blame *blame);

#endif
