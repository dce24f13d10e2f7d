/* Refusals of the library, told in words, and the calls after which nothing is left to do but to tell one. */
#ifndef PLANNER_REFUSALS_H
#define PLANNER_REFUSALS_H

#include "library.h"

#include <stdio.h>

/* Tells a refusal of a timetable text: the line and its text, the field to blame, what is wrong, what is right. */
void tell_refused_text(FILE *to, const struct loaded *loaded, uint64_t reply);

/* As load. A refusal is told on standard error and ends the program. */
void load_or_end(struct loaded *loaded, const char *path);

/* As make_store. A refusal is told on standard error, and then there is no store. */
bool has_store(const struct loaded *loaded, int source, struct store *store);

/* Whether there is a connection, with the rows if there is. Any other refusal is told and ends the program. */
bool find_rows(const struct loaded *loaded, const struct store *store, int to, int minute, struct answer *answer);

#endif
