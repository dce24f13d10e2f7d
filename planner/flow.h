/* Plain text that fits 80 columns: words flow from line to line. */
#ifndef PLANNER_FLOW_H
#define PLANNER_FLOW_H

#include <stdbool.h>
#include <stdio.h>

#define COLUMNS 80

/* A paragraph that is being written. */
struct flow {
    FILE *to;
    int indent; /* of all lines but the first */
    int column;
    bool fresh; /* nothing but an indent stands on the line yet */
};

/*
 * Begins a paragraph so many columns from the left. What stands in front of its first line is printed as it is, and
 * the other lines hang so many columns further to the right than the first.
 */
void begin_flow(struct flow *flow, FILE *to, int left, const char *front, int hang);

/* Adds words, which blanks part from each other and from the words before. */
void add_words(struct flow *flow, const char *format, ...);

void end_flow(struct flow *flow);

/* A whole paragraph. */
void say(FILE *to, int left, const char *front, int hang, const char *format, ...);

/* "s" for all counts of things but 1. */
const char *plural(int count);

#endif
