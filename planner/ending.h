/* How the program ends, and what it says then. */
#ifndef PLANNER_ENDING_H
#define PLANNER_ENDING_H

/* Exit codes: all went well, the library refused something, the input is none. */
enum { WELL = 0, REFUSED = 1, BAD_INPUT = 2 };

/* Tells one line on standard error and ends the program with BAD_INPUT. */
void end_with_bad_input(const char *format, ...);

#endif
