/* What the program does, command by command. Each returns the exit code. */
#ifndef PLANNER_COMMANDS_H
#define PLANNER_COMMANDS_H

#include "arguments.h"

int check(const struct arguments *arguments);
int show_sequences(const struct arguments *arguments);
int ask(const struct arguments *arguments);
int show_mistakes(const struct arguments *arguments);
int compare(const struct arguments *arguments);
int write_stores(const struct arguments *arguments);

#endif
