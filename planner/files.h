/* Files that are read whole. */
#ifndef PLANNER_FILES_H
#define PLANNER_FILES_H

#include <stdbool.h>
#include <stddef.h>

/*
 * Reads a file, or its first so many bytes, and tells how many there were. False if it is not there. One that is
 * there and cannot be read is bad input.
 */
bool read_file(const char *path, char *bytes, size_t most, size_t *count);

#endif
