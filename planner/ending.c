#include "ending.h"

#include <stdarg.h>
#include <stdio.h>
#include <stdlib.h>

void end_with_bad_input(const char *format, ...)
{
    va_list values;

    fprintf(stderr, "planner: ");
    va_start(values, format);
    vfprintf(stderr, format, values);
    va_end(values);
    fprintf(stderr, "\n");
    exit(BAD_INPUT);
}
