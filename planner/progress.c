#include "progress.h"

#include <stdio.h>

void begin_progress(struct progress *progress, const char *what, int all)
{
    progress->what = what;
    progress->all = all;
    progress->told = clock();
}

void tell_progress(struct progress *progress, int done)
{
    clock_t now = clock();

    if (now - progress->told >= CLOCKS_PER_SEC) {
        progress->told = now;
        fprintf(stderr, "planner: %s %d of %d\n", progress->what, done, progress->all);
    }
}
