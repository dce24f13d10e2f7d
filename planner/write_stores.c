/* planner stores: the store of every source, as a file for a display. */
#include "commands.h"

#include "ending.h"
#include "flow.h"
#include "refusals.h"

#include <errno.h>
#include <stdio.h>
#include <string.h>

#define PATH_BYTES 4096

static struct loaded loaded;
static struct store store;

static bool write_words(FILE *file)
{
    size_t at;

    for (at = 0; at < store.length; at++) {
        putc(store.words[at] & 0xff, file);
        putc(store.words[at] >> 8, file);
    }
    return !ferror(file);
}

/* Writes the store to a file, the lower byte of each word first. */
static void write_file(const char *path)
{
    FILE *file = fopen(path, "wb");

    if (file == NULL) {
        end_with_bad_input("%s: %s", path, strerror(errno));
    }
    if (!write_words(file) || fclose(file) != 0) {
        end_with_bad_input("%s: %s", path, strerror(errno));
    }
}

static void write_store(const char *folder)
{
    char path[PATH_BYTES];

    if (snprintf(path, sizeof path, "%s/%d.store", folder, store.source) >= (int)sizeof path) {
        end_with_bad_input("the path of the folder is too long");
    }
    write_file(path);
    say(stdout, 0, "", 2, "station %s: %s, %lu words", loaded.names.station[store.source], path,
        (unsigned long)store.length);
}

int write_stores(const struct arguments *arguments)
{
    int source, code = WELL;

    load_or_end(&loaded, arguments->word[0]);
    for (source = 1; source <= loaded.timetable.stations; source++) {
        if (has_store(&loaded, source, &store)) {
            write_store(arguments->word[1]);
        } else {
            code = REFUSED;
        }
    }
    return code;
}
