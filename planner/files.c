#include "files.h"

#include "ending.h"

#include <errno.h>
#include <stdio.h>
#include <string.h>

bool read_file(const char *path, char *bytes, size_t most, size_t *count)
{
    FILE *file = fopen(path, "rb");

    if (file == NULL) {
        if (errno != ENOENT) {
            end_with_bad_input("%s: %s", path, strerror(errno));
        }
        return false;
    }
    *count = fread(bytes, 1, most, file);
    if (ferror(file)) {
        end_with_bad_input("%s: %s", path, strerror(errno));
    }
    fclose(file);
    return true;
}
