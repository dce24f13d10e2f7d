#include "library.h"

#include "ending.h"
#include "files.h"

#include <errno.h>
#include <string.h>

/* No call keeps anything in it, so that one is enough. */
static uint32_t work[DAIRYEPOCH_WORK_WORDS];

static void read_text(struct loaded *loaded, const char *path)
{
    loaded->path = path;
    if (!read_file(path, loaded->text, sizeof loaded->text, &loaded->bytes)) {
        end_with_bad_input("%s: %s", path, strerror(ENOENT));
    }
}

/* The lines that reading found nothing wrong with. */
static int sound_lines(uint64_t reply)
{
    if (DAIRYEPOCH_NUMBER(reply) == DAIRYEPOCH_DONE) {
        return (int)DAIRYEPOCH_COUNT(reply);
    }
    return DAIRYEPOCH_LINE(reply) > 0 ? (int)DAIRYEPOCH_LINE(reply) - 1 : 0;
}

uint64_t load(struct loaded *loaded, const char *path)
{
    uint64_t reply, built;

    read_text(loaded, path);
    reply = dairyepoch_read((const uint8_t *)loaded->text, loaded->bytes, loaded->words, DAIRYEPOCH_TIMETABLE_WORDS);
    loaded->text_lines = sound_lines(reply);
    take_lines(&loaded->timetable, loaded->text, loaded->bytes, loaded->text_lines);
    if (DAIRYEPOCH_NUMBER(reply) != DAIRYEPOCH_DONE) {
        return reply;
    }
    built = dairyepoch_build_lines(loaded->words, DAIRYEPOCH_TIMETABLE_WORDS, loaded->line_tables,
                                   DAIRYEPOCH_LINES_WORDS, work, DAIRYEPOCH_WORK_WORDS);
    loaded->lines = (int)DAIRYEPOCH_COUNT(built);
    take_names(&loaded->names, path);
    return reply;
}

uint64_t make_store(const struct loaded *loaded, int source, struct store *store)
{
    uint64_t reply =
        dairyepoch_make_store(loaded->words, DAIRYEPOCH_TIMETABLE_WORDS, loaded->line_tables, DAIRYEPOCH_LINES_WORDS,
                              work, DAIRYEPOCH_WORK_WORDS, (uint32_t)source, store->words, DAIRYEPOCH_STORE_WORDS_MOST);

    store->source = source;
    store->length = DAIRYEPOCH_NUMBER(reply) == DAIRYEPOCH_DONE ? DAIRYEPOCH_COUNT(reply) : 0;
    return reply;
}

uint64_t answer_from(const struct loaded *loaded, const struct store *store, int to, int minute, struct answer *answer)
{
    uint64_t reply = dairyepoch_query(
        loaded->words, DAIRYEPOCH_TIMETABLE_WORDS, loaded->line_tables, DAIRYEPOCH_LINES_WORDS, store->words,
        store->length, work, DAIRYEPOCH_WORK_WORDS, (uint32_t)store->source, (uint32_t)to, (uint32_t)minute,
        answer->words, DAIRYEPOCH_ANSWER_WORDS_MOST);

    answer->rows = DAIRYEPOCH_NUMBER(reply) == DAIRYEPOCH_DONE ? (int)DAIRYEPOCH_COUNT(reply) : 0;
    return reply;
}
