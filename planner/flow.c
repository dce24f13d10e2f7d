#include "flow.h"

#include <stdarg.h>
#include <string.h>

/* Longer than what is ever added at once: a few names and some words. */
#define WORDS_BYTES 2048

/* A byte that goes on with a character of several bytes takes no column of its own. */
static bool takes_column(char byte)
{
    return ((unsigned char)byte & 0xc0u) != 0x80u;
}

static int columns_of(const char *text, size_t length)
{
    int columns = 0;
    size_t at;

    for (at = 0; at < length; at++) {
        columns += takes_column(text[at]);
    }
    return columns;
}

static void break_line(struct flow *flow)
{
    fprintf(flow->to, "\n%*s", flow->indent, "");
    flow->column = flow->indent;
    flow->fresh = true;
}

/* A word that is longer than a line, as a path may be, is broken where the line ends. */
static void put_word(struct flow *flow, const char *word, size_t length)
{
    size_t at;

    if (!flow->fresh && flow->column + 1 + columns_of(word, length) > COLUMNS) {
        break_line(flow);
    }
    if (!flow->fresh) {
        putc(' ', flow->to);
        flow->column++;
    }
    for (at = 0; at < length; at++) {
        if (flow->column == COLUMNS && takes_column(word[at])) {
            break_line(flow);
        }
        putc(word[at], flow->to);
        flow->column += takes_column(word[at]);
    }
    flow->fresh = false;
}

static void put_words(struct flow *flow, const char *words)
{
    while (*words != '\0') {
        size_t length = strcspn(words, " ");
        if (length > 0) {
            put_word(flow, words, length);
        }
        words += length + (words[length] == ' ');
    }
}

static void add_listed(struct flow *flow, const char *format, va_list values)
{
    char words[WORDS_BYTES];

    vsnprintf(words, sizeof words, format, values);
    put_words(flow, words);
}

void begin_flow(struct flow *flow, FILE *to, int left, const char *front, int hang)
{
    flow->to = to;
    flow->indent = left + hang;
    flow->column = left + columns_of(front, strlen(front));
    flow->fresh = true;
    fprintf(to, "%*s%s", left, "", front);
}

void add_words(struct flow *flow, const char *format, ...)
{
    va_list values;

    va_start(values, format);
    add_listed(flow, format, values);
    va_end(values);
}

void end_flow(struct flow *flow)
{
    putc('\n', flow->to);
}

void say(FILE *to, int left, const char *front, int hang, const char *format, ...)
{
    struct flow flow;
    va_list values;

    begin_flow(&flow, to, left, front, hang);
    va_start(values, format);
    add_listed(&flow, format, values);
    va_end(values);
    end_flow(&flow);
}

const char *plural(int count)
{
    return count == 1 ? "" : "s";
}
