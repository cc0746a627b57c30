/* Shows where a refused text stops, as compilers do. */
#include "desk.h"

#include <stdio.h>

/* The most that is shown of a line before the field, and from it on. */
enum { BEFORE = 60, FROM = 20 };

/* Bytes that a terminal may act on are not shown as they are. */
static void print_bytes(const uint8_t *bytes, size_t length)
{
    for (size_t i = 0; i < length; i++)
        fputc(bytes[i] >= ' ' && bytes[i] <= '~' ? bytes[i] : '?', stderr);
    fputc('\n', stderr);
}

void show_stop(const struct text *text)
{
    int32_t stop = rbatl_read_at(text->bytes, text->length);
    size_t line = 1;

    if (stop < 0) /* too long to be looked at */
        return;
    size_t at = (size_t)stop, first = at, end = at;
    while (first > 0 && text->bytes[first - 1] != '\n')
        first--;
    while (end < text->length && text->bytes[end] != '\n')
        end++;
    for (size_t i = 0; i < first; i++)
        line += text->bytes[i] == '\n';
    fprintf(stderr, "line %zu, column %zu:\n", line, at - first + 1);
    if (at - first > BEFORE)
        first = at - BEFORE;
    if (end - at > FROM)
        end = at + FROM;
    print_bytes(text->bytes + first, end - first);
    fprintf(stderr, "%*s^\n", (int)(at - first), "");
}
