/* Damage to the texts of jobs, of either edition. A text's buffer has room for one byte more than
 * the longest text and for what an edit puts in. */
#include "fuzz.h"

#include <string.h>

static const char *const spellings[] = {
    "",   "0",   "1",   "2",    "3",    "4",    "5",   "6",   "8",    "9",   "15",    "16",
    "24", "25",  "32",  "33",   "254",  "255",  "256", "999", "1000", "inf", "in",    "00",
    "01", "-1",  "+1",  " 0",   "0 ",   "x",    "1x",  "go",  "or",   "not", "job",   "\n",
    ",",  "1,1", "\r",  "su",   "+",    "job2", "sum", "max", "min",  "Sum", "sum,",  "max\n",
    "-2", "-15", "-16", "-255", "-256", "-0",   "-",   "--1", "-01",  "1-",  "-3,-3",
};

/* Puts a word in the place of some bytes; the new length. */
static size_t splice(uint8_t *text, size_t length, size_t at, size_t old, const char *word)
{
    size_t new = strlen(word);
    memmove(text + at + new, text + at + old, length - at - old);
    memcpy(text + at, word, new);
    return length - old + new;
}

/* About the bytes of a first line, with the kinds in it. */
#define FIRST_LINE 24

static bool is_end(uint8_t byte)
{
    return byte == ',' || byte == '\n';
}

/* Spells a field in another way that is among the first bytes of a text. */
static size_t respell(struct random *random, uint8_t *text, size_t length, size_t first)
{
    size_t at = below(random, first < length ? first : length), end;

    while (at > 0 && !is_end(text[at - 1]))
        at--;
    for (end = at; end < length && !is_end(text[end]);)
        end++;
    size_t word = below(random, sizeof spellings / sizeof spellings[0]);
    return splice(text, length, at, end - at, spellings[word]);
}

static size_t edit_byte(struct random *random, uint8_t *text, size_t length)
{
    static const char bytes[] = "0123456789,\ninfjobstaecgprlwuyd \r\t-+\x7f\x80\xff";
    char word[2] = {bytes[below(random, sizeof bytes - 1)], 0};
    size_t at = below(random, length);

    switch (below(random, 4)) {
    case 0:
        return splice(text, length, at, 1, "");
    case 1:
        return splice(text, length, at, 0, word);
    case 2:
        text[at] = draw_byte(random);
        return length;
    default:
        return splice(text, length, at, 1, word);
    }
}

/* Leaves out a line, or puts it in twice. */
static size_t edit_line(struct random *random, uint8_t *text, size_t length)
{
    size_t at = below(random, length), end;

    while (at > 0 && text[at - 1] != '\n')
        at--;
    for (end = at; end < length && text[end] != '\n';)
        end++;
    size_t line = end - at + (end < length);
    if (one_in(random, 2) || length + line > RBATL_TEXT_BYTES)
        return splice(text, length, at, line, "");
    memmove(text + at + line, text + at, length - at);
    return length + line;
}

/* Fills the text up to a length near the border, or beyond it. */
static size_t extend(struct random *random, uint8_t *text, size_t length)
{
    size_t end = RBATL_TEXT_BYTES - 1 + below(random, 3);
    if (length >= end)
        return length;
    memset(text + length, one_in(random, 2) ? '\n' : '0', end - length);
    return end;
}

size_t damage_text(struct random *random, uint8_t *text, size_t length)
{
    switch (below(random, 16)) {
    case 0:
        return one_in(random, 4) ? 0 : below(random, length + 1);
    case 1:
        return extend(random, text, length);
    case 2:
    case 3:
        return edit_line(random, text, length);
    case 4:
    case 5:
        length = respell(random, text, length, length);
        return length == 0 ? 0 : edit_byte(random, text, length);
    case 6:
    case 7:
    case 8:
    case 9:
        return edit_byte(random, text, length);
    case 10:
    case 11:
        return respell(random, text, length, FIRST_LINE);
    default:
        return respell(random, text, length, length);
    }
}

static bool is_strategic(const uint8_t *line)
{
    return memcmp(line, "next,", 5) == 0 || memcmp(line, "always,", 7) == 0 ||
           memcmp(line, "until,", 6) == 0;
}

/* The place after the next such byte, which the text has. */
static size_t past(const uint8_t *text, size_t at, uint8_t byte)
{
    while (text[at] != byte)
        at++;
    return at + 1;
}

size_t empty_bounds(struct random *random, unsigned resources, uint8_t *text, size_t length)
{
    bool all = one_in(random, 4);
    for (size_t at = 0; at < length; at = past(text, at, '\n')) {
        if (!is_strategic(text + at))
            continue;
        size_t bound = past(text, past(text, at, ','), ',');
        for (unsigned resource = 0; resource < resources; resource++) {
            if (memcmp(text + bound, "0,", 2) == 0 && (all || one_in(random, 2)))
                length = splice(text, length, bound, 1, "");
            bound = past(text, bound, ',');
        }
    }
    return length;
}

size_t fill_bounds(const uint8_t *text, size_t length, uint8_t *filled)
{
    size_t end = 0;
    for (size_t at = 0; at < length; at++) {
        filled[end++] = text[at];
        if (at + 1 < length && text[at] == ',' && text[at + 1] == ',')
            filled[end++] = '0';
    }
    return end;
}
