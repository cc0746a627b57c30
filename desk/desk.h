/* What the commands of the desk share. */
#ifndef DESK_H
#define DESK_H

#include "job.h"

/* The exit status of the program. */
enum status { DONE = 0, REFUSED = 1, FAILED = 2 };

/* The most numbers that a command takes: a row, a state and a script, which are
 * more than a row and the positions of a sheet. */
#define MAX_NUMBERS (2 + RBATL_SCRIPT_BYTES)

/* What is said of a word that is no number. */
#define NOT_A_NUMBER "not a number from 0 to 255 without leading zeros"

/* The numbers that a command was given, and how many of them each position of a
 * sheet has. */
struct numbers {
    uint8_t at[MAX_NUMBERS];
    size_t count;
    size_t width;
};

/* The table of a row, as rbatl_table fills it. */
struct table {
    uint8_t ranks[RBATL_RANKS_BYTES];
    uint8_t moves[RBATL_MOVES_BYTES];
};

/* A text. One byte more than it may have shows that it is too long, also where
 * it never ends. */
struct text {
    uint8_t bytes[RBATL_TEXT_BYTES + 1];
    size_t length;
};

/* The number that the bytes of a word write, as in the text of a job; false where
 * it is none. */
bool parse_number(const char *word, size_t length, uint8_t *number);

/* Takes the job's text from a file, or from standard input without one. */
enum status read_text(const char *file, struct text *text);

/* Says on standard error why something was not read; the status for it. */
enum status cannot_read(const char *what);

/* Reads the text into a block. */
enum status read_job(const struct text *text, uint8_t *block);

/* Fills the table of a strategic row. */
enum status fill_table(const uint8_t *block, unsigned row, struct table *table);

/* The states that satisfy a row as a set, bit s for state s. */
enum status find_states(const uint8_t *block, unsigned row, uint32_t *set);

/* Says on standard error why a call refused; the status for it. */
enum status refuse(int32_t answer);

/* Shows on standard error the line where reading a refused text stops, with a
 * mark under the field. */
void show_stop(const struct text *text);

/* The commands. Each prints on standard output. */
enum status list(const struct text *text);
enum status check(const struct text *text);
enum status show_table(const uint8_t *block, const struct numbers *numbers);
enum status show_move(const uint8_t *block, const struct numbers *numbers);
enum status show_reply(const uint8_t *block, const struct numbers *numbers);
enum status show_sheet(const uint8_t *block, const struct numbers *numbers);
enum status show_needs(const uint8_t *block, const struct numbers *numbers);
enum status show_rehearsal(const uint8_t *block, const struct numbers *numbers);
enum status draw(const uint8_t *block, const struct numbers *numbers);

#endif
