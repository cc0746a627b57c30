/* The commands of the desk: what they take, and what it says about them. */
#ifndef DESK_COMMAND_H
#define DESK_COMMAND_H

#include "desk.h"

/* The numbers of a command are a row, if it is asked about one, then others and,
 * between them, perhaps a stock for each resource of the job. In a sheet those
 * after the row come once for each position, and the replies of a script follow
 * them. It starts from the job's block, or else from its text. */
struct command {
    const char *name;
    bool row;
    size_t others;
    bool stocks;
    bool sheet;
    bool script;
    enum status (*run)(const uint8_t *block, const struct numbers *numbers);
    enum status (*run_on_text)(const struct text *text);

    /* What it is called with, each word after a space; what it is for, in a line;
     * and what it does, what it takes and what it prints, in lines. */
    const char *words;
    const char *summary;
    const char *does;
    const char *takes;
    const char *prints;
};

extern const struct command commands[];
extern const size_t command_count;

/* The command of a name, or a null pointer. */
const struct command *find_command(const char *name);

/* The numbers that the words give, before the job is known; and all of them, the
 * row included, with the job. */
enum status parse_numbers(const struct command *command, size_t count, char **words,
                          struct numbers *numbers);
enum status complete_numbers(const struct command *command, const uint8_t *block,
                             struct numbers *numbers);

/* Says on standard error what is wrong with the arguments; the status for it. */
enum status usage(const char *reason);

/* What the desk says about itself, on standard output. */
void show_commands(void);
void show_help(const struct command *command);
void show_version(void);

#endif
