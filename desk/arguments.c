/* The numbers of a command, from its words and, where they leave it open, from the
 * job. */
#include "command.h"

#include <string.h>

#define NOT_THE_STOCKS "not one stock for each resource of the job"

bool parse_number(const char *word, size_t length, uint8_t *number)
{
    unsigned value = 0;
    bool good = length >= 1 && length <= 3 && (length == 1 || word[0] != '0');

    for (size_t i = 0; good && i < length; i++) {
        good = word[i] >= '0' && word[i] <= '9';
        value = 10 * value + (unsigned)(word[i] - '0');
    }
    *number = (uint8_t)value;
    return good && value <= UINT8_MAX;
}

static enum status add_number(const char *word, size_t length, struct numbers *numbers)
{
    if (!parse_number(word, length, &numbers->at[numbers->count]))
        return usage(NOT_A_NUMBER);
    numbers->count++;
    return DONE;
}

/* Adds the numbers of a position, which have colons between them. */
static enum status add_position(const char *word, struct numbers *numbers)
{
    size_t first = numbers->count, length;
    enum status status = DONE;

    do {
        if (numbers->count - first > RBATL_MAX_RESOURCES)
            return usage("not a position STATE:STOCK[:STOCK]");
        length = strcspn(word, ":");
        status = add_number(word, length, numbers);
        word += length + 1;
    } while (status == DONE && word[-1] == ':');
    if (status != DONE)
        return status;
    if (numbers->count - first < 2)
        return usage("not a position STATE:STOCK[:STOCK]");
    if (numbers->width != 0 && numbers->width != numbers->count - first)
        return usage(NOT_THE_STOCKS);
    numbers->width = numbers->count - first;
    return DONE;
}

/* A row, if the first word has no colon, and positions. */
static enum status parse_sheet(size_t count, char **words, struct numbers *numbers)
{
    size_t row = count > 0 && strchr(words[0], ':') == NULL;
    enum status status = DONE;

    if (count == row || count - row > RBATL_SHEET_POSITIONS)
        return usage("a sheet has 1 to 64 positions");
    if (row)
        status = add_number(words[0], strlen(words[0]), numbers);
    for (size_t i = row; status == DONE && i < count; i++)
        status = add_position(words[i], numbers);
    return status;
}

/* Any count is let pass that some job wants. */
enum status parse_numbers(const struct command *command, size_t count, char **words,
                          struct numbers *numbers)
{
    size_t least = command->others + (command->stocks ? 1 : 0);
    size_t most = command->row + command->others + (command->stocks ? RBATL_MAX_RESOURCES : 0) +
                  (command->script ? RBATL_SCRIPT_BYTES : 0);
    enum status status = DONE;

    if (command->sheet)
        return parse_sheet(count, words, numbers);
    if (command->script && count > most)
        return usage("a script has 0 to 255 replies");
    if (count < least || count > most)
        return usage("wrong count of numbers");
    for (size_t i = 0; status == DONE && i < count; i++)
        status = add_number(words[i], strlen(words[i]), numbers);
    return status;
}

/* The only strategic row of the job; false where it has none or several. */
static bool find_only_row(const uint8_t *block, uint8_t *only)
{
    unsigned count = 0;

    for (unsigned row = 0; row < rbatl_job_rows(block); row++)
        if (rbatl_row_is_strategic(block, row)) {
            *only = (uint8_t)row;
            count++;
        }
    return count == 1;
}

/* With the job known, the count tells whether the row was left out; then it is
 * put in front. A script has it always. */
enum status complete_numbers(const struct command *command, const uint8_t *block,
                             struct numbers *numbers)
{
    size_t due = command->others + (command->stocks ? rbatl_job_resources(block) : 0);
    uint8_t row;

    if (command->sheet && numbers->width != due)
        return usage(NOT_THE_STOCKS);
    if (command->sheet)
        due = numbers->count / due * due;
    if (numbers->count == due + command->row || (command->script && numbers->count > due))
        return DONE;
    if (numbers->count != due)
        return usage(NOT_THE_STOCKS);
    if (!find_only_row(block, &row))
        return usage("no row given, and the job has not exactly one of kind next, always or until");
    memmove(numbers->at + 1, numbers->at, numbers->count);
    numbers->at[0] = row;
    numbers->count++;
    return DONE;
}
