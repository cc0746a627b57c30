/* The desk: reads a job on standard input, or from a file, and answers about its
 * rows.
 *
 * Exit status: 0 answered, 1 refused by the library, 2 wrong arguments, or
 * input or output that failed. */
#include "command.h"

#include <errno.h>
#include <stdio.h>
#include <string.h>

/* What was printed must have come out. */
static enum status finish(void)
{
    errno = 0;
    bool failed = ferror(stdout) != 0;
    if (fclose(stdout) != 0 || failed) {
        fprintf(stderr, "desk: cannot write: %s\n", errno ? strerror(errno) : "output failed");
        return FAILED;
    }
    return DONE;
}

static enum status answer(const struct command *command, const struct text *text,
                          struct numbers *numbers)
{
    uint8_t block[RBATL_BLOCK_BYTES];

    if (command->run_on_text != NULL)
        return command->run_on_text(text);
    enum status status = read_job(text, block);
    if (status == DONE)
        status = complete_numbers(command, block, numbers);
    return status == DONE ? command->run(block, numbers) : status;
}

/* The arguments are tried before the job is read, from a file if there is one. */
static enum status run_command(const char *file, size_t count, char **words)
{
    struct numbers numbers = {.count = 0};
    struct text text;

    const struct command *command = find_command(words[0]);
    if (command == NULL)
        return usage("unknown command");
    enum status status = parse_numbers(command, count - 1, words + 1, &numbers);
    if (status == DONE)
        status = read_text(file, &text);
    return status == DONE ? answer(command, &text, &numbers) : status;
}

/* The words are the option, its file, and a command with its own. */
static enum status run_on_file(size_t count, char **words)
{
    if (count < 3)
        return usage("--job takes a file and a command");
    return run_command(words[1], count - 2, words + 2);
}

static enum status help(size_t count, char **words)
{
    if (count > 2)
        return usage("help takes one command");
    if (count == 1) {
        show_commands();
        return DONE;
    }
    const struct command *command = find_command(words[1]);
    if (command == NULL)
        return usage("unknown command");
    show_help(command);
    return DONE;
}

/* An option of the desk itself, which takes no more words. */
static enum status run_option(size_t count, void (*show)(void))
{
    if (count > 1)
        return usage("an option takes no more words");
    show();
    return DONE;
}

static enum status run(size_t count, char **words)
{
    if (strcmp(words[0], "--help") == 0)
        return run_option(count, show_commands);
    if (strcmp(words[0], "--version") == 0)
        return run_option(count, show_version);
    if (strcmp(words[0], "help") == 0)
        return help(count, words);
    if (strcmp(words[0], "--job") == 0)
        return run_on_file(count, words);
    return run_command(NULL, count, words);
}

int main(int argc, char **argv)
{
    enum status status = argc < 2 ? usage("no command") : run((size_t)argc - 1, argv + 1);
    return (int)(status == DONE ? finish() : status);
}
