/* What the desk says about itself. */
#include "command.h"

#include <stdio.h>
#include <string.h>

/* The words given are not repeated, since they may hold any bytes. */
enum status usage(const char *reason)
{
    const char *before = "usage: desk ";

    fprintf(stderr, "desk: %s\n", reason);
    for (size_t i = 0; i < command_count; i++) {
        fprintf(stderr, "%s%s%s", before, commands[i].name, commands[i].words);
        before = " | ";
    }
    fprintf(stderr, " < job; desk --help says more\n");
    return FAILED;
}

/* How wide a name is with its words, and some space. */
#define COLUMN 36

static void print_line(const char *name, const char *words, const char *summary)
{
    int space = COLUMN - (int)(strlen(name) + strlen(words));
    printf("  %s%s%*s%s\n", name, words, space, "", summary);
}

void show_commands(void)
{
    printf("usage: desk COMMAND < job\n\n");
    for (size_t i = 0; i < command_count; i++)
        print_line(commands[i].name, commands[i].words, commands[i].summary);
    putchar('\n');
    print_line("help", " COMMAND", "what a command does, takes and prints");
    print_line("--job", " FILE COMMAND", "a command on the job of a file");
    print_line("--help", "", "these lines");
    print_line("--version", "", "the version");
    printf("\n"
           "ROW may be left out where the job has exactly one row of kind next, always or\n"
           "until. STOCK.. is one number for each resource of the job, so that the count of\n"
           "the numbers tells whether ROW is among them; a sheet has it without a colon,\n"
           "and before a REPLY it always stands.\n"
           "\n"
           "Exit status: 0 answered; 1 refused, with the number and its words on standard\n"
           "error; 2 wrong arguments, or input or output that failed.\n");
}

void show_help(const struct command *command)
{
    printf("usage: desk %s%s < job\n\n", command->name, command->words);
    printf("%s\n%s\n%s", command->does, command->takes, command->prints);
}

void show_version(void)
{
    printf("desk %s\n", RBATL_VERSION);
}
