/* A rehearsal at the terminal, where a pupil is asked for each reply. */
#include "rehearse.h"
#include "words.h"

#include <errno.h>
#include <stdio.h>

/* A line that was typed, without its end. What does not fit is counted alone, so
 * that it is no number. */
struct line {
    char bytes[8];
    size_t length;
};

/* How a line or a reply came. */
enum taken { TAKEN, ENDED, BROKEN };

static void print_replies(const struct rehearsal *rehearsal)
{
    unsigned state = last_state(rehearsal);

    for (unsigned number = 0; number < RBATL_JOINT_ACTIONS; number++)
        if (is_reply(rehearsal->block, rehearsal->row, state, number)) {
            printf("  ");
            print_reply(rehearsal->block, rehearsal->row, number);
            putchar('\n');
        }
}

/* An empty line and the end of input end the rehearsal, and so does output that
 * fails: nobody sees the question then. */
static enum taken take_line(struct line *line)
{
    int byte = EOF;

    line->length = 0;
    printf("your reply: ");
    if (fflush(stdout) != 0)
        return ENDED;
    errno = 0;
    while ((byte = getchar()) != EOF && byte != '\n') {
        if (line->length < sizeof line->bytes)
            line->bytes[line->length] = (char)byte;
        line->length++;
    }
    if (byte == EOF)
        putchar('\n');
    if (ferror(stdin))
        return BROKEN;
    return line->length > 0 ? TAKEN : ENDED;
}

/* Asks until the library takes the reply. */
static enum taken take_reply(struct rehearsal *rehearsal)
{
    struct line line;
    uint8_t *reply = &rehearsal->script[rehearsal->length];
    enum taken taken;

    while ((taken = take_line(&line)) == TAKEN) {
        if (!parse_number(line.bytes, line.length, reply))
            printf("that is " NOT_A_NUMBER "\n");
        else if (play(rehearsal, rehearsal->length + 1) < 0)
            printf("reply %u is not available here\n", *reply);
        else
            break;
    }
    rehearsal->length += taken == TAKEN;
    return taken;
}

/* A rehearsal of always has no end of its own but the longest script's. */
static bool goes_on(const struct rehearsal *rehearsal)
{
    unsigned kind = rbatl_row_kind(rehearsal->block, rehearsal->row);

    return rehearsal->length < RBATL_SCRIPT_BYTES &&
           (kind == RBATL_ALWAYS || !rbatl_report_finished(rehearsal->report));
}

enum status ask(struct rehearsal *rehearsal)
{
    enum taken taken = TAKEN;

    clearerr(stdin); /* the job may have come from there, up to its end */
    if (goes_on(rehearsal))
        printf("type the number of a reply to each move; an empty line ends the rehearsal\n");
    while (taken == TAKEN && goes_on(rehearsal)) {
        print_turn(rehearsal);
        putchar('\n');
        print_replies(rehearsal);
        taken = take_reply(rehearsal);
    }
    if (taken == BROKEN)
        return cannot_read("a reply");
    if (taken == TAKEN) {
        print_last(rehearsal);
        putchar('\n');
    }
    return DONE;
}
