/* A rehearsal by a script, a line for each turn, and how it ends. */
#define _POSIX_C_SOURCE 200809L

#include "rehearse.h"
#include "words.h"

#include <stdio.h>
#include <string.h>
#include <unistd.h>

int32_t play(struct rehearsal *rehearsal, size_t replies)
{
    uint8_t room[RBATL_ROOM_BYTES];

    return rbatl_rehearse(rehearsal->block, RBATL_BLOCK_BYTES, rehearsal->row, rehearsal->state,
                          rehearsal->script, replies, rehearsal->report,
                          sizeof rehearsal->report, room, sizeof room);
}

unsigned last_state(const struct rehearsal *rehearsal)
{
    return rbatl_state_of(rehearsal->block, rehearsal->row,
                          rbatl_report_position(rehearsal->report));
}

void print_last(const struct rehearsal *rehearsal)
{
    print_numbered(rehearsal->block, rehearsal->row, rbatl_report_position(rehearsal->report));
}

void print_turn(const struct rehearsal *rehearsal)
{
    size_t position = rbatl_report_position(rehearsal->report);

    print_last(rehearsal);
    printf(": ");
    print_move(rehearsal->block, rehearsal->row,
               rbatl_move_at(rehearsal->table.moves, position));
}

/* Says on standard error which reply is not available, and what is in its place. */
static void show_bad_reply(struct rehearsal *rehearsal)
{
    const char *before = "";
    size_t good = 0;

    play(rehearsal, 0);
    while (good + 1 < rehearsal->length && play(rehearsal, good + 1) >= 0)
        good++;
    unsigned state = last_state(rehearsal);
    fprintf(stderr, "place %zu of the script has %u; in state %u the replies are ", good + 1,
            rehearsal->script[good], state);
    for (unsigned number = 0; number < RBATL_JOINT_ACTIONS; number++)
        if (is_reply(rehearsal->block, rehearsal->row, state, number)) {
            fprintf(stderr, "%s%u", before, number);
            before = ", ";
        }
    fputc('\n', stderr);
}

/* Prints the turns and the last position of a script that is played to its end. */
static void print_turns(struct rehearsal *rehearsal)
{
    size_t moves = rbatl_report_moves(rehearsal->report);

    for (size_t turn = 0; turn < moves; turn++) {
        play(rehearsal, turn);
        print_turn(rehearsal);
        printf("; ");
        print_reply(rehearsal->block, rehearsal->row, rehearsal->script[turn]);
        putchar('\n');
    }
    play(rehearsal, moves);
    print_last(rehearsal);
    putchar('\n');
}

/* Prints why a rehearsal is finished, or why it is not. */
static void print_reason(const struct rehearsal *rehearsal)
{
    const uint8_t *block = rehearsal->block;
    bool finished = rbatl_report_finished(rehearsal->report);
    unsigned left = rbatl_row_left(block, rehearsal->row);
    unsigned right = rbatl_row_right(block, rehearsal->row);
    unsigned state = last_state(rehearsal);

    switch (rbatl_row_kind(block, rehearsal->row)) {
    case RBATL_NEXT:
        if (finished)
            printf("row %u is true in the second state, %u", left, state);
        else
            printf("the replies end before the second state");
        break;
    case RBATL_ALWAYS:
        printf("row %u is true in every state so far", left);
        break;
    case RBATL_UNTIL:
        if (finished)
            printf("row %u is true in state %u", right, state);
        else
            printf("the replies end before row %u is true", right);
        break;
    }
}

/* Prints how the rehearsal ends. */
static void print_end(const struct rehearsal *rehearsal)
{
    unsigned moves = rbatl_report_moves(rehearsal->report);
    bool finished = rbatl_report_finished(rehearsal->report);

    print_count(finished ? "finished after " : "unfinished after ", moves, "move");
    printf(": ");
    print_reason(rehearsal);
    putchar('\n');
    if (rehearsal->length > moves)
        printf("replies past the end, not used: %zu\n", rehearsal->length - moves);
}

enum status show_rehearsal(const uint8_t *block, const struct numbers *numbers)
{
    struct rehearsal rehearsal = {.block = block,
                                  .row = numbers->at[0],
                                  .state = numbers->at[1],
                                  .length = numbers->count - 2};
    enum status status = DONE;

    memcpy(rehearsal.script, numbers->at + 2, rehearsal.length);
    int32_t answer = play(&rehearsal, rehearsal.length);
    if (answer < 0)
        status = refuse(answer);
    if (answer == -RBATL_E_REPLY)
        show_bad_reply(&rehearsal);
    if (status == DONE)
        status = fill_table(block, rehearsal.row, &rehearsal.table);
    if (status != DONE)
        return status;
    printf("row %u: ", rehearsal.row);
    print_row(block, rehearsal.row);
    putchar('\n');
    if (rehearsal.length == 0 && isatty(STDIN_FILENO))
        status = ask(&rehearsal);
    else
        print_turns(&rehearsal);
    if (status == DONE)
        print_end(&rehearsal);
    return status;
}
