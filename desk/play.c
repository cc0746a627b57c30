/* The coalition's move at a position, and its opponents' reply. */
#include "desk.h"
#include "words.h"

#include <stdio.h>

/* The numbers of a position: a row, a state, and a stock for each resource. */
struct position {
    uint8_t row, state, stock0, stock1;
};

/* The stock of an absent resource is 0. */
static struct position position_of(const uint8_t *block, const struct numbers *numbers)
{
    struct position at = {numbers->at[0], numbers->at[1], numbers->at[2], 0};
    if (rbatl_job_resources(block) > 1)
        at.stock1 = numbers->at[3];
    return at;
}

enum status show_move(const uint8_t *block, const struct numbers *numbers)
{
    struct position at = position_of(block, numbers);
    uint8_t room[RBATL_ROOM_BYTES];

    int32_t move = rbatl_move(block, RBATL_BLOCK_BYTES, at.row, at.state, at.stock0, at.stock1,
                              room, sizeof room);
    if (move < 0)
        return refuse(move);
    print_move(block, at.row, (unsigned)move);
    putchar('\n');
    return DONE;
}

enum status show_reply(const uint8_t *block, const struct numbers *numbers)
{
    struct position at = position_of(block, numbers);
    uint8_t room[RBATL_ROOM_BYTES];
    uint8_t move = numbers->at[numbers->count - 1];

    int32_t reply = rbatl_reply(block, RBATL_BLOCK_BYTES, at.row, at.state, at.stock0, at.stock1,
                                move, room, sizeof room);
    if (reply < 0)
        return refuse(reply);
    print_reply(block, at.row, (unsigned)reply);
    putchar('\n');
    return DONE;
}
