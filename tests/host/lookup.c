/* Checks of the calls at one position. */
#include "host.h"

#include <stdio.h>
#include <string.h>

/* A position of Catch, a move to reply to, and the answer that they must get. */
struct asked {
    uint8_t row, state, stock0, stock1, move;
    int32_t answer;
};

static const struct asked moves[] = {
    {3, 1, 3, 0, 0, 1},
    {3, 2, 0, 0, 0, 0},
    {4, 0, 5, 0, 0, 1},
    {5, 1, 4, 0, 0, 1},
    {1, 0, 0, 0, 0, -RBATL_E_ROW_CHOICE},
    {6, 0, 0, 0, 0, -RBATL_E_ROW_CHOICE},
    {255, 255, 255, 255, 0, -RBATL_E_ROW_CHOICE},
    {3, 3, 0, 0, 0, -RBATL_E_POSITION},
    {3, 1, 6, 0, 0, -RBATL_E_POSITION},
    {3, 1, 5, 1, 0, -RBATL_E_POSITION},
    {5, 1, 5, 0, 0, -RBATL_E_POSITION},
    {3, 0, 5, 0, 0, -RBATL_E_WRONG_SIDE},
    {3, 1, 2, 0, 0, -RBATL_E_WRONG_SIDE},
    {4, 0, 4, 0, 0, -RBATL_E_WRONG_SIDE},
};

static const struct asked replies[] = {
    {3, 0, 5, 0, 1, 4},
    {3, 0, 5, 0, 0, 0},
    {3, 0, 4, 0, 1, 0},
    {4, 0, 4, 0, 5, 0},
    {1, 0, 0, 0, 0, -RBATL_E_ROW_CHOICE},
    {6, 3, 6, 1, 255, -RBATL_E_ROW_CHOICE},
    {3, 3, 0, 0, 0, -RBATL_E_POSITION},
    {3, 1, 6, 0, 255, -RBATL_E_POSITION},
    {3, 0, 5, 1, 1, -RBATL_E_POSITION},
    {3, 1, 3, 0, 1, -RBATL_E_WRONG_SIDE},
    {3, 2, 0, 0, 255, -RBATL_E_WRONG_SIDE},
    {4, 0, 5, 0, 1, -RBATL_E_WRONG_SIDE},
    {3, 0, 1, 0, 1, -RBATL_E_MOVE},
    {3, 0, 5, 0, 2, -RBATL_E_MOVE},
    {3, 0, 5, 0, 4, -RBATL_E_MOVE},
    {4, 0, 4, 0, 16, -RBATL_E_MOVE},
    {3, 0, 5, 0, 64, -RBATL_E_MOVE},
    {3, 0, 5, 0, 255, -RBATL_E_MOVE},
};

/* Where every call that gets to the position answers a move, or a reply. */
static const struct asked won = {3, 1, 3, 0, 0, 0};
static const struct asked not_won = {3, 0, 5, 0, 1, 0};

/* Which of the two calls is asked. */
enum call { MOVE, REPLY };

static int32_t ask(enum call call, struct asked at, const uint8_t *block, size_t length,
                   uint8_t *room, size_t room_length)
{
    if (call == MOVE)
        return rbatl_move(block, length, at.row, at.state, at.stock0, at.stock1, room, room_length);
    return rbatl_reply(block, length, at.row, at.state, at.stock0, at.stock1, at.move, room,
                       room_length);
}

/* The room must hold zeros, or, after a wrong length, be as it was; the block
 * must keep its bytes. */
static void expect_at(const char *name, enum call call, struct asked at, const uint8_t *block,
                      size_t length, size_t room_length, int32_t expected)
{
    static uint8_t room[RBATL_ROOM_BYTES + 1], before[RBATL_BLOCK_BYTES + 1];
    char what[64];

    memset(room, FILL, sizeof room);
    memcpy(before, block, length);
    int32_t answer = ask(call, at, block, length, room, room_length);
    snprintf(what, sizeof what, "%s of row %d at %d, %d and %d", call == MOVE ? "move" : "reply",
             at.row, at.state, at.stock0, at.stock1);
    count_answer(name, what, answer, expected);
    count(memcmp(before, block, length) == 0, name, "the block has changed");
    count_room(name, room, expected);
}

/* The refusals that come before the row's. */
static void check_block(enum call call, struct asked at)
{
    static uint8_t bytes[RBATL_BLOCK_BYTES + 1];
    const size_t size = RBATL_BLOCK_BYTES, room = RBATL_ROOM_BYTES;

    fill_catch(bytes);
    expect_at("a short block", call, at, bytes, size - 1, room, -RBATL_E_LENGTH);
    expect_at("a long block", call, at, bytes, size + 1, room, -RBATL_E_LENGTH);
    expect_at("a short room", call, at, bytes, size, room - 1, -RBATL_E_LENGTH);
    expect_at("a long room", call, at, bytes, size, room + 1, -RBATL_E_LENGTH);
    expect_at("no room", call, at, bytes, size, 0, -RBATL_E_LENGTH);
    for (size_t i = 0; i < DAMAGES; i++) {
        struct damage damage = fill_damaged(bytes, i);
        if (damage.answer == 0)
            continue;
        expect_at(damage.name, call, at, bytes, size, room, damage.answer);
        expect_at(damage.name, call, at, bytes, size, room + 1, -RBATL_E_LENGTH);
    }
}

static void check_asked(enum call call, const struct asked *asked, size_t number)
{
    static uint8_t block[RBATL_BLOCK_BYTES];

    fill_catch(block);
    for (size_t i = 0; i < number; i++)
        expect_at("Catch", call, asked[i], block, sizeof block, RBATL_ROOM_BYTES, asked[i].answer);
}

/* Catch with the seventh row always,2,0,1. */
static void check_seventh_row(void)
{
    static const uint8_t fields[ROW_FIELDS] = {RBATL_ALWAYS, 1, 0, 2, 0};
    static const struct asked first = {6, 0, 0, 0, 0, 4};
    static uint8_t block[RBATL_BLOCK_BYTES];

    fill_catch(block);
    block[RBATL_PLACE_ROWS] = 7;
    fill_row(block, 6, fields);
    expect_at("a seventh row", MOVE, first, block, sizeof block, RBATL_ROOM_BYTES, first.answer);
}

void check_move(void)
{
    check_asked(MOVE, moves, sizeof moves / sizeof moves[0]);
    check_block(MOVE, won);
    check_seventh_row();
}

void check_reply(void)
{
    check_asked(REPLY, replies, sizeof replies / sizeof replies[0]);
    check_block(REPLY, not_won);
}
