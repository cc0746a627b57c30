/* The calls on the rows of a job: their sets, a row's table, a row's states. */
#include "host.h"

#include <stdio.h>
#include <string.h>

/* The sets of Catch, and ranks and moves of its row 4: three states, each with
 * stocks 0 to 5. */
static const uint32_t catch_sets[] = {4, 3, 7, 6, 7, 6};
static const uint16_t catch_ranks[] = {
    RBATL_NEVER, RBATL_NEVER, RBATL_NEVER, RBATL_NEVER, RBATL_NEVER, 2,
    RBATL_NEVER, RBATL_NEVER, RBATL_NEVER, 1, 1, 1,
    0, 0, 0, 0, 0, 0,
};
static const uint8_t catch_moves[] = {
    255, 255, 255, 255, 255, 1, 255, 255, 255, 1, 1, 1, 0, 0, 0, 0, 0, 0,
};

/* The sets must be those of Catch, or, refused, be as they were; the room must
 * hold zeros, or, after a wrong length, be as it was. */
static void expect_label(const char *name, const uint8_t *block, size_t length, size_t sets_length,
                         size_t room_length, int32_t expected)
{
    static uint8_t sets[RBATL_SETS_BYTES + 1], room[RBATL_ROOM_BYTES + 1];
    const size_t words = sizeof catch_sets / sizeof catch_sets[0];
    int same = 1;

    memset(sets, FILL, sizeof sets);
    memset(room, FILL, sizeof room);
    int32_t answer = rbatl_label(block, length, sets, sets_length, room, room_length);
    count_answer(name, "label", answer, expected);
    if (expected == 0) {
        for (unsigned row = 0; row < words; row++)
            same &= rbatl_set_of(sets, row) == catch_sets[row];
        count(same && all(sets + 4 * words, RBATL_SETS_BYTES - 4 * words, 0), name, "other sets");
        count(sets[RBATL_SETS_BYTES] == FILL, name, "sets written too far");
    } else {
        count(all(sets, sizeof sets, FILL), name, "refused, but the sets have changed");
    }
    count_room(name, room, expected);
}

void check_label(void)
{
    static uint8_t bytes[RBATL_BLOCK_BYTES + 1];
    const size_t size = RBATL_BLOCK_BYTES, sets = RBATL_SETS_BYTES, room = RBATL_ROOM_BYTES;

    fill_catch(bytes);
    expect_label("Catch", bytes, size, sets, room, 0);
    expect_label("a short block", bytes, size - 1, sets, room, -RBATL_E_LENGTH);
    expect_label("a long block", bytes, size + 1, sets, room, -RBATL_E_LENGTH);
    expect_label("short sets", bytes, size, sets - 1, room, -RBATL_E_LENGTH);
    expect_label("long sets", bytes, size, sets + 1, room, -RBATL_E_LENGTH);
    expect_label("a short room", bytes, size, sets, room - 1, -RBATL_E_LENGTH);
    expect_label("a long room", bytes, size, sets, room + 1, -RBATL_E_LENGTH);
    for (size_t i = 0; i < DAMAGES; i++) {
        struct damage damage = fill_damaged(bytes, i);
        if (damage.answer != 0)
            expect_label(damage.name, bytes, size, sets, room, damage.answer);
    }
}

/* The table must be that of Catch's row 4, or, refused, leave both buffers as
 * they were. */
static void expect_table(const char *name, const uint8_t *block, size_t length, uint8_t row,
                         size_t ranks_length, size_t moves_length, int32_t expected)
{
    static uint8_t ranks[RBATL_RANKS_BYTES + 1], moves[RBATL_MOVES_BYTES + 1];
    const size_t positions = sizeof catch_moves;
    int same = 1;

    memset(ranks, FILL, sizeof ranks);
    memset(moves, FILL, sizeof moves);
    int32_t answer =
        rbatl_table(block, length, row, ranks, ranks_length, moves, moves_length);
    count_answer(name, "table", answer, expected);
    if (expected != 0) {
        count(all(ranks, sizeof ranks, FILL), name, "refused, but the ranks have changed");
        count(all(moves, sizeof moves, FILL), name, "refused, but the moves have changed");
        return;
    }
    for (size_t i = 0; i < positions; i++)
        same &= rbatl_rank_at(ranks, i) == catch_ranks[i];
    count(same && all(ranks + 2 * positions, RBATL_RANKS_BYTES - 2 * positions, 0), name,
          "other ranks");
    count(memcmp(moves, catch_moves, positions) == 0, name, "other moves");
    count(all(moves + positions, RBATL_MOVES_BYTES - positions, 0), name,
          "no zeros after the moves");
    count(ranks[RBATL_RANKS_BYTES] == FILL && moves[RBATL_MOVES_BYTES] == FILL, name,
          "written too far");
}

void check_table(void)
{
    static const uint8_t tableless[] = {0, 1, 2, 6, 31, 32, 255};
    static uint8_t bytes[RBATL_BLOCK_BYTES + 1];
    const size_t size = RBATL_BLOCK_BYTES, ranks = RBATL_RANKS_BYTES, moves = RBATL_MOVES_BYTES;

    fill_catch(bytes);
    expect_table("Catch", bytes, size, 4, ranks, moves, 0);
    expect_table("a short block", bytes, size - 1, 4, ranks, moves, -RBATL_E_LENGTH);
    expect_table("a long block", bytes, size + 1, 4, ranks, moves, -RBATL_E_LENGTH);
    expect_table("short ranks", bytes, size, 4, ranks - 1, moves, -RBATL_E_LENGTH);
    expect_table("long ranks", bytes, size, 4, ranks + 1, moves, -RBATL_E_LENGTH);
    expect_table("short moves", bytes, size, 4, ranks, moves - 1, -RBATL_E_LENGTH);
    expect_table("long moves", bytes, size, 255, ranks, moves + 1, -RBATL_E_LENGTH);
    for (size_t i = 0; i < sizeof tableless; i++)
        expect_table("a row without a table", bytes, size, tableless[i], ranks, moves,
                     -RBATL_E_ROW_CHOICE);
    for (size_t i = 0; i < DAMAGES; i++) {
        struct damage damage = fill_damaged(bytes, i);
        if (damage.answer == 0)
            continue;
        expect_table(damage.name, bytes, size, 4, ranks, moves, damage.answer);
        expect_table(damage.name, bytes, size, 255, ranks, moves, damage.answer);
    }
}

/* The second call must give the refusal, leave the list as it was and the room
 * as the lister does. */
static void expect_refusal(const char *name, const uint8_t *block, size_t length, uint8_t row,
                           size_t list_length, size_t room_length, int32_t expected)
{
    static uint8_t list[RBATL_STATES_BYTES + 1], room[RBATL_ROOM_BYTES + 1];

    memset(list, FILL, sizeof list);
    memset(room, FILL, sizeof room);
    int32_t answer = rbatl_states_refusal(block, length, row, list, list_length, room, room_length);
    count_answer(name, "states_refusal", answer, expected < 0 ? expected : 0);
    count(all(list, sizeof list, FILL), name, "the second call has changed the list");
    count_room(name, room, expected);
}

/* The list must hold the states of a row of Catch, or, refused, be as it was;
 * the room must hold zeros, or, after a wrong length, be as it was. */
static void expect_states(const char *name, const uint8_t *block, size_t length, uint8_t row,
                          size_t list_length, size_t room_length, int32_t expected)
{
    static uint8_t list[RBATL_STATES_BYTES + 1], room[RBATL_ROOM_BYTES + 1];
    size_t end = 0;
    int same = 1;

    memset(list, FILL, sizeof list);
    memset(room, FILL, sizeof room);
    int32_t answer = rbatl_states(block, length, row, list, list_length, room, room_length);
    count_answer(name, "states", answer, expected);
    if (expected < 0) {
        count(all(list, sizeof list, FILL), name, "refused, but the list has changed");
    } else {
        for (uint8_t state = 0; state < RBATL_MAX_STATES; state++)
            if (rbatl_set_has(catch_sets[row], state))
                same &= list[end++] == state;
        count(same && end == (size_t)expected, name, "other states");
        count(all(list + end, RBATL_STATES_BYTES - end, 0), name, "no zeros after the states");
        count(list[RBATL_STATES_BYTES] == FILL, name, "list written too far");
    }
    count_room(name, room, expected);
    expect_refusal(name, block, length, row, list_length, room_length, expected);
}

void check_states(void)
{
    static const int32_t counts[] = {1, 2, 3, 2, 3, 2};
    static const uint8_t absent[] = {6, 31, 32, 255};
    static uint8_t bytes[RBATL_BLOCK_BYTES + 1];
    const size_t size = RBATL_BLOCK_BYTES, list = RBATL_STATES_BYTES, room = RBATL_ROOM_BYTES;

    fill_catch(bytes);
    for (uint8_t row = 0; row < sizeof counts / sizeof counts[0]; row++)
        expect_states("Catch", bytes, size, row, list, room, counts[row]);
    expect_states("a short block", bytes, size - 1, 4, list, room, -RBATL_E_LENGTH);
    expect_states("a long block", bytes, size + 1, 4, list, room, -RBATL_E_LENGTH);
    expect_states("a short list", bytes, size, 4, list - 1, room, -RBATL_E_LENGTH);
    expect_states("a long list", bytes, size, 255, list + 1, room, -RBATL_E_LENGTH);
    expect_states("a short room", bytes, size, 4, list, room - 1, -RBATL_E_LENGTH);
    expect_states("a long room", bytes, size, 255, list, room + 1, -RBATL_E_LENGTH);
    for (size_t i = 0; i < sizeof absent; i++)
        expect_states("an absent row", bytes, size, absent[i], list, room, -RBATL_E_ROW_CHOICE);
    for (size_t i = 0; i < DAMAGES; i++) {
        struct damage damage = fill_damaged(bytes, i);
        if (damage.answer == 0)
            continue;
        expect_states(damage.name, bytes, size, 0, list, room, damage.answer);
        expect_states(damage.name, bytes, size, 255, list, room, damage.answer);
    }
}
