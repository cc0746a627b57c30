/* Checks of the smallest allowances. */
#include "host.h"

#include <string.h>

/* What a call is lent and asked. */
struct question {
    size_t block, list, room;
    uint8_t row, state;
};

static const struct question right = {RBATL_BLOCK_BYTES, RBATL_ALLOWANCES_BYTES, RBATL_ROOM_BYTES,
                                      4, 0};

/* The list must begin with these bytes, as many as the count of pairs asks for, and
 * have zeros after them, or, refused, be as it was; the room must hold zeros, or,
 * after a wrong length, be as it was. */
static void expect_needs(const char *name, const uint8_t *block, struct question asked,
                         const uint8_t *pairs, int32_t expected)
{
    static uint8_t list[RBATL_ALLOWANCES_BYTES + 2], room[RBATL_ROOM_BYTES + 1];

    memset(list, FILL, sizeof list);
    memset(room, FILL, sizeof room);
    int32_t answer = rbatl_allowances(block, asked.block, asked.row, asked.state, list, asked.list,
                                      room, asked.room);
    count_answer(name, "allowances", answer, expected);
    if (expected < 0) {
        count(all(list, sizeof list, FILL), name, "refused, but the list has changed");
    } else {
        size_t end = RBATL_MAX_RESOURCES * (size_t)expected;
        count(memcmp(list, pairs, end) == 0, name, "other allowances");
        count(all(list + end, RBATL_ALLOWANCES_BYTES - end, 0), name, "no zeros after them");
        count(all(list + RBATL_ALLOWANCES_BYTES, 2, FILL), name, "list written too far");
    }
    count_room(name, room, expected);
}

static void refuse_needs(const char *name, const uint8_t *block, uint8_t row, uint8_t state,
                         int32_t expected)
{
    struct question asked = right;

    asked.row = row;
    asked.state = state;
    expect_needs(name, block, asked, NULL, expected);
}

/* Three actions lead from state 0 to state 1, for 3 of either resource or for 2 of
 * both. Row 1 asks for it within nothing, the others with one resource unlimited or
 * with both. */
static const char trade_text[] =
    "job2,1,2,2,1,5,sum,sum\n"
    "state,0,0\nacts,0,0,4,0,0,3,0,0,3,2,2\ngo,0,0,1,1,1\n"
    "state,1,1\nacts,1,0,1,0,0\ngo,1,1\n"
    "prop,0\nnext,1,0,0,0\nnext,1,inf,0,0\nnext,1,0,inf,0\nnext,1,inf,inf,0\n";

static void check_trade(void)
{
    static const uint8_t pairs[][6] = {
        {0, 3, 2, 2, 3, 0}, {RBATL_UNLIMITED, 0}, {0, RBATL_UNLIMITED},
        {RBATL_UNLIMITED, RBATL_UNLIMITED},
    };
    static const uint8_t nothing[2];
    static uint8_t block[RBATL_BLOCK_BYTES];
    struct question asked = right;

    int32_t answer = rbatl_read((const uint8_t *)trade_text, sizeof trade_text - 1, block,
                                sizeof block);
    count_answer("a trade", "read", answer, 0);
    for (asked.row = 1; asked.row <= 4; asked.row++)
        expect_needs("a trade", block, asked, pairs[asked.row - 1], asked.row == 1 ? 3 : 1);
    asked.row = 1;
    asked.state = 1;
    expect_needs("a trade that is done", block, asked, nothing, 1);
    count_answer("a trade", "allowance_at", (int32_t)rbatl_allowance_at(pairs[0], 0, 1), 3);
    count_answer("a trade", "allowance_at", (int32_t)rbatl_allowance_at(pairs[0], 2, 0), 3);
}

/* Rows 3 to 5 of Catch; the bound 4 of the last is less than its need. */
static void check_catch(const uint8_t *block)
{
    static const struct {
        uint8_t row, state, pair[2];
        int32_t answer;
    } due[] = {
        {3, 0, {0, 0}, 0}, {3, 1, {3, 0}, 1}, {3, 2, {0, 0}, 1},
        {4, 0, {5, 0}, 1}, {5, 0, {5, 0}, 1}, {5, 1, {3, 0}, 1},
    };

    for (size_t i = 0; i < sizeof due / sizeof due[0]; i++) {
        struct question asked = right;
        asked.row = due[i].row;
        asked.state = due[i].state;
        expect_needs("Catch", block, asked, due[i].pair, due[i].answer);
    }
}

static void refuse_needs_lengths(const char *name, const uint8_t *block, uint8_t row, uint8_t state)
{
    for (int more = -1; more <= 1; more += 2) {
        struct question asked[3] = {right, right, right};
        asked[0].block += (size_t)more;
        asked[1].list += (size_t)more;
        asked[2].room += (size_t)more;
        for (size_t i = 0; i < 3; i++) {
            asked[i].row = row;
            asked[i].state = state;
            expect_needs(name, block, asked[i], NULL, -RBATL_E_LENGTH);
        }
    }
}

void check_needs(void)
{
    static uint8_t block[RBATL_BLOCK_BYTES];

    check_trade();
    fill_catch(block);
    check_catch(block);
    check_refusals((struct refuser){refuse_needs, refuse_needs_lengths});
}
