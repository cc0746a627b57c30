/* Charges: their bytes and words, what a full stock takes, and a cradle that has to be
 * passed again and again. */
#include "host.h"

#include <string.h>

/* The way in takes all 15, each pass of the cradle gives 1, and the way out takes 15. */
static const char cradle_text[] =
    "job2,1,1,4,2,3,sum\n"
    "state,0,2\nacts,0,0,2,0,15\ngo,0,0,1\n"
    "state,1,2\nacts,1,0,3,0,-1,15\ngo,1,1,2,3\n"
    "state,2,2\nacts,2,0,1,0\ngo,2,1\n"
    "state,3,1\nacts,3,0,1,0\ngo,3,3\n"
    "prop,0\nprop,1\nuntil,1,15,1,0\n";

/* With bound 5 and stock 4, cost -3 leaves 5: two steps of 3 and 2 are paid after it,
 * and of 3 and 3 are not. */
#define CEILING(last) \
    "job2,1,1,5,1,3,sum\n" \
    "state,0,0\nacts,0,0,2,0,-3\ngo,0,4,1\n" \
    "state,1,0\nacts,1,0,2,0,3\ngo,1,4,2\n" \
    "state,2,0\nacts,2,0,2,0," last "\ngo,2,4,3\n" \
    "state,3,1\nacts,3,0,1,0\ngo,3,3\n" \
    "state,4,0\nacts,4,0,1,0\ngo,4,4\n" \
    "prop,0\nnot,0\nuntil,1,5,1,0\n"

static uint8_t ranks[RBATL_RANKS_BYTES], moves[RBATL_MOVES_BYTES], room[RBATL_ROOM_BYTES];

/* Reads the text into the block, which must be written as the same text. */
static void read_and_write(const char *name, const char *text, uint8_t *block)
{
    static uint8_t written[RBATL_TEXT_BYTES];
    const size_t length = strlen(text);

    int32_t answer = rbatl_read((const uint8_t *)text, length, block, RBATL_BLOCK_BYTES);
    count_answer(name, "read", answer, 0);
    answer = rbatl_write(block, RBATL_BLOCK_BYTES, written, sizeof written);
    count_answer(name, "write", answer, (int32_t)length);
    count(memcmp(written, text, length) == 0, name, "another text");
}

/* The rank at a position of row 2. */
static void expect_rank(const char *name, const uint8_t *block, unsigned state, unsigned stock,
                        unsigned rank)
{
    size_t position = rbatl_position_of(block, 2, state, stock, 0);
    int32_t answer = rbatl_table(block, RBATL_BLOCK_BYTES, 2, ranks, sizeof ranks, moves,
                                 sizeof moves);

    count_answer(name, "table", answer, 0);
    count_answer(name, "rank", (int32_t)rbatl_rank_at(ranks, position), (int32_t)rank);
}

static void check_ceiling(void)
{
    static uint8_t block[RBATL_BLOCK_BYTES];

    read_and_write("3 and 2 after a charge", CEILING("2"), block);
    expect_rank("3 and 2 after a charge", block, 0, 4, 3);
    expect_rank("a charge of an empty stock", block, 0, 0, RBATL_NEVER);
    read_and_write("3 and 3 after a charge", CEILING("3"), block);
    expect_rank("3 and 3 after a charge", block, 0, 4, RBATL_NEVER);
    expect_rank("3 and 3 of a full stock", block, 0, 5, RBATL_NEVER);
}

/* 15 passes of two moves, and one move before and after them. */
static void check_rounds(const uint8_t *block)
{
    static const uint8_t script[RBATL_SCRIPT_BYTES], due[] = {1, 32, 48, 0};
    uint8_t report[RBATL_REPORT_BYTES];

    expect_rank("cradle", block, 0, 15, 32);
    expect_rank("cradle", block, 1, 0, 31);
    expect_rank("cradle", block, 0, 14, RBATL_NEVER);
    int32_t answer = rbatl_rehearse(block, RBATL_BLOCK_BYTES, 2, 0, script, sizeof script, report,
                                    sizeof report, room, sizeof room);
    count_answer("cradle", "rehearse", answer, 0);
    count(memcmp(report, due, sizeof due) == 0, "cradle", "another report");
}

/* The cradle is won from any stock, but only a bound of 15 holds the price. */
static void check_allowance(const uint8_t *block)
{
    uint8_t list[RBATL_ALLOWANCES_BYTES];
    int32_t answer = rbatl_allowances(block, RBATL_BLOCK_BYTES, 2, 1, list, sizeof list, room,
                                      sizeof room);

    count_answer("cradle", "allowances", answer, 1);
    count_answer("cradle", "allowance", (int32_t)rbatl_allowance_at(list, 0, 0), 15);
}

void check_charges(void)
{
    static uint8_t block[RBATL_BLOCK_BYTES];

    read_and_write("cradle", cradle_text, block);
    count_answer("cradle", "byte of a charge", block[rbatl_place_of_cost(1, 0, 1, 0)], 255);
    check_rounds(block);
    check_allowance(block);
    block[rbatl_place_of_resource_kind(0)] = RBATL_MAX;
    count_answer("cradle", "check", rbatl_check(block, sizeof block), -RBATL_E_CHARGE);
    count(strstr(rbatl_refusal_text(RBATL_E_CHARGE), "max") != NULL, "words of 13",
          "no word of the kind");
    check_ceiling();
}
