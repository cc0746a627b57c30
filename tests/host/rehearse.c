/* Checks of the rehearsal. */
#include "host.h"

#include <string.h>

/* What a call is lent and asked. */
struct question {
    size_t block, script, report, room;
    uint8_t row, state;
};

/* A script of two bytes for Catch's row 4 from state 0. */
static const struct question right = {
    RBATL_BLOCK_BYTES, 2, RBATL_REPORT_BYTES, RBATL_ROOM_BYTES, 4, 0,
};

/* The script that is lent, with one byte more than the longest has. */
static uint8_t script[RBATL_SCRIPT_BYTES + 1];

/* The report must have these bytes, or, refused, be as it was; the room must hold
 * zeros, or, after a wrong length, be as it was; the script must keep its bytes. */
static void expect_report(const char *name, const uint8_t *block, struct question asked,
                          const uint8_t *due, int32_t expected)
{
    static uint8_t report[RBATL_REPORT_BYTES + 2], room[RBATL_ROOM_BYTES + 1];
    uint8_t before[sizeof script];

    memset(report, FILL, sizeof report);
    memset(room, FILL, sizeof room);
    memcpy(before, script, sizeof script);
    int32_t answer = rbatl_rehearse(block, asked.block, asked.row, asked.state, script,
                                    asked.script, report, asked.report, room, asked.room);
    count_answer(name, "rehearse", answer, expected);
    count(memcmp(before, script, sizeof script) == 0, name, "the script has changed");
    if (expected < 0) {
        count(all(report, sizeof report, FILL), name, "refused, but the report has changed");
    } else {
        count(memcmp(report, due, RBATL_REPORT_BYTES) == 0, name, "another report");
        count(all(report + RBATL_REPORT_BYTES, 2, FILL), name, "report written too far");
    }
    count_room(name, room, expected);
}

/* A rehearsal of a row of Catch: its script, and the report or the answer. */
struct rehearsal {
    uint8_t row, state;
    size_t length;
    uint8_t script[3], report[RBATL_REPORT_BYTES];
    int32_t answer;
};

/* Row 6 is always,2,0,1 and row 7 next,1,4,0. */
static const struct rehearsal rehearsals[] = {
    {4, 0, 0, {0}, {0, 0, 5, 0}, 0},
    {4, 0, 1, {0}, {0, 1, 9, 0}, 0},
    {4, 0, 2, {0, 0}, {1, 2, 12, 0}, 0},
    {4, 0, 3, {0, 0, 255}, {1, 2, 12, 0}, 0},
    {4, 0, 1, {1}, {0}, -RBATL_E_REPLY},
    {4, 0, 2, {0, 4}, {0}, -RBATL_E_REPLY},
    {3, 0, 0, {0}, {0}, -RBATL_E_WRONG_SIDE},
    {3, 0, 1, {255}, {0}, -RBATL_E_WRONG_SIDE},
    {3, 1, 0, {0}, {0, 0, 11, 0}, 0},
    {3, 1, 1, {0}, {1, 1, 14, 0}, 0},
    {3, 1, 1, {4}, {0}, -RBATL_E_REPLY},
    {3, 2, 0, {0}, {1, 0, 17, 0}, 0},
    {3, 2, 1, {255}, {1, 0, 17, 0}, 0},
    {6, 0, 0, {0}, {1, 0, 0, 0}, 0},
    {6, 0, 3, {1, 0, 1}, {1, 3, 0, 0}, 0},
    {6, 0, 3, {1, 0, 2}, {0}, -RBATL_E_REPLY},
    {6, 0, 1, {4}, {0}, -RBATL_E_REPLY},
    {6, 1, 0, {0}, {0}, -RBATL_E_WRONG_SIDE},
    {7, 1, 0, {0}, {0, 0, 9, 0}, 0},
    {7, 1, 1, {0}, {1, 1, 11, 0}, 0},
    {7, 1, 2, {0, 255}, {1, 1, 11, 0}, 0},
    {7, 1, 1, {16}, {0}, -RBATL_E_REPLY},
    {7, 1, 1, {64}, {0}, -RBATL_E_REPLY},
};

/* Catch with two rows more. */
static void fill_longer_catch(uint8_t *block)
{
    static const uint8_t always[ROW_FIELDS] = {RBATL_ALWAYS, 1, 0, 2, 0};
    static const uint8_t next[ROW_FIELDS] = {RBATL_NEXT, 0, 0, 1, 4};

    fill_catch(block);
    block[RBATL_PLACE_ROWS] = 8;
    fill_row(block, 6, always);
    fill_row(block, 7, next);
}

static void check_rehearsals(void)
{
    static uint8_t block[RBATL_BLOCK_BYTES];

    fill_longer_catch(block);
    for (size_t i = 0; i < sizeof rehearsals / sizeof rehearsals[0]; i++) {
        const struct rehearsal *due = &rehearsals[i];
        struct question asked = right;
        asked.row = due->row;
        asked.state = due->state;
        asked.script = due->length;
        memcpy(script, due->script, sizeof due->script);
        expect_report("Catch", block, asked, due->report, due->answer);
    }
}

/* The longest script, of always, which uses it up, and of until, which does not. */
static void check_longest(void)
{
    static const uint8_t all_moves[] = {1, RBATL_SCRIPT_BYTES, 0, 0}, two[] = {1, 2, 12, 0};
    static uint8_t block[RBATL_BLOCK_BYTES];
    struct question asked = right;

    fill_longer_catch(block);
    memset(script, 0, sizeof script);
    asked.script = RBATL_SCRIPT_BYTES;
    expect_report("255 bytes", block, asked, two, 0);
    asked.row = 6;
    expect_report("255 bytes", block, asked, all_moves, 0);
    script[RBATL_SCRIPT_BYTES - 1] = 2;
    expect_report("255 bytes, the last wrong", block, asked, NULL, -RBATL_E_REPLY);
    asked.script++;
    expect_report("256 bytes", block, asked, NULL, -RBATL_E_LENGTH);
}

/* With a wrong reply, which every other refusal comes before. */
static void refuse_rehearsal(const char *name, const uint8_t *block, uint8_t row, uint8_t state,
                             int32_t expected)
{
    struct question asked = right;

    memset(script, FILL, sizeof script);
    asked.row = row;
    asked.state = state;
    expect_report(name, block, asked, NULL, expected);
}

static void refuse_rehearsal_lengths(const char *name, const uint8_t *block, uint8_t row,
                                     uint8_t state)
{
    memset(script, FILL, sizeof script);
    for (int more = -1; more <= 1; more += 2) {
        struct question asked[4] = {right, right, right, right};
        asked[0].block += (size_t)more;
        asked[1].report += (size_t)more;
        asked[2].room += (size_t)more;
        asked[3].script = RBATL_SCRIPT_BYTES + 1;
        for (size_t i = 0; i < 4; i++) {
            asked[i].row = row;
            asked[i].state = state;
            expect_report(name, block, asked[i], NULL, -RBATL_E_LENGTH);
        }
    }
}

void check_rehearse(void)
{
    check_rehearsals();
    check_longest();
    check_refusals((struct refuser){refuse_rehearsal, refuse_rehearsal_lengths});
}
