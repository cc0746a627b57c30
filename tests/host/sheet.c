/* Checks of the worksheet. */
#include "host.h"

#include <string.h>

/* Positions of Catch's row 4, one of them twice, and of none. */
static const uint8_t list[] = {
    0, 5, 0, 0, 4, 0, 1, 3, 0, 2, 0, 0, 3, 0, 0, 1, 6, 0, 1, 3, 1, 0, 5, 0,
};
#define PLACES (sizeof list / RBATL_POSITION_BYTES)

/* What rbatl_move answers there. */
static const int32_t answers[PLACES] = {
    1, -RBATL_E_WRONG_SIDE, 1, 0, -RBATL_E_POSITION, -RBATL_E_POSITION, -RBATL_E_POSITION, 1,
};

/* The lengths that list, words and room are lent with. */
struct lengths {
    size_t list, words, room;
};

static const struct lengths right = {sizeof list, 2 * PLACES, RBATL_ROOM_BYTES};

/* More than the longest list, which starts as the one above. */
static uint8_t longer[RBATL_SHEET_BYTES + 2 * RBATL_POSITION_BYTES];

static int same_answers(const uint8_t *words, size_t places)
{
    for (size_t place = 0; place < places; place++)
        if (rbatl_answer_at(words, place) != answers[place])
            return 0;
    return 1;
}

/* The words must be those of the list, as far as it is lent, or, refused, be as
 * they were; the room must hold zeros, or, after a wrong length, be as it was. */
static void expect_sheet(const char *name, const uint8_t *block, size_t length, uint8_t row,
                         struct lengths lent, int32_t expected)
{
    static uint8_t words[RBATL_WORDS_BYTES + 4], room[RBATL_ROOM_BYTES + 1];
    static uint8_t before[sizeof longer];
    size_t places = lent.words / 2;

    memset(words, FILL, sizeof words);
    memset(room, FILL, sizeof room);
    memcpy(before, longer, sizeof longer);
    int32_t answer = rbatl_worksheet(block, length, row, longer, lent.list, words, lent.words,
                                     room, lent.room);
    count_answer(name, "worksheet", answer, expected);
    count(memcmp(before, longer, sizeof longer) == 0, name, "the list has changed");
    if (expected < 0) {
        count(all(words, sizeof words, FILL), name, "refused, but the words have changed");
    } else {
        count(same_answers(words, places < PLACES ? places : PLACES), name, "other words");
        count(all(words + lent.words, sizeof words - lent.words, FILL), name,
              "words written too far");
    }
    count_room(name, room, expected);
}

/* Lists and words of every length near the least, Catch's and the longest. */
static void check_sheet_lengths(const uint8_t *block)
{
    static const size_t lists[] = {0, 3, sizeof list, RBATL_SHEET_BYTES, RBATL_SHEET_BYTES + 3};
    const size_t size = RBATL_BLOCK_BYTES;

    for (size_t i = 0; i < sizeof lists / sizeof lists[0]; i++) {
        struct lengths lent = {lists[i], 2 * (lists[i] / RBATL_POSITION_BYTES), right.room};
        int32_t whole = lists[i] <= RBATL_SHEET_BYTES ? 0 : -RBATL_E_LENGTH;
        expect_sheet("words that match", block, size, 4, lent, whole);
        for (unsigned more = 1; more <= 2; more++) {
            struct lengths list_more = {lent.list + more, lent.words, lent.room};
            struct lengths words_more = {lent.list, lent.words + more, lent.room};
            expect_sheet("a longer list", block, size, 4, list_more, -RBATL_E_LENGTH);
            expect_sheet("longer words", block, size, 4, words_more, -RBATL_E_LENGTH);
        }
    }
    struct lengths shorter = {right.list, right.words - 1, right.room};
    expect_sheet("shorter words", block, size, 4, shorter, -RBATL_E_LENGTH);
    expect_sheet("a short block", block, size - 1, 4, right, -RBATL_E_LENGTH);
    expect_sheet("a long block", block, size + 1, 4, right, -RBATL_E_LENGTH);
    for (int more = -1; more <= 1; more += 2) {
        struct lengths room = {right.list, right.words, right.room + (size_t)more};
        expect_sheet("another room", block, size, 4, room, -RBATL_E_LENGTH);
    }
}

void check_sheet(void)
{
    static const uint8_t tableless[] = {0, 1, 2, 6, 31, 32, 255};
    static const struct lengths empty = {0, 0, RBATL_ROOM_BYTES};
    static const struct lengths long_list = {1, 0, RBATL_ROOM_BYTES};
    static const struct lengths long_room = {0, 0, RBATL_ROOM_BYTES + 1};
    static uint8_t bytes[RBATL_BLOCK_BYTES + 1];
    const size_t size = RBATL_BLOCK_BYTES;

    memcpy(longer, list, sizeof list);
    fill_catch(bytes);
    expect_sheet("Catch", bytes, size, 4, right, 0);
    check_sheet_lengths(bytes);
    for (size_t i = 0; i < sizeof tableless; i++) {
        expect_sheet("no table", bytes, size, tableless[i], right, -RBATL_E_ROW_CHOICE);
        expect_sheet("no position", bytes, size, tableless[i], empty, -RBATL_E_ROW_CHOICE);
    }
    for (size_t i = 0; i < DAMAGES; i++) {
        struct damage damage = fill_damaged(bytes, i);
        if (damage.answer == 0)
            continue;
        expect_sheet(damage.name, bytes, size, 4, right, damage.answer);
        expect_sheet(damage.name, bytes, size, 255, empty, damage.answer);
        expect_sheet(damage.name, bytes, size, 4, long_list, -RBATL_E_LENGTH);
        expect_sheet(damage.name, bytes, size, 4, long_room, -RBATL_E_LENGTH);
    }
}
