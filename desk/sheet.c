/* The coalition's moves at the positions of a worksheet, a line for each. */
#include "desk.h"
#include "words.h"

#include <stdio.h>
#include <string.h>

/* Fills the list that the library takes, where the stock of an absent resource is
 * 0; how many positions it has. */
static size_t fill_list(const struct numbers *numbers, uint8_t *list)
{
    size_t positions = 0;

    memset(list, 0, RBATL_SHEET_BYTES);
    for (size_t first = 1; first < numbers->count; first += numbers->width)
        memcpy(list + RBATL_POSITION_BYTES * positions++, numbers->at + first, numbers->width);
    return positions;
}

static void print_answer(const uint8_t *block, unsigned row, int32_t answer)
{
    if (answer == -RBATL_E_WRONG_SIDE)
        printf("no move: the coalition does not win here");
    else if (answer < 0)
        printf("no position: %s", rbatl_refusal_text(-answer));
    else
        print_move(block, row, (unsigned)answer);
}

enum status show_sheet(const uint8_t *block, const struct numbers *numbers)
{
    uint8_t list[RBATL_SHEET_BYTES], words[RBATL_WORDS_BYTES], room[RBATL_ROOM_BYTES];
    size_t positions = fill_list(numbers, list);
    uint8_t row = numbers->at[0];

    int32_t answer = rbatl_worksheet(block, RBATL_BLOCK_BYTES, row, list,
                                     RBATL_POSITION_BYTES * positions, words, 2 * positions, room,
                                     sizeof room);
    if (answer < 0)
        return refuse(answer);
    for (size_t i = 0; i < positions; i++) {
        const uint8_t *at = list + RBATL_POSITION_BYTES * i;
        print_position(block, at[0], at[1], at[2]);
        printf(": ");
        print_answer(block, row, rbatl_answer_at(words, i));
        putchar('\n');
    }
    return DONE;
}
