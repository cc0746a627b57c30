/* The table of a row, one line for each position, and the row's states. */
#include "desk.h"
#include "words.h"

#include <stdio.h>

static void print_entry(const uint8_t *block, unsigned row, unsigned rank, unsigned move)
{
    if (rank == RBATL_NEVER)
        printf(": rank never, ");
    else
        printf(": rank %u, ", rank);
    if (move == RBATL_NO_MOVE)
        printf("no move");
    else
        print_move(block, row, move);
    putchar('\n');
}

enum status show_table(const uint8_t *block, const struct numbers *numbers)
{
    unsigned row = numbers->at[0];
    struct table table;
    uint32_t set;

    enum status status = fill_table(block, row, &table);
    if (status == DONE)
        status = find_states(block, row, &set);
    if (status != DONE)
        return status;
    printf("row %u: ", row);
    print_row(block, row);
    printf("\nstates: ");
    print_states(set);
    putchar('\n');
    for (size_t position = 0; position < rbatl_position_count(block, row); position++) {
        print_numbered(block, row, position);
        print_entry(block, row, rbatl_rank_at(table.ranks, position),
                    rbatl_move_at(table.moves, position));
    }
    return DONE;
}
