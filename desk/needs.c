/* What a row needs in a state: its smallest allowances, a line for each. */
#include "desk.h"
#include "words.h"

#include <stdio.h>

static bool is_unlimited(const uint8_t *block, unsigned row, unsigned resource)
{
    return rbatl_row_bound(block, row, resource) == RBATL_UNLIMITED;
}

static bool limits_some(const uint8_t *block, unsigned row)
{
    for (unsigned resource = 0; resource < rbatl_job_resources(block); resource++)
        if (!is_unlimited(block, row, resource))
            return true;
    return false;
}

/* Whether some number of the list could be smaller; where nothing stands in it, it
 * has zeros. */
static bool asks_some(const uint8_t *list)
{
    for (size_t i = 0; i < RBATL_ALLOWANCES_BYTES; i++)
        if (list[i] != 0 && list[i] != RBATL_UNLIMITED)
            return true;
    return false;
}

/* Of an absent resource there is nothing to say. */
static void print_allowance(const uint8_t *block, const uint8_t *list, size_t place)
{
    const char *before = "enough: ";
    for (unsigned resource = 0; resource < rbatl_job_resources(block); resource++) {
        unsigned amount = rbatl_allowance_at(list, place, resource);
        if (amount == RBATL_UNLIMITED)
            printf("%sresource %u unlimited", before, resource);
        else
            printf("%s%u of resource %u", before, amount, resource);
        before = " and ";
    }
}

static void print_none(const uint8_t *block, unsigned row)
{
    printf("no allowance from 0 to 15 is enough");
    for (unsigned resource = 0; resource < rbatl_job_resources(block); resource++)
        if (is_unlimited(block, row, resource))
            printf(", even with resource %u unlimited", resource);
}

/* A row that limits nothing has no allowance to name. */
static void print_needs(const uint8_t *block, unsigned row, unsigned state, const uint8_t *list,
                        size_t count)
{
    if (!limits_some(block, row)) {
        printf("state %u: the row limits no resource, and is %s\n", state,
               count > 0 ? "true" : "false");
        return;
    }
    if (count == 0) {
        printf("state %u: ", state);
        print_none(block, row);
        putchar('\n');
    }
    for (size_t place = 0; place < count; place++) {
        printf("state %u: ", state);
        print_allowance(block, list, place);
        putchar('\n');
    }
    if (asks_some(list))
        printf("state %u: nothing smaller is enough\n", state);
}

enum status show_needs(const uint8_t *block, const struct numbers *numbers)
{
    uint8_t list[RBATL_ALLOWANCES_BYTES], room[RBATL_ROOM_BYTES];
    uint8_t row = numbers->at[0], state = numbers->at[1];

    int32_t answer = rbatl_allowances(block, RBATL_BLOCK_BYTES, row, state, list, sizeof list,
                                      room, sizeof room);
    if (answer < 0)
        return refuse(answer);
    printf("row %u: ", row);
    print_aim(block, row);
    putchar('\n');
    print_needs(block, row, state, list, (size_t)answer);
    return DONE;
}
