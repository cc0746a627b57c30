/* Smallest allowances: beside a search that tries each pair as the row's bounds. */
#include "fuzz.h"

#include <string.h>

/* The most pairs that are tried. */
#define MAX_PAIRS ((RBATL_MAX_BOUND + 1) * (RBATL_MAX_BOUND + 1))

/* The pairs that are tried for a row, and the states that satisfy it with each. */
struct trials {
    unsigned count;
    uint8_t pairs[MAX_PAIRS][RBATL_MAX_RESOURCES];
    uint32_t sets[MAX_PAIRS];
};

/* The states that the library lists, as a set. */
static uint32_t states_with(struct run *run, const uint8_t *block, unsigned row)
{
    static struct outcome outcome;
    int32_t count = ask_block(run, STATES, block, row, &outcome);
    uint32_t set = 0;

    for (int32_t i = 0; i < count; i++)
        set |= UINT32_C(1) << outcome.bytes[0][i];
    return set;
}

/* The bounds of a resource that are tried. */
struct range {
    unsigned least, most;
};

static struct range range_of(const uint8_t *block, unsigned row, unsigned resource)
{
    if (resource >= rbatl_job_resources(block))
        return (struct range){0, 0};
    if (rbatl_row_bound(block, row, resource) == RBATL_UNLIMITED)
        return (struct range){RBATL_UNLIMITED, RBATL_UNLIMITED};
    return (struct range){0, RBATL_MAX_BOUND};
}

/* In rising first number; each pair is written into the row of a copy. */
static void try_pairs(struct run *run, const uint8_t *block, unsigned row, struct trials *trials)
{
    struct range first = range_of(block, row, 0), second = range_of(block, row, 1);
    uint8_t copy[RBATL_BLOCK_BYTES];
    uint8_t *bounds = copy + rbatl_place_of_field(row, RBATL_FIELD_BOUND);

    memcpy(copy, block, sizeof copy);
    trials->count = 0;
    for (unsigned x = first.least; x <= first.most; x++)
        for (unsigned y = second.least; y <= second.most; y++) {
            bounds[0] = trials->pairs[trials->count][0] = (uint8_t)x;
            bounds[1] = trials->pairs[trials->count][1] = (uint8_t)y;
            trials->sets[trials->count++] = states_with(run, copy, row);
        }
}

static bool is_smallest(const struct trials *trials, unsigned which, unsigned state)
{
    const uint8_t *pair = trials->pairs[which];

    for (unsigned i = 0; i < trials->count; i++) {
        const uint8_t *other = trials->pairs[i];
        if (i != which && rbatl_set_has(trials->sets[i], state) && other[0] <= pair[0] &&
            other[1] <= pair[1])
            return false;
    }
    return rbatl_set_has(trials->sets[which], state);
}

static void try_state(struct run *run, const struct request *request, const struct trials *trials)
{
    static struct outcome outcome;
    const uint8_t *list = outcome.bytes[0];
    int32_t found = 0;

    ask(run, request, &outcome);
    expect(run, outcome.answer >= 0, "allowances", "a strategic row");
    for (unsigned i = 0; i < trials->count; i++)
        if (is_smallest(trials, i, request->state)) {
            expect(run, found < outcome.answer, "allowances", "an allowance is missing");
            expect(run,
                   rbatl_allowance_at(list, (size_t)found, 0) == trials->pairs[i][0] &&
                       rbatl_allowance_at(list, (size_t)found, 1) == trials->pairs[i][1],
                   "allowances", "another allowance than is due");
            found++;
        }
    expect(run, outcome.answer == found, "allowances", "an allowance too many");
    for (size_t i = RBATL_MAX_RESOURCES * (size_t)found; i < RBATL_ALLOWANCES_BYTES; i++)
        expect(run, list[i] == 0, "allowances", "no zeros after the allowances");
}

/* All states of the row, and one that there is not. The pairs take 256 calls where
 * both resources are limited, so that large jobs are left out, and half of the rest. */
void try_needs(struct run *run, const uint8_t *block, unsigned row)
{
    static struct trials trials;
    unsigned states = rbatl_job_states(block);
    struct request request = request_of(ALLOWANCES, block, row);

    try_absent_state(run, request);
    if (states > 8 || one_in(&run->random, 2))
        return;
    try_pairs(run, block, row, &trials);
    for (unsigned state = 0; state < states; state++) {
        request.state = (uint8_t)state;
        try_state(run, &request, &trials);
    }
}
