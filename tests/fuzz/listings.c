/* The listing of a job, put together from what the other calls answer. */
#include "fuzz.h"

#include <stdio.h>
#include <string.h>

/* The lines so far, and a byte 0. */
struct lines {
    char bytes[RBATL_LISTING_BYTES + 1];
    size_t length;
};

static char *end_of(struct lines *lines)
{
    return lines->bytes + lines->length;
}

static size_t left_of(const struct lines *lines)
{
    return sizeof lines->bytes - lines->length;
}

static void add_set(struct lines *lines, unsigned row, uint32_t set)
{
    int added = snprintf(end_of(lines), left_of(lines), "set,%u,%d,%lu\n", row,
                         __builtin_popcountl(set), (unsigned long)set);
    lines->length += (size_t)added;
}

/* A line for each state of the row's set, by its table. */
static void add_plans(struct run *run, struct lines *lines, const uint8_t *block, unsigned row,
                      uint32_t set)
{
    static struct outcome outcome;
    struct view view = {block, row, outcome.bytes[0], outcome.bytes[1], 0, 0};

    expect(run, ask_block(run, TABLE, block, row, &outcome) == 0, "table", "a strategic row");
    for (unsigned state = 0; state < rbatl_job_states(block); state++) {
        size_t position = rbatl_full_stock(block, row, state);
        if (!rbatl_set_has(set, state))
            continue;
        int added = snprintf(end_of(lines), left_of(lines), "plan,%u,%u,%u,%u\n", row, state,
                             rank_in(&view, position), view.moves[position]);
        lines->length += (size_t)added;
    }
}

void try_listing(struct run *run, const uint8_t *block, const uint8_t *text, size_t length)
{
    static struct outcome labels, listed;
    static struct lines due;

    expect(run, ask_block(run, LABEL, block, 0, &labels) == 0, "label", "a passing block");
    due.length = (size_t)snprintf(due.bytes, sizeof due.bytes, "list,%u\n", rbatl_job_rows(block));
    for (unsigned row = 0; row < rbatl_job_rows(block); row++) {
        uint32_t set = rbatl_set_of(labels.bytes[0], row);
        add_set(&due, row, set);
        if (rbatl_row_is_strategic(block, row))
            add_plans(run, &due, block, row, set);
    }
    int32_t answer = ask_text(run, LIST, text, length, &listed);
    expect(run, answer >= 0 && (size_t)answer == due.length, "list", "another length than is due");
    expect(run, memcmp(listed.bytes[0], due.bytes, due.length) == 0, "list", "another listing");
    for (size_t i = due.length; i < RBATL_LISTING_BYTES; i++)
        expect(run, listed.bytes[0][i] == 0, "list", "no zeros after the listing");
}
