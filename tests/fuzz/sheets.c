/* Worksheets: their lists, and their words beside the table and single calls. */
#include "fuzz.h"

#include <string.h>

void random_list(struct random *random, struct request *request)
{
    request->list_length = request->entry == REHEARSE
                               ? below(random, RBATL_SCRIPT_BYTES + 1)
                               : RBATL_POSITION_BYTES * below(random, RBATL_SHEET_POSITIONS + 1);
    for (size_t i = 0; i < LIST_ROOM; i++)
        request->list[i] = draw_byte(random);
}

/* One position or reply or some bytes too many, or a part of a position at its end. */
void misfit_list(struct random *random, struct request *request)
{
    bool script = request->entry == REHEARSE;
    unsigned most = script ? RBATL_SCRIPT_BYTES : RBATL_SHEET_BYTES;

    switch (below(random, script ? 2 : 3)) {
    case 0:
        request->list_length = most + (script ? 1 : RBATL_POSITION_BYTES);
        break;
    case 1:
        request->list_length = within(random, most + 1, LIST_ROOM);
        break;
    default:
        request->list_length += within(random, 1, RBATL_POSITION_BYTES - 1);
    }
}

/* A position of the row; now and then a byte of it is any, so that it often is
 * none. */
static void random_position(struct random *random, const struct view *view, uint8_t *at)
{
    size_t position = below(random, rbatl_position_count(view->block, view->row));

    at[0] = (uint8_t)state_of(view, position);
    at[1] = (uint8_t)stock_of(view, position, 0);
    at[2] = (uint8_t)stock_of(view, position, 1);
    if (one_in(random, 8))
        at[below(random, RBATL_POSITION_BYTES)] =
            one_in(random, 2) ? draw_byte(random) : (uint8_t)below(random, RBATL_MAX_STATES + 1);
}

/* Some positions stand twice. */
static void fill_list(struct random *random, const struct view *view, struct request *request)
{
    size_t count = one_in(random, 4) ? RBATL_SHEET_POSITIONS
                                     : below(random, RBATL_SHEET_POSITIONS + 1);

    request->list_length = RBATL_POSITION_BYTES * count;
    for (size_t k = 0; k < count; k++) {
        uint8_t *at = request->list + RBATL_POSITION_BYTES * k;
        if (k > 0 && one_in(random, 6))
            memcpy(at, request->list + RBATL_POSITION_BYTES * below(random, k),
                   RBATL_POSITION_BYTES);
        else
            random_position(random, view, at);
    }
}

/* What the table says there. */
static int32_t due_answer(const struct view *view, const uint8_t *at)
{
    if (at[0] >= rbatl_job_states(view->block) ||
        at[1] >= rbatl_stock_places(view->block, view->row, 0) ||
        at[2] >= rbatl_stock_places(view->block, view->row, 1))
        return -RBATL_E_POSITION;
    size_t position = rbatl_position_of(view->block, view->row, at[0], at[1], at[2]);
    return is_won(view, position) ? (int32_t)view->moves[position] : -RBATL_E_WRONG_SIDE;
}

/* What a single call says there. */
static int32_t single_answer(struct run *run, const struct view *view, const uint8_t *at)
{
    static struct outcome outcome;
    struct request request = request_of(MOVE, view->block, view->row);

    request.state = at[0];
    request.stock0 = at[1];
    request.stock1 = at[2];
    ask(run, &request, &outcome);
    return outcome.answer;
}

/* A single call takes as long as a whole worksheet, so that only some are made. */
void try_sheet(struct run *run, const struct view *view)
{
    static struct outcome outcome;
    struct request request = request_of(SHEET, view->block, view->row);

    fill_list(&run->random, view, &request);
    ask(run, &request, &outcome);
    expect(run, outcome.answer == 0, "worksheet", "a strategic row");
    for (size_t k = 0; k < request.list_length / RBATL_POSITION_BYTES; k++) {
        const uint8_t *at = request.list + RBATL_POSITION_BYTES * k;
        int32_t answer = rbatl_answer_at(outcome.bytes[0], k);
        expect(run, answer == due_answer(view, at), "worksheet", "another word than the table's");
        if (one_in(&run->random, 8))
            expect(run, answer == single_answer(run, view, at), "worksheet",
                   "another word than a single call's");
    }
}
