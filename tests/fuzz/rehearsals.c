/* Rehearsals: their reports beside the table's moves, the sets of the operands and the
 * steps of the block. */
#include "fuzz.h"

/* A rehearsal as it should be: the position and the number of moves so far, or 12. */
struct course {
    size_t position;
    unsigned moves;
    bool finished, refused;
};

/* Whether the play ends there, whatever is left of the script. */
static bool is_over(const struct view *view, const struct course *course)
{
    switch (rbatl_row_kind(view->block, view->row)) {
    case RBATL_NEXT:
        return course->moves == 1;
    case RBATL_UNTIL:
        return rbatl_set_has(view->right, state_of(view, course->position));
    default:
        return false;
    }
}

/* A reply of the state. */
static uint8_t random_reply(struct random *random, const struct view *view, size_t position)
{
    unsigned state = state_of(view, position), reply = 0;

    for (unsigned agent = 0; agent < rbatl_job_agents(view->block); agent++) {
        unsigned count = rbatl_action_count(view->block, state, agent);
        if (!in_coalition(rbatl_row_team(view->block, view->row), agent))
            reply = rbatl_with_action(reply, agent, (unsigned)below(random, count));
    }
    return (uint8_t)reply;
}

/* What holds of every step of a play that the coalition wins. */
static void check_step(struct run *run, const struct view *view, size_t before, size_t after)
{
    unsigned kind = rbatl_row_kind(view->block, view->row);
    bool charged = has_charges(view->block);

    for (unsigned resource = 0; resource < RBATL_MAX_RESOURCES; resource++)
        expect(run, charged || stock_of(view, after, resource) <= stock_of(view, before, resource),
               "rehearse", "a stock that grows");
    expect(run, kind == RBATL_NEXT || rbatl_set_has(view->left, state_of(view, before)),
           "rehearse", "left is false on the way");
    expect(run, kind != RBATL_UNTIL || rank_in(view, after) < rank_in(view, before), "rehearse",
           "a rank that does not fall");
}

/* Writes a script of that length as the play goes, with any bytes past its end, and
 * says how it should come out. In half of the scripts one bit is changed. */
static struct course random_course(struct run *run, const struct view *view, size_t start,
                                   struct request *request)
{
    struct course course = {start, 0, false, false};
    size_t length = request->list_length;
    size_t changed = length == 0 || one_in(&run->random, 2) ? length : below(&run->random, length);

    for (size_t i = 0; i < length; i++) {
        uint8_t *reply = &request->list[i];
        *reply = draw_byte(&run->random);
        if (course.refused || is_over(view, &course))
            continue;
        *reply = random_reply(&run->random, view, course.position);
        if (i == changed)
            *reply ^= (uint8_t)(1u << below(&run->random, 8));
        course.refused = !can_reply(view, state_of(view, course.position), *reply);
        if (course.refused)
            continue;
        size_t after = outcome_of(view, course.position, view->moves[course.position], *reply);
        check_step(run, view, course.position, after);
        course.position = after;
        course.moves++;
    }
    course.finished =
        is_over(view, &course) || rbatl_row_kind(view->block, view->row) == RBATL_ALWAYS;
    return course;
}

static void check_report(struct run *run, const struct view *view, size_t start,
                         const struct course *due, const uint8_t *report)
{
    unsigned kind = rbatl_row_kind(view->block, view->row);
    bool left = rbatl_set_has(view->left, state_of(view, due->position));

    expect(run, report[0] == due->finished, "rehearse", "finished or not");
    expect(run, rbatl_report_moves(report) == due->moves, "rehearse", "another number of moves");
    expect(run, rbatl_report_position(report) == due->position, "rehearse", "another position");
    expect(run, kind != RBATL_UNTIL || due->moves <= rank_in(view, start), "rehearse",
           "more moves than the rank");
    expect(run, kind == RBATL_UNTIL || !due->finished || left, "rehearse",
           "left is false at the end");
}

/* Mostly as long as an until is at most, and now and then the longest. */
static size_t random_length(struct random *random)
{
    if (one_in(random, 16))
        return RBATL_SCRIPT_BYTES;
    return below(random, one_in(random, 2) ? 4 : RBATL_MAX_STATES + 8);
}

static void try_start(struct run *run, const struct view *view, unsigned state)
{
    static struct outcome outcome;
    struct request request = request_of(REHEARSE, view->block, view->row);
    size_t start = rbatl_full_stock(view->block, view->row, state);

    request.state = (uint8_t)state;
    random_list(&run->random, &request);
    request.list_length = random_length(&run->random);
    if (!is_won(view, start)) {
        ask(run, &request, &outcome);
        expect(run, outcome.answer == -RBATL_E_WRONG_SIDE, "rehearse", "a start that is not won");
        return;
    }
    struct course due = random_course(run, view, start, &request);
    ask(run, &request, &outcome);
    expect(run, outcome.answer == (due.refused ? -RBATL_E_REPLY : 0), "rehearse",
           "another answer than is due");
    if (!due.refused)
        check_report(run, view, start, &due, outcome.bytes[0]);
}

/* Some states of the row, and one that there is not. */
void try_rehearsals(struct run *run, const struct view *view)
{
    struct request request = request_of(REHEARSE, view->block, view->row);

    random_list(&run->random, &request);
    try_absent_state(run, request);
    for (unsigned i = 0; i < 4; i++)
        try_start(run, view, (unsigned)below(&run->random, rbatl_job_states(view->block)));
}
