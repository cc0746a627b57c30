/* What a table must show at one position, from the ranks at the others. The
 * ranks that agree with this at every position are the ranks of document 01:
 * a finite one by induction, and so the rest. */
#include "fuzz.h"

unsigned rank_in(const struct view *view, size_t position)
{
    return rbatl_rank_at(view->ranks, position);
}

unsigned state_of(const struct view *view, size_t position)
{
    return rbatl_state_of(view->block, view->row, position);
}

unsigned stock_of(const struct view *view, size_t position, unsigned resource)
{
    return rbatl_stock_of(view->block, view->row, position, resource);
}

static bool is_limited(const struct view *view, unsigned resource)
{
    return resource < rbatl_job_resources(view->block) &&
           rbatl_row_bound(view->block, view->row, resource) != RBATL_UNLIMITED;
}

static unsigned coalition_of(const struct view *view)
{
    return rbatl_row_team(view->block, view->row);
}

bool is_allowed(const struct view *view, size_t position, unsigned move)
{
    unsigned state = state_of(view, position);
    if (move >= RBATL_JOINT_ACTIONS || part_of(move, coalition_of(view)) != move ||
        !has_joint(view->block, state, move))
        return false;
    for (unsigned resource = 0; resource < RBATL_MAX_RESOURCES; resource++)
        if (is_limited(view, resource) &&
            taken_by(view->block, state, move, resource) > (int)stock_of(view, position, resource))
            return false;
    return true;
}

/* What an allowed move leaves of a stock: never more than the row's bound. */
static unsigned left_over(const struct view *view, size_t position, unsigned move,
                          unsigned resource)
{
    unsigned bound = rbatl_row_bound(view->block, view->row, resource);
    int left = (int)stock_of(view, position, resource) -
               taken_by(view->block, state_of(view, position), move, resource);
    return (unsigned)left < bound ? (unsigned)left : bound;
}

size_t outcome_of(const struct view *view, size_t position, unsigned move, unsigned reply)
{
    unsigned state = state_of(view, position), left[RBATL_MAX_RESOURCES] = {0};

    for (unsigned resource = 0; resource < RBATL_MAX_RESOURCES; resource++)
        if (is_limited(view, resource))
            left[resource] = left_over(view, position, move, resource);
    return rbatl_position_of(view->block, view->row,
                             rbatl_next_state(view->block, state, move | reply), left[0], left[1]);
}

bool can_reply(const struct view *view, unsigned state, unsigned reply)
{
    return reply < RBATL_JOINT_ACTIONS && part_of(reply, coalition_of(view)) == 0 &&
           has_joint(view->block, state, reply);
}

bool is_won(const struct view *view, size_t position)
{
    bool never = rank_in(view, position) == RBATL_NEVER;
    return rbatl_row_kind(view->block, view->row) == RBATL_ALWAYS ? never : !never;
}

/* What a reply makes of a move: the outcome's rank, or for next whether left
 * holds there, as 0, or not, as never. */
static unsigned value_of(const struct view *view, size_t position, unsigned move, unsigned reply)
{
    size_t outcome = outcome_of(view, position, move, reply);
    if (rbatl_row_kind(view->block, view->row) != RBATL_NEXT)
        return rank_in(view, outcome);
    return rbatl_set_has(view->left, state_of(view, outcome)) ? 0 : RBATL_NEVER;
}

/* The value of a move: the opponents take the smallest rank in always, and the
 * largest value else. */
static unsigned move_value(const struct view *view, size_t position, unsigned move)
{
    bool smallest = rbatl_row_kind(view->block, view->row) == RBATL_ALWAYS;
    unsigned state = state_of(view, position), best = smallest ? RBATL_NEVER : 0;

    for (unsigned reply = 0; reply < RBATL_JOINT_ACTIONS; reply++) {
        if (!can_reply(view, state, reply))
            continue;
        unsigned value = value_of(view, position, move, reply);
        if (smallest ? value < best : value > best)
            best = value;
    }
    return best;
}

/* Whether the state alone decides the row, and the rank there. */
static bool is_settled(const struct view *view, size_t position, unsigned *rank)
{
    unsigned state = state_of(view, position);
    bool left = rbatl_set_has(view->left, state), right = rbatl_set_has(view->right, state);

    switch (rbatl_row_kind(view->block, view->row)) {
    case RBATL_ALWAYS:
        *rank = 0;
        return !left;
    case RBATL_UNTIL:
        *rank = right ? 0 : RBATL_NEVER;
        return right || !left;
    default:
        return false;
    }
}

unsigned due_rank(const struct view *view, size_t position)
{
    bool largest = rbatl_row_kind(view->block, view->row) == RBATL_ALWAYS;
    unsigned rank, best = largest ? 0 : RBATL_NEVER;

    if (is_settled(view, position, &rank))
        return rank;
    for (unsigned move = 0; move < RBATL_JOINT_ACTIONS; move++) {
        if (!is_allowed(view, position, move))
            continue;
        unsigned value = move_value(view, position, move);
        if (largest ? value > best : value < best)
            best = value;
    }
    return best == RBATL_NEVER ? RBATL_NEVER : best + 1;
}

unsigned due_move(const struct view *view, size_t position)
{
    unsigned rank = rank_in(view, position), kind = rbatl_row_kind(view->block, view->row);

    if (!is_won(view, position))
        return RBATL_NO_MOVE;
    if (kind == RBATL_UNTIL && rank == 0)
        return 0;
    for (unsigned move = 0; move < RBATL_JOINT_ACTIONS; move++) {
        if (!is_allowed(view, position, move))
            continue;
        unsigned value = move_value(view, position, move);
        if (kind == RBATL_ALWAYS ? value == RBATL_NEVER : value < rank)
            return move;
    }
    return RBATL_NO_MOVE;
}

unsigned due_reply(const struct view *view, size_t position, unsigned move)
{
    unsigned kind = rbatl_row_kind(view->block, view->row), settled;

    if (is_settled(view, position, &settled))
        return 0;
    for (unsigned reply = 0; reply < RBATL_JOINT_ACTIONS; reply++) {
        if (!can_reply(view, state_of(view, position), reply))
            continue;
        unsigned value = value_of(view, position, move, reply);
        if (kind == RBATL_ALWAYS ? value < rank_in(view, position) : value == RBATL_NEVER)
            return reply;
    }
    return RBATL_NO_MOVE;
}
