/* rbatl_job.h: what stands in a block, in the sets of its rows, in the table of a
 * row, in a worksheet, in a list of allowances and in the report of a rehearsal, by
 * name; and the words of a refusal.
 *
 * A block has RBATL_BLOCK_BYTES and passes rbatl_check, as every block does that
 * rbatl_read fills. Sets are those of rbatl_label, ranks and moves those of
 * rbatl_table, words those of rbatl_worksheet, allowances those of
 * rbatl_allowances, and a report that of rbatl_rehearse. None of the numbers handed
 * over is tested: an agent, a resource, a state, an action or a row has to be below
 * its largest number (RBATL_MAX_..), a joint action below RBATL_JOINT_ACTIONS, a
 * position below rbatl_position_count, a place of a worksheet below the number of
 * its positions, and one of allowances below their count.
 *
 * The offsets of the block stand here once; the comment of rbatl_check has them
 * as numbers.
 */
#ifndef RBATL_JOB_H
#define RBATL_JOB_H

#include "rbatl.h"

#include <stdbool.h>

/* How many numbers joint actions, moves and replies have, whether a state has
 * them or not. */
#define RBATL_JOINT_ACTIONS 64

/* Fields of a row. The bound of resource j is field RBATL_FIELD_BOUND + j; what
 * is left of the row's bytes is 0. */
enum rbatl_field {
    RBATL_FIELD_KIND,
    RBATL_FIELD_LEFT,
    RBATL_FIELD_RIGHT,
    RBATL_FIELD_TEAM,
    RBATL_FIELD_BOUND
};

#define RBATL_ROW_BYTES 8

/* The places of the sizes; then the first place of the masks, counts of actions,
 * costs, next states, rows and kinds of resources. Each sort has room for the
 * largest sizes. */
enum rbatl_place {
    RBATL_PLACE_AGENTS,
    RBATL_PLACE_RESOURCES,
    RBATL_PLACE_STATES,
    RBATL_PLACE_PROPOSITIONS,
    RBATL_PLACE_ROWS,
    RBATL_FIRST_MASK,
    RBATL_FIRST_COUNT = RBATL_FIRST_MASK + RBATL_MAX_STATES,
    RBATL_FIRST_COST = RBATL_FIRST_COUNT + RBATL_MAX_STATES * RBATL_MAX_AGENTS,
    RBATL_FIRST_NEXT = RBATL_FIRST_COST + RBATL_MAX_STATES * RBATL_MAX_AGENTS * RBATL_MAX_ACTIONS *
                                              RBATL_MAX_RESOURCES,
    RBATL_FIRST_ROW = RBATL_FIRST_NEXT + RBATL_MAX_STATES * RBATL_JOINT_ACTIONS,
    RBATL_FIRST_RESOURCE_KIND = RBATL_FIRST_ROW + RBATL_MAX_ROWS * RBATL_ROW_BYTES
};

static inline size_t rbatl_place_of_mask(unsigned state)
{
    return RBATL_FIRST_MASK + state;
}

static inline size_t rbatl_place_of_count(unsigned state, unsigned agent)
{
    return RBATL_FIRST_COUNT + RBATL_MAX_AGENTS * state + agent;
}

static inline size_t rbatl_place_of_cost(unsigned state, unsigned agent, unsigned action,
                                         unsigned resource)
{
    unsigned before = (RBATL_MAX_AGENTS * state + agent) * RBATL_MAX_ACTIONS + action;
    return RBATL_FIRST_COST + RBATL_MAX_RESOURCES * before + resource;
}

static inline size_t rbatl_place_of_next(unsigned state, unsigned joint)
{
    return RBATL_FIRST_NEXT + RBATL_JOINT_ACTIONS * state + joint;
}

static inline size_t rbatl_place_of_field(unsigned row, unsigned field)
{
    return RBATL_FIRST_ROW + RBATL_ROW_BYTES * row + field;
}

static inline size_t rbatl_place_of_resource_kind(unsigned resource)
{
    return RBATL_FIRST_RESOURCE_KIND + resource;
}

/* The sizes of the job. */
static inline unsigned rbatl_job_agents(const uint8_t *block)
{
    return block[RBATL_PLACE_AGENTS];
}

static inline unsigned rbatl_job_resources(const uint8_t *block)
{
    return block[RBATL_PLACE_RESOURCES];
}

static inline unsigned rbatl_job_states(const uint8_t *block)
{
    return block[RBATL_PLACE_STATES];
}

static inline unsigned rbatl_job_propositions(const uint8_t *block)
{
    return block[RBATL_PLACE_PROPOSITIONS];
}

static inline unsigned rbatl_job_rows(const uint8_t *block)
{
    return block[RBATL_PLACE_ROWS];
}

/* The kind of a resource, one of enum rbatl_cost_kind. */
static inline unsigned rbatl_resource_kind(const uint8_t *block, unsigned resource)
{
    return block[rbatl_place_of_resource_kind(resource)];
}

/* The propositions that are true in a state, bit k for proposition k. */
static inline unsigned rbatl_state_mask(const uint8_t *block, unsigned state)
{
    return block[rbatl_place_of_mask(state)];
}

/* The number of actions of an agent in a state. An agent that the job does not
 * have can only idle. */
static inline unsigned rbatl_action_count(const uint8_t *block, unsigned state, unsigned agent)
{
    return agent < rbatl_job_agents(block) ? block[rbatl_place_of_count(state, agent)] : 1;
}

/* What an action of an agent costs of a resource in a state, -RBATL_MAX_COST to
 * RBATL_MAX_COST; below 0 where it charges, which its byte holds as 256 minus the
 * charge. */
static inline int rbatl_action_cost(const uint8_t *block, unsigned state, unsigned agent,
                                    unsigned action, unsigned resource)
{
    int byte = block[rbatl_place_of_cost(state, agent, action, resource)];
    return byte <= RBATL_MAX_COST ? byte : byte - 256;
}

/* The state that a joint action leads to. */
static inline unsigned rbatl_next_state(const uint8_t *block, unsigned state, unsigned joint)
{
    return block[rbatl_place_of_next(state, joint)];
}

/* The action of an agent in a joint action, a move or a reply. */
static inline unsigned rbatl_action_of(unsigned joint, unsigned agent)
{
    return joint >> 2 * agent & 3;
}

/* The joint action with an action of an agent that idles in it. */
static inline unsigned rbatl_with_action(unsigned joint, unsigned agent, unsigned action)
{
    return joint | action << 2 * agent;
}

/* The kind of a row, one of enum rbatl_kind. */
static inline unsigned rbatl_row_kind(const uint8_t *block, unsigned row)
{
    return block[rbatl_place_of_field(row, RBATL_FIELD_KIND)];
}

/* The left row, or the proposition of a row of kind prop. */
static inline unsigned rbatl_row_left(const uint8_t *block, unsigned row)
{
    return block[rbatl_place_of_field(row, RBATL_FIELD_LEFT)];
}

/* The right row of kinds or and until. */
static inline unsigned rbatl_row_right(const uint8_t *block, unsigned row)
{
    return block[rbatl_place_of_field(row, RBATL_FIELD_RIGHT)];
}

/* The coalition of a strategic row, bit a for agent a. */
static inline unsigned rbatl_row_team(const uint8_t *block, unsigned row)
{
    return block[rbatl_place_of_field(row, RBATL_FIELD_TEAM)];
}

/* The bound of a strategic row for a resource, or RBATL_UNLIMITED. */
static inline unsigned rbatl_row_bound(const uint8_t *block, unsigned row, unsigned resource)
{
    return block[rbatl_place_of_field(row, RBATL_FIELD_BOUND + resource)];
}

/* Whether the row is of kind next, always or until, and so has a table. */
static inline bool rbatl_row_is_strategic(const uint8_t *block, unsigned row)
{
    unsigned kind = rbatl_row_kind(block, row);
    return kind == RBATL_NEXT || kind == RBATL_ALWAYS || kind == RBATL_UNTIL;
}

/* How many stocks a strategic row has of a resource: bound + 1, or 1 where it is
 * unlimited or absent, since its stock is then 0. */
static inline unsigned rbatl_stock_places(const uint8_t *block, unsigned row, unsigned resource)
{
    if (resource >= rbatl_job_resources(block))
        return 1;
    unsigned bound = rbatl_row_bound(block, row, resource);
    return bound == RBATL_UNLIMITED ? 1 : bound + 1;
}

/* The number of the position of a state with stocks that the row has. */
static inline size_t rbatl_position_of(const uint8_t *block, unsigned row, unsigned state,
                                       unsigned stock0, unsigned stock1)
{
    size_t first = rbatl_stock_places(block, row, 0);
    size_t second = rbatl_stock_places(block, row, 1);
    return (state * first + stock0) * second + stock1;
}

/* The number of the position of a state with all that the bounds allow. */
static inline size_t rbatl_full_stock(const uint8_t *block, unsigned row, unsigned state)
{
    unsigned stock0 = rbatl_stock_places(block, row, 0) - 1;
    unsigned stock1 = rbatl_stock_places(block, row, 1) - 1;
    return rbatl_position_of(block, row, state, stock0, stock1);
}

/* How many positions a strategic row has. */
static inline size_t rbatl_position_count(const uint8_t *block, unsigned row)
{
    return rbatl_position_of(block, row, rbatl_job_states(block), 0, 0);
}

/* The state of a position. */
static inline unsigned rbatl_state_of(const uint8_t *block, unsigned row, size_t position)
{
    size_t stocks = rbatl_position_of(block, row, 1, 0, 0);
    return (unsigned)(position / stocks);
}

/* The stock of a resource at a position. */
static inline unsigned rbatl_stock_of(const uint8_t *block, unsigned row, size_t position,
                                      unsigned resource)
{
    size_t first = rbatl_stock_places(block, row, 0);
    size_t second = rbatl_stock_places(block, row, 1);
    return (unsigned)(resource == 0 ? position / second % first : position % second);
}

/* A word of two bytes, lowest byte first, of ranks or of a worksheet. */
static inline unsigned rbatl_word_at(const uint8_t *words, size_t place)
{
    const uint8_t *word = words + 2 * place;
    return word[0] | (unsigned)word[1] << 8;
}

/* The rank of a position, or RBATL_NEVER. */
static inline unsigned rbatl_rank_at(const uint8_t *ranks, size_t position)
{
    return rbatl_word_at(ranks, position);
}

/* The move of a position, or RBATL_NO_MOVE. */
static inline unsigned rbatl_move_at(const uint8_t *moves, size_t position)
{
    return moves[position];
}

/* What rbatl_move answers at a place of a worksheet: the move, or minus the number
 * of the refusal. */
static inline int32_t rbatl_answer_at(const uint8_t *words, size_t place)
{
    int32_t word = (int32_t)rbatl_word_at(words, place);
    return word < RBATL_WORD_REFUSED ? word : RBATL_WORD_REFUSED - word;
}

/* The bound of a resource at a place of a list of allowances: a number,
 * RBATL_UNLIMITED where the row has no limit, or 0 where the resource is absent. */
static inline unsigned rbatl_allowance_at(const uint8_t *list, size_t place, unsigned resource)
{
    return list[RBATL_MAX_RESOURCES * place + resource];
}

/* Of a report: whether the rehearsal is finished, the number of moves made, and the
 * number of the last position. */
static inline bool rbatl_report_finished(const uint8_t *report)
{
    return report[0] != 0;
}

static inline unsigned rbatl_report_moves(const uint8_t *report)
{
    return report[1];
}

static inline size_t rbatl_report_position(const uint8_t *report)
{
    return rbatl_word_at(report, 1);
}

/* The word of a row's set. */
static inline uint32_t rbatl_set_of(const uint8_t *sets, unsigned row)
{
    const uint8_t *word = sets + 4 * (size_t)row;
    return word[0] | (uint32_t)word[1] << 8 | (uint32_t)word[2] << 16 | (uint32_t)word[3] << 24;
}

/* Whether the word of a set has the bit of a state. */
static inline bool rbatl_set_has(uint32_t set, unsigned state)
{
    return (set >> state & 1) != 0;
}

/* What a refusal means, by its number: minus the answer of the call. */
static inline const char *rbatl_refusal_text(int32_t number)
{
    switch (number) {
    case RBATL_E_LENGTH:
        return "the text is longer than 32768 bytes, or a buffer has a wrong length";
    case RBATL_E_SIZES:
        return "the number of agents, resources, states, propositions or rows is out of range, "
               "or the kind of a resource is unknown";
    case RBATL_E_STATE:
        return "a state has an absent proposition, a count of actions that is not 1 to 4, "
               "a cost or charge above 15, or an idle action with a cost or charge";
    case RBATL_E_NEXT:
        return "a next state does not exist";
    case RBATL_E_ROW:
        return "a row has an unknown kind, or names a row that is not lower, an absent "
               "proposition, no agent or an absent one, or a bound above 15";
    case RBATL_E_UNUSED:
        return "an unused place of the block is not 0";
    case RBATL_E_FORM:
        return "the text does not have the form of a job";
    case RBATL_E_ROW_CHOICE:
        return "the row does not exist, or is of a kind that has no table";
    case RBATL_E_POSITION:
        return "the state does not exist, or a stock is above its bound, or not 0 where the "
               "resource is unlimited or absent";
    case RBATL_E_WRONG_SIDE:
        return "the coalition has a move or a rehearsal only where it wins, and its opponents "
               "a reply only where it does not";
    case RBATL_E_MOVE:
        return "the coalition's move is not available there, or not affordable";
    case RBATL_E_REPLY:
        return "a reply of the script is not available when its turn comes";
    case RBATL_E_CHARGE:
        return "an action charges a resource of kind max";
    default:
        return "no refusal has this number";
    }
}

#endif
