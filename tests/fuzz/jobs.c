/* Random jobs that the check lets pass, and damage to their blocks. */
#include "fuzz.h"

#include <string.h>

/* Values at both sides of every border of documents 01 and 02. */
static const uint8_t borders[] = {
    0,  1,  2,  3,  4,  5,  6,   7,   8,   9,   14,  15,  16,  17,
    23, 24, 25, 31, 32, 33, 127, 128, 239, 240, 241, 253, 254, 255,
};

/* How the next states of a job come about. */
enum play { FREE, CONTEST, TEAMWORK, TRADE, CRADLE, PLAYS };

/* Mostly few states, since large tables take long. */
static void random_sizes(struct random *random, uint8_t *block)
{
    size_t size = below(random, 64);
    unsigned states = size == 0 ? RBATL_MAX_STATES : within(random, 1, size < 8 ? 24 : 6);
    unsigned rows = size == 0 ? RBATL_MAX_ROWS : within(random, 1, size < 8 ? 32 : 9);

    block[RBATL_PLACE_AGENTS] = (uint8_t)within(random, 1, RBATL_MAX_AGENTS);
    block[RBATL_PLACE_RESOURCES] = (uint8_t)within(random, 1, RBATL_MAX_RESOURCES);
    block[RBATL_PLACE_STATES] = (uint8_t)states;
    block[RBATL_PLACE_PROPOSITIONS] = (uint8_t)within(random, 1, RBATL_MAX_PROPOSITIONS);
    block[RBATL_PLACE_ROWS] = (uint8_t)rows;
}

static void random_actions(struct random *random, uint8_t *block, unsigned state, unsigned agent)
{
    static const unsigned costs[] = {0, 1, 2, 4, RBATL_MAX_COST};
    unsigned count = within(random, 1, within(random, 1, RBATL_MAX_ACTIONS));
    unsigned most = costs[below(random, sizeof costs / sizeof costs[0])];

    block[rbatl_place_of_count(state, agent)] = (uint8_t)count;
    for (unsigned action = 1; action < count; action++)
        for (unsigned resource = 0; resource < rbatl_job_resources(block); resource++)
            block[rbatl_place_of_cost(state, agent, action, resource)] =
                (uint8_t)within(random, 0, most);
}

/* Mostly the next few states, so that plays are long. The first agent mostly
 * decides, so that there is something to win. */
static unsigned random_target(struct random *random, const uint8_t *block, unsigned state,
                              unsigned joint)
{
    unsigned states = rbatl_job_states(block);
    if (joint > 3 && one_in(random, 2))
        return rbatl_next_state(block, state, joint & 3);
    if (one_in(random, 4))
        return (unsigned)below(random, states);
    return (state + within(random, 0, 2)) % states;
}

/* Idle opponents of the first agent let it go to even states, which have all
 * propositions, so that a reply has something to spoil. */
static unsigned contested_target(struct random *random, const uint8_t *block, unsigned joint)
{
    unsigned target = (unsigned)below(random, rbatl_job_states(block));
    return joint > 3 ? target : target & ~1u;
}

/* The first agent goes on to the last state for a price, and without one falls to
 * state 0, so that its coalition needs an allowance. */
static unsigned traded_target(struct random *random, const uint8_t *block, unsigned state,
                              unsigned joint)
{
    unsigned last = rbatl_job_states(block) - 1;
    if (state == 0 || state == last)
        return state;
    if (one_in(random, 32))
        return (unsigned)below(random, last + 1);
    return rbatl_action_of(joint, 0) > 0 ? state + 1 : 0;
}

/* What is saved of one resource is spent of the other, so that of several ways to
 * pay none makes another needless. */
static void trade_costs(struct random *random, uint8_t *block, unsigned state)
{
    unsigned price = within(random, 1, RBATL_MAX_COST / 2);

    block[rbatl_place_of_count(state, 0)] = RBATL_MAX_ACTIONS;
    for (unsigned action = 1; action < RBATL_MAX_ACTIONS; action++) {
        unsigned first = within(random, 0, price);
        block[rbatl_place_of_cost(state, 0, action, 0)] = (uint8_t)first;
        if (rbatl_job_resources(block) > 1)
            block[rbatl_place_of_cost(state, 0, action, 1)] = (uint8_t)(price - first);
    }
}

/* Whether there is a way from state 1 to the last, off which state 0 is. */
static bool has_way(enum play play)
{
    return play == TRADE || play == CRADLE;
}

static unsigned random_mask(struct random *random, const uint8_t *block, unsigned state,
                            enum play play)
{
    if (has_way(play) && state > 0)
        return state + 1 == rbatl_job_states(block) ? UINT8_MAX : UINT8_MAX - 1;
    if (has_way(play))
        return 0;
    if (play != FREE && one_in(random, 2))
        return state % 2 == 0 ? UINT8_MAX : 0;
    return draw_byte(random) & draw_byte(random);
}

/* Only where all agents act who can do they lead on, so that the kind of a
 * resource matters. */
static unsigned shared_target(struct random *random, const uint8_t *block, unsigned state,
                              unsigned joint)
{
    bool all = true;
    if (one_in(random, 16))
        return (unsigned)below(random, rbatl_job_states(block));
    for (unsigned agent = 0; agent < rbatl_job_agents(block); agent++)
        all &= rbatl_action_of(joint, agent) > 0 || rbatl_action_count(block, state, agent) == 1;
    return all ? (state + 1) % rbatl_job_states(block) : state;
}

static unsigned target_of(struct random *random, const uint8_t *block, enum play play,
                          unsigned state, unsigned joint)
{
    switch (play) {
    case CONTEST:
        return contested_target(random, block, joint);
    case TEAMWORK:
        return shared_target(random, block, state, joint);
    case TRADE:
        return traded_target(random, block, state, joint);
    case CRADLE:
        return cradle_target(random, block, state, joint);
    default:
        return random_target(random, block, state, joint);
    }
}

static void random_state(struct random *random, uint8_t *block, unsigned state, enum play play)
{
    unsigned masks = 1u << rbatl_job_propositions(block);
    block[rbatl_place_of_mask(state)] =
        (uint8_t)(random_mask(random, block, state, play) & (masks - 1));
    for (unsigned agent = 0; agent < rbatl_job_agents(block); agent++)
        random_actions(random, block, state, agent);
    if (play == TRADE)
        trade_costs(random, block, state);
    if (play == CRADLE)
        cradle_costs(random, block, state);
    for (unsigned joint = 0; joint < RBATL_JOINT_ACTIONS; joint++)
        if (has_joint(block, state, joint))
            block[rbatl_place_of_next(state, joint)] =
                (uint8_t)target_of(random, block, play, state, joint);
}

static uint8_t random_bound(struct random *random, unsigned most)
{
    return one_in(random, 5) ? RBATL_UNLIMITED : (uint8_t)within(random, 0, most);
}

static void random_row(struct random *random, uint8_t *block, unsigned row, unsigned most)
{
    unsigned kind = row == 0 ? RBATL_PROP : within(random, RBATL_PROP, RBATL_UNTIL);
    unsigned operands = kind == RBATL_PROP ? rbatl_job_propositions(block) : row;

    block[rbatl_place_of_field(row, RBATL_FIELD_KIND)] = (uint8_t)kind;
    block[rbatl_place_of_field(row, RBATL_FIELD_LEFT)] = (uint8_t)below(random, operands);
    if (kind == RBATL_OR || kind == RBATL_UNTIL)
        block[rbatl_place_of_field(row, RBATL_FIELD_RIGHT)] = (uint8_t)below(random, row);
    if (!rbatl_row_is_strategic(block, row))
        return;
    block[rbatl_place_of_field(row, RBATL_FIELD_TEAM)] =
        (uint8_t)within(random, 1, (1u << rbatl_job_agents(block)) - 1);
    for (unsigned resource = 0; resource < rbatl_job_resources(block); resource++)
        block[rbatl_place_of_field(row, RBATL_FIELD_BOUND + resource)] = random_bound(random, most);
}

/* Most strategic rows ask for the last state, which alone has proposition 0, or to
 * stay away from state 0, which has none; the first two rows are propositions. */
static void ask_for_way(struct random *random, uint8_t *block, unsigned row)
{
    uint8_t *fields = block + rbatl_place_of_field(row, 0);

    if (row < 2 && row < rbatl_job_propositions(block)) {
        memset(fields, 0, RBATL_ROW_BYTES);
        fields[RBATL_FIELD_LEFT] = (uint8_t)row;
    } else if (row >= 2 && rbatl_row_is_strategic(block, row) && !one_in(random, 4)) {
        fields[RBATL_FIELD_LEFT] = fields[RBATL_FIELD_KIND] != RBATL_NEXT;
        fields[RBATL_FIELD_RIGHT] = 0;
        fields[RBATL_FIELD_TEAM] |= 1;
    }
}

void random_job(struct random *random, uint8_t *block)
{
    static const unsigned bounds[] = {0, 2, 3, 5, RBATL_MAX_BOUND};

    memset(block, 0, RBATL_BLOCK_BYTES);
    random_sizes(random, block);
    unsigned most = bounds[below(random, sizeof bounds / sizeof bounds[0])];
    enum play play = (enum play)below(random, PLAYS);
    for (unsigned state = 0; state < rbatl_job_states(block); state++)
        random_state(random, block, state, play);
    for (unsigned row = 0; row < rbatl_job_rows(block); row++) {
        random_row(random, block, row, most);
        if (has_way(play))
            ask_for_way(random, block, row);
    }
    for (unsigned resource = 0; resource < rbatl_job_resources(block); resource++)
        block[rbatl_place_of_resource_kind(resource)] = one_in(random, 2) ? RBATL_MAX : RBATL_SUM;
    if (play == CRADLE)
        block[rbatl_place_of_resource_kind(0)] = RBATL_SUM;
    if (one_in(random, 3))
        add_charges(random, block);
}

/* A place that the job may use, sort by sort, or any place. */
static size_t random_place(struct random *random, const uint8_t *block)
{
    unsigned state = (unsigned)below(random, rbatl_job_states(block));
    unsigned agent = (unsigned)below(random, RBATL_MAX_AGENTS);
    unsigned resource = (unsigned)below(random, RBATL_MAX_RESOURCES);

    switch (below(random, 8)) {
    case 0:
        return below(random, RBATL_PLACE_ROWS + 1);
    case 1:
        return rbatl_place_of_mask(state);
    case 2:
        return rbatl_place_of_count(state, agent);
    case 3:
        return rbatl_place_of_cost(state, agent, (unsigned)below(random, RBATL_MAX_ACTIONS),
                                   resource);
    case 4:
        return rbatl_place_of_next(state, (unsigned)below(random, RBATL_JOINT_ACTIONS));
    case 5:
        return rbatl_place_of_field((unsigned)below(random, rbatl_job_rows(block)),
                                    (unsigned)below(random, RBATL_ROW_BYTES));
    case 6:
        return rbatl_place_of_resource_kind(resource);
    default:
        return below(random, RBATL_BLOCK_BYTES);
    }
}

static uint8_t random_value(struct random *random, uint8_t old)
{
    switch (below(random, 5)) {
    case 0:
        return draw_byte(random);
    case 1:
        return (uint8_t)(old + 1);
    case 2:
        return (uint8_t)(old - 1);
    case 3:
        return (uint8_t)(old ^ 1u << below(random, 8));
    default:
        return borders[below(random, sizeof borders)];
    }
}

void damage_block(struct random *random, uint8_t *block)
{
    if (one_in(random, 32)) {
        unsigned most = one_in(random, 2) ? 3 : 255;
        for (size_t place = 0; place < RBATL_BLOCK_BYTES; place++)
            block[place] = (uint8_t)within(random, 0, most);
        return;
    }
    size_t places[4], count = one_in(random, 3) ? within(random, 2, 4) : 1;
    for (size_t i = 0; i < count; i++)
        places[i] = random_place(random, block);
    for (size_t i = 0; i < count; i++)
        block[places[i]] = random_value(random, block[places[i]]);
}
