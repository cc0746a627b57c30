/* Charges: costs below 0, and jobs that have them. */
#include "fuzz.h"

/* A charge is held as 256 minus it. */
static uint8_t byte_of(int cost)
{
    return (uint8_t)(cost & 0xFF);
}

int cost_at(const uint8_t *block, unsigned state, unsigned agent, unsigned action,
            unsigned resource)
{
    int byte = block[rbatl_place_of_cost(state, agent, action, resource)];
    return byte < 128 ? byte : byte - 256;
}

int taken_by(const uint8_t *block, unsigned state, unsigned move, unsigned resource)
{
    int sum = 0, largest = 0;
    for (unsigned agent = 0; agent < rbatl_job_agents(block); agent++) {
        int cost = cost_at(block, state, agent, rbatl_action_of(move, agent), resource);
        sum += cost;
        if (cost > largest)
            largest = cost;
    }
    return rbatl_resource_kind(block, resource) == RBATL_MAX ? largest : sum;
}

static bool agent_charges(const uint8_t *block, unsigned state, unsigned agent)
{
    for (unsigned action = 1; action < rbatl_action_count(block, state, agent); action++)
        for (unsigned resource = 0; resource < rbatl_job_resources(block); resource++)
            if (cost_at(block, state, agent, action, resource) < 0)
                return true;
    return false;
}

bool has_charges(const uint8_t *block)
{
    for (unsigned state = 0; state < rbatl_job_states(block); state++)
        for (unsigned agent = 0; agent < rbatl_job_agents(block); agent++)
            if (agent_charges(block, state, agent))
                return true;
    return false;
}

/* One of so many costs of the agent, in resources of kind sum, becomes a charge. */
static void charge_agent(struct random *random, uint8_t *block, unsigned state, unsigned agent,
                         unsigned most, unsigned times)
{
    for (unsigned action = 1; action < rbatl_action_count(block, state, agent); action++)
        for (unsigned resource = 0; resource < rbatl_job_resources(block); resource++)
            if (rbatl_resource_kind(block, resource) == RBATL_SUM && one_in(random, times))
                block[rbatl_place_of_cost(state, agent, action, resource)] =
                    byte_of(-(int)within(random, 1, most));
}

void add_charges(struct random *random, uint8_t *block)
{
    static const unsigned charges[] = {1, 2, 5, RBATL_MAX_COST};
    unsigned most = charges[below(random, sizeof charges / sizeof charges[0])];
    unsigned times = within(random, 2, 6);

    for (unsigned state = 0; state < rbatl_job_states(block); state++)
        for (unsigned agent = 0; agent < rbatl_job_agents(block); agent++)
            charge_agent(random, block, state, agent, most, times);
}

/* State 1 is the cradle: action 1 charges there, and action 2 pays the way out. On the
 * way back to it action 1 takes little. A second resource pays for some of it. */
void cradle_costs(struct random *random, uint8_t *block, unsigned state)
{
    int gain = (int)within(random, 1, 3), price = (int)within(random, 1, RBATL_MAX_BOUND);
    int costs[] = {state == 1 ? -gain : one_in(random, 3), state == 1 ? price : 1};

    if (rbatl_action_count(block, state, 0) < 3)
        block[rbatl_place_of_count(state, 0)] = 3;
    for (unsigned action = 1; action < 3; action++) {
        block[rbatl_place_of_cost(state, 0, action, 0)] = byte_of(costs[action - 1]);
        if (rbatl_job_resources(block) > 1)
            block[rbatl_place_of_cost(state, 0, action, 1)] = one_in(random, 4);
    }
}

/* States 1 to the one before the last are a ring, which action 2 leaves at the cradle.
 * Whoever idles waits, or in even states falls to state 0; others seldom matter. */
unsigned cradle_target(struct random *random, const uint8_t *block, unsigned state, unsigned joint)
{
    unsigned last = rbatl_job_states(block) - 1, action = rbatl_action_of(joint, 0);

    if (state == 0 || state == last)
        return state;
    if (joint > 3 && one_in(random, 8))
        return (unsigned)below(random, last + 1);
    if (action == 0)
        return state % 2 == 0 ? 0 : state;
    if (state == 1 && action > 1)
        return last;
    return state + 1 < last ? state + 1 : 1;
}
