#include "job.h"

bool in_coalition(unsigned coalition, unsigned agent)
{
    return coalition >> agent & 1;
}

unsigned opponents_of(const uint8_t *block, unsigned row)
{
    unsigned all = (1u << rbatl_job_agents(block)) - 1;
    return all & ~rbatl_row_team(block, row);
}

bool has_joint(const uint8_t *block, unsigned state, unsigned joint)
{
    for (unsigned agent = 0; agent < RBATL_MAX_AGENTS; agent++)
        if (rbatl_action_of(joint, agent) >= rbatl_action_count(block, state, agent))
            return false;
    return true;
}

unsigned part_of(unsigned joint, unsigned agents)
{
    unsigned part = 0;
    for (unsigned agent = 0; agent < RBATL_MAX_AGENTS; agent++)
        if (in_coalition(agents, agent))
            part = rbatl_with_action(part, agent, rbatl_action_of(joint, agent));
    return part;
}

bool is_reply(const uint8_t *block, unsigned row, unsigned state, unsigned number)
{
    return part_of(number, opponents_of(block, row)) == number && has_joint(block, state, number);
}

/* Agents outside the coalition have action 0 in its move, which costs nothing. A
 * resource of kind max is not charged, so that its largest cost is at least 0. */
int move_cost(const uint8_t *block, unsigned state, unsigned move, unsigned resource)
{
    int sum = 0, largest = 0;
    for (unsigned agent = 0; agent < rbatl_job_agents(block); agent++) {
        unsigned action = rbatl_action_of(move, agent);
        int cost = rbatl_action_cost(block, state, agent, action, resource);
        sum += cost;
        if (cost > largest)
            largest = cost;
    }
    return rbatl_resource_kind(block, resource) == RBATL_MAX ? largest : sum;
}
