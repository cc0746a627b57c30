#include "pattern.h"

#include <stdio.h>

/* In a pattern, any action of an agent. */
#define ANY RBATL_MAX_ACTIONS

/* Longer labels would hide the drawing. */
#define MAX_SHOWN 4

struct pattern {
    unsigned action[RBATL_MAX_AGENTS];
};

uint64_t joints_to(const uint8_t *block, unsigned state, unsigned target)
{
    uint64_t joints = 0;
    for (unsigned joint = 0; joint < RBATL_JOINT_ACTIONS; joint++)
        if (has_joint(block, state, joint) && rbatl_next_state(block, state, joint) == target)
            joints |= UINT64_C(1) << joint;
    return joints;
}

static bool matches(const struct pattern *pattern, unsigned joint)
{
    for (unsigned agent = 0; agent < RBATL_MAX_AGENTS; agent++) {
        unsigned action = pattern->action[agent];
        if (action != ANY && action != rbatl_action_of(joint, agent))
            return false;
    }
    return true;
}

static uint64_t joints_of(const uint8_t *block, unsigned state, const struct pattern *pattern)
{
    uint64_t joints = 0;
    for (unsigned joint = 0; joint < RBATL_JOINT_ACTIONS; joint++)
        if (has_joint(block, state, joint) && matches(pattern, joint))
            joints |= UINT64_C(1) << joint;
    return joints;
}

/* How many agents may take any action. */
static unsigned any_count(const struct pattern *pattern)
{
    unsigned count = 0;
    for (unsigned agent = 0; agent < RBATL_MAX_AGENTS; agent++)
        count += pattern->action[agent] == ANY;
    return count;
}

/* All patterns have numbers from 0, a digit for each agent. */
#define PATTERNS ((ANY + 1) * (ANY + 1) * (ANY + 1))

static struct pattern numbered(unsigned number)
{
    struct pattern pattern;
    for (unsigned agent = 0; agent < RBATL_MAX_AGENTS; agent++) {
        pattern.action[agent] = number % (ANY + 1);
        number /= ANY + 1;
    }
    return pattern;
}

static void print_pattern(const struct pattern *pattern, unsigned agents)
{
    for (unsigned agent = 0; agent < agents; agent++) {
        putchar(agent == 0 ? '(' : ',');
        if (pattern->action[agent] == ANY)
            putchar('*');
        else
            printf("%u", pattern->action[agent]);
    }
    putchar(')');
}

/* Prints what the patterns with as many `*` show of the joint actions that are
 * left; what is left after them. */
static uint64_t print_level(const uint8_t *block, unsigned state, uint64_t joints, unsigned any,
                            uint64_t left, unsigned *shown)
{
    for (unsigned number = 0; number < PATTERNS; number++) {
        struct pattern pattern = numbered(number);
        if (any_count(&pattern) != any)
            continue;
        uint64_t these = joints_of(block, state, &pattern);
        if ((these & ~joints) != 0 || (these & left) == 0)
            continue;
        left &= ~these;
        if (++*shown > MAX_SHOWN)
            continue;
        if (*shown > 1)
            printf("\\n");
        print_pattern(&pattern, rbatl_job_agents(block));
    }
    return left;
}

void print_patterns(const uint8_t *block, unsigned state, uint64_t joints)
{
    const struct pattern every = {{ANY, ANY, ANY}};
    uint64_t left = joints;
    unsigned shown = 0;

    if (joints == joints_of(block, state, &every)) {
        putchar('*');
        return;
    }
    for (unsigned any = RBATL_MAX_AGENTS; any-- > 0;)
        left = print_level(block, state, joints, any, left, &shown);
    if (shown > MAX_SHOWN)
        printf("\\n+ %u more", shown - MAX_SHOWN);
}

void print_move_pattern(const uint8_t *block, unsigned coalition, unsigned move)
{
    struct pattern pattern;
    for (unsigned agent = 0; agent < RBATL_MAX_AGENTS; agent++)
        pattern.action[agent] = in_coalition(coalition, agent) ? rbatl_action_of(move, agent) : ANY;
    print_pattern(&pattern, rbatl_job_agents(block));
}
