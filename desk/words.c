#include "words.h"

#include "desk.h"

#include <stdio.h>

enum status refuse(int32_t answer)
{
    int32_t number = -answer;
    fprintf(stderr, "desk: refused, %ld: %s\n", (long)number, rbatl_refusal_text(number));
    return REFUSED;
}

static void print_coalition(const uint8_t *block, unsigned row)
{
    const char *before = "coalition ";
    for (unsigned agent = 0; agent < rbatl_job_agents(block); agent++)
        if (in_coalition(rbatl_row_team(block, row), agent)) {
            printf("%s%u", before, agent);
            before = ", ";
        }
}

static void print_bounds(const uint8_t *block, unsigned row)
{
    const char *before = " within ";
    for (unsigned resource = 0; resource < rbatl_job_resources(block); resource++) {
        unsigned bound = rbatl_row_bound(block, row, resource);
        if (bound == RBATL_UNLIMITED)
            printf("%sinf", before);
        else
            printf("%s%u", before, bound);
        before = ", ";
    }
}

static void print_formula(const uint8_t *block, unsigned row)
{
    unsigned left = rbatl_row_left(block, row), right = rbatl_row_right(block, row);

    switch (rbatl_row_kind(block, row)) {
    case RBATL_PROP:
        printf("proposition %u", left);
        break;
    case RBATL_NOT:
        printf("not row %u", left);
        break;
    case RBATL_OR:
        printf("row %u or row %u", left, right);
        break;
    case RBATL_NEXT:
        printf("next row %u", left);
        break;
    case RBATL_ALWAYS:
        printf("always row %u", left);
        break;
    case RBATL_UNTIL:
        printf("row %u until row %u", left, right);
        break;
    }
}

void print_row(const uint8_t *block, unsigned row)
{
    if (rbatl_row_is_strategic(block, row)) {
        print_coalition(block, row);
        print_bounds(block, row);
        printf(": ");
    }
    print_formula(block, row);
}

void print_aim(const uint8_t *block, unsigned row)
{
    print_coalition(block, row);
    printf(": ");
    print_formula(block, row);
}

void print_kinds(const uint8_t *block)
{
    const char *before = "";
    for (unsigned resource = 0; resource < rbatl_job_resources(block); resource++) {
        bool largest = rbatl_resource_kind(block, resource) == RBATL_MAX;
        printf("%s%s", before, largest ? "max" : "sum");
        before = ", ";
    }
}

void print_actions(unsigned joint, unsigned agents)
{
    const char *before = "";
    if (agents == 0)
        printf("nobody");
    for (unsigned agent = 0; agent < RBATL_MAX_AGENTS; agent++) {
        if (!in_coalition(agents, agent))
            continue;
        unsigned action = rbatl_action_of(joint, agent);
        printf("%sagent %u ", before, agent);
        if (action == 0)
            printf("idle");
        else
            printf("action %u", action);
        before = ", ";
    }
}

void print_move(const uint8_t *block, unsigned row, unsigned move)
{
    printf("move %u: ", move);
    print_actions(move, rbatl_row_team(block, row));
}

void print_reply(const uint8_t *block, unsigned row, unsigned reply)
{
    printf("reply %u: ", reply);
    print_actions(reply, opponents_of(block, row));
}

void print_position(const uint8_t *block, unsigned state, unsigned stock0, unsigned stock1)
{
    printf("state %u, stock %u", state, stock0);
    if (rbatl_job_resources(block) > 1)
        printf(", %u", stock1);
}

void print_numbered(const uint8_t *block, unsigned row, size_t position)
{
    print_position(block, rbatl_state_of(block, row, position),
                   rbatl_stock_of(block, row, position, 0),
                   rbatl_stock_of(block, row, position, 1));
}

void print_count(const char *before, unsigned count, const char *noun)
{
    printf("%s%u %s%s", before, count, noun, count == 1 ? "" : "s");
}

void print_states(uint32_t set)
{
    const char *before = "";
    if (set == 0)
        printf("none");
    for (unsigned state = 0; state < RBATL_MAX_STATES; state++)
        if (rbatl_set_has(set, state)) {
            printf("%s%u", before, state);
            before = " ";
        }
}
