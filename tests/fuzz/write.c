/* The text of a job in each edition, written without the library. */
#include "fuzz.h"

#include <stdio.h>
#include <string.h>

/* A text that grows at its end. */
struct text {
    char *bytes;
    size_t length;
};

static void add_word(struct text *text, const char *word)
{
    memcpy(text->bytes + text->length, word, strlen(word));
    text->length += strlen(word);
}

static void add_number(struct text *text, unsigned number)
{
    char field[16];

    snprintf(field, sizeof field, ",%u", number);
    add_word(text, field);
}

static void add_cost(struct text *text, int cost)
{
    char field[16];

    snprintf(field, sizeof field, ",%d", cost);
    add_word(text, field);
}

static void add_first_line(struct text *text, const uint8_t *block, enum edition edition)
{
    add_word(text, edition == SECOND ? "job2" : "job");
    for (unsigned place = RBATL_PLACE_AGENTS; place <= RBATL_PLACE_ROWS; place++)
        add_number(text, block[place]);
    for (unsigned j = 0; edition == SECOND && j < rbatl_job_resources(block); j++)
        add_word(text, rbatl_resource_kind(block, j) == RBATL_MAX ? ",max" : ",sum");
    add_word(text, "\n");
}

static void add_actions(struct text *text, const uint8_t *block, unsigned state, unsigned agent)
{
    unsigned count = rbatl_action_count(block, state, agent);

    add_word(text, "acts");
    add_number(text, state);
    add_number(text, agent);
    add_number(text, count);
    for (unsigned action = 0; action < count; action++)
        for (unsigned j = 0; j < rbatl_job_resources(block); j++)
            add_cost(text, cost_at(block, state, agent, action, j));
    add_word(text, "\n");
}

/* Edition 1 has a line for each joint action, edition 2 one for all. */
static void add_next_states(struct text *text, const uint8_t *block, unsigned state,
                            enum edition edition)
{
    for (unsigned joint = 0; joint < RBATL_JOINT_ACTIONS; joint++) {
        if (!has_joint(block, state, joint))
            continue;
        if (edition == FIRST || joint == 0) {
            add_word(text, "go");
            add_number(text, state);
        }
        for (unsigned agent = 0; edition == FIRST && agent < rbatl_job_agents(block); agent++)
            add_number(text, rbatl_action_of(joint, agent));
        add_number(text, rbatl_next_state(block, state, joint));
        if (edition == FIRST)
            add_word(text, "\n");
    }
    if (edition == SECOND)
        add_word(text, "\n");
}

static void add_row(struct text *text, const uint8_t *block, unsigned row)
{
    static const char *const words[] = {"prop", "not", "or", "next", "always", "until"};
    unsigned kind = rbatl_row_kind(block, row);

    add_word(text, words[kind]);
    if (rbatl_row_is_strategic(block, row))
        add_number(text, rbatl_row_team(block, row));
    for (unsigned j = 0; kind >= RBATL_NEXT && j < rbatl_job_resources(block); j++)
        if (rbatl_row_bound(block, row, j) == RBATL_UNLIMITED)
            add_word(text, ",inf");
        else
            add_number(text, rbatl_row_bound(block, row, j));
    add_number(text, rbatl_row_left(block, row));
    if (kind == RBATL_OR || kind == RBATL_UNTIL)
        add_number(text, rbatl_row_right(block, row));
    add_word(text, "\n");
}

size_t write_text(const uint8_t *block, enum edition edition, uint8_t *bytes)
{
    struct text text = {(char *)bytes, 0};

    add_first_line(&text, block, edition);
    for (unsigned state = 0; state < rbatl_job_states(block); state++) {
        add_word(&text, "state");
        add_number(&text, state);
        add_number(&text, rbatl_state_mask(block, state));
        add_word(&text, "\n");
        for (unsigned agent = 0; agent < rbatl_job_agents(block); agent++)
            add_actions(&text, block, state, agent);
        add_next_states(&text, block, state, edition);
    }
    for (unsigned row = 0; row < rbatl_job_rows(block); row++)
        add_row(&text, block, row);
    return text.length;
}

bool has_first_edition(const uint8_t *block)
{
    for (unsigned resource = 0; resource < rbatl_job_resources(block); resource++)
        if (rbatl_resource_kind(block, resource) != RBATL_SUM)
            return false;
    return !has_charges(block);
}
