/* The readers of rbatl_job.h, on Catch as the library reads it. */
#include "host.h"

#include <string.h>

static void same(const char *reader, size_t found, size_t expected)
{
    count_answer("Catch", reader, (int32_t)found, (int32_t)expected);
}

static void read_catch(uint8_t *block)
{
    rbatl_read((const uint8_t *)catch_text, strlen(catch_text), block, RBATL_BLOCK_BYTES);
}

/* The first and the last place of each sort, as document 01 numbers them. */
static void check_places(void)
{
    same("first mask", rbatl_place_of_mask(0), 5);
    same("last mask", rbatl_place_of_mask(23), 28);
    same("first count", rbatl_place_of_count(0, 0), 29);
    same("last count", rbatl_place_of_count(23, 2), 100);
    same("first cost", rbatl_place_of_cost(0, 0, 0, 0), 101);
    same("last cost", rbatl_place_of_cost(23, 2, 3, 1), 676);
    same("first next", rbatl_place_of_next(0, 0), 677);
    same("last next", rbatl_place_of_next(23, 63), 2212);
    same("first field", rbatl_place_of_field(0, 0), 2213);
    same("last field", rbatl_place_of_field(31, 7), 2468);
    same("first kind", rbatl_place_of_resource_kind(0), 2469);
    same("last kind", rbatl_place_of_resource_kind(1), RBATL_BLOCK_BYTES - 1);
}

static void check_structure(const uint8_t *block)
{
    same("agents", rbatl_job_agents(block), 2);
    same("resources", rbatl_job_resources(block), 1);
    same("states", rbatl_job_states(block), 3);
    same("propositions", rbatl_job_propositions(block), 1);
    same("rows", rbatl_job_rows(block), 6);
    same("kind of resource 0", rbatl_resource_kind(block, 0), RBATL_SUM);
    same("mask of state 1", rbatl_state_mask(block, 1), 0);
    same("mask of state 2", rbatl_state_mask(block, 2), 1);
    same("actions of agent 0", rbatl_action_count(block, 1, 0), 2);
    same("actions of agent 1", rbatl_action_count(block, 1, 1), 1);
    same("actions of an absent agent", rbatl_action_count(block, 1, 2), 1);
    same("cost of idling", rbatl_action_cost(block, 1, 0, 0, 0), 0);
    same("cost of action 1", rbatl_action_cost(block, 1, 0, 1, 0), 3);
    same("next state by action 1", rbatl_next_state(block, 0, 1), 1);
    same("next state by both", rbatl_next_state(block, 0, 5), 0);
}

static void check_joints(void)
{
    for (unsigned joint = 0; joint < RBATL_JOINT_ACTIONS; joint++) {
        unsigned again = 0;
        for (unsigned agent = 0; agent < RBATL_MAX_AGENTS; agent++)
            again = rbatl_with_action(again, agent, rbatl_action_of(joint, agent));
        same("joint action", again, joint);
    }
    same("action of agent 0", rbatl_action_of(1 + 4 * 2 + 16 * 3, 0), 1);
    same("action of agent 1", rbatl_action_of(1 + 4 * 2 + 16 * 3, 1), 2);
    same("action of agent 2", rbatl_action_of(1 + 4 * 2 + 16 * 3, 2), 3);
}

static void check_fields(uint8_t *block)
{
    same("kind", rbatl_row_kind(block, 5), RBATL_UNTIL);
    same("left", rbatl_row_left(block, 5), 2);
    same("right", rbatl_row_right(block, 2), 1);
    same("team", rbatl_row_team(block, 5), 3);
    same("bound", rbatl_row_bound(block, 5, 0), 4);
    for (uint8_t kind = RBATL_PROP; kind <= RBATL_UNTIL; kind++) {
        block[rbatl_place_of_field(5, RBATL_FIELD_KIND)] = kind;
        same("strategic", rbatl_row_is_strategic(block, 5), kind >= RBATL_NEXT);
    }
}

/* Row 5 has a position for each state and stock, in rising order. */
static void check_positions(const uint8_t *block, unsigned places0, unsigned places1)
{
    size_t number = 0;

    same("stock places of resource 0", rbatl_stock_places(block, 5, 0), places0);
    same("stock places of resource 1", rbatl_stock_places(block, 5, 1), places1);
    for (unsigned state = 0; state < 3; state++) {
        for (unsigned stock0 = 0; stock0 < places0; stock0++)
            for (unsigned stock1 = 0; stock1 < places1; stock1++, number++) {
                same("position", rbatl_position_of(block, 5, state, stock0, stock1), number);
                same("state", rbatl_state_of(block, 5, number), state);
                same("stock of resource 0", rbatl_stock_of(block, 5, number, 0), stock0);
                same("stock of resource 1", rbatl_stock_of(block, 5, number, 1), stock1);
            }
        same("full stock", rbatl_full_stock(block, 5, state), number - 1);
    }
    same("count of positions", rbatl_position_count(block, 5), number);
}

/* Limited, unlimited and absent resources. */
static void check_bounds(uint8_t *block)
{
    uint8_t *bounds = block + rbatl_place_of_field(5, RBATL_FIELD_BOUND);

    check_positions(block, 5, 1);
    bounds[0] = RBATL_UNLIMITED;
    check_positions(block, 1, 1);
    block[RBATL_PLACE_RESOURCES] = 2;
    bounds[1] = 2;
    check_positions(block, 1, 3);
    bounds[0] = 4;
    check_positions(block, 5, 3);
    bounds[1] = RBATL_UNLIMITED;
    check_positions(block, 5, 1);
    bounds[1] = 0;
    check_positions(block, 5, 1);
}

static void check_words(void)
{
    static const uint8_t words[] = {1, 2, 3, 4, 5, 6, 7, 0x88};

    same("word at 1", rbatl_word_at(words, 1), 0x0403);
    same("rank at 0", rbatl_rank_at(words, 0), 0x0201);
    same("rank at 3", rbatl_rank_at(words, 3), 0x8807);
    same("move at 7", rbatl_move_at(words, 7), 0x88);
    same("set of row 0", rbatl_set_of(words, 0), 0x04030201);
    count(rbatl_set_of(words, 1) == UINT32_C(0x88070605), "Catch", "another set of row 1");
    count(rbatl_set_has(6, 1) && rbatl_set_has(6, 2), "Catch", "a state of a set is missing");
    count(!rbatl_set_has(6, 0) && !rbatl_set_has(6, 3), "Catch", "a state that a set has not");
}

/* Moves from the least to the largest, and refusals. */
static void check_answers(void)
{
    static const uint8_t words[] = {0, 0, 63, 0, 255, 0, 1, 1, 9, 1, 10, 1};
    static const int32_t answers[] = {0, 63, 255, -1, -RBATL_E_POSITION, -RBATL_E_WRONG_SIDE};

    for (size_t place = 0; place < sizeof answers / sizeof answers[0]; place++)
        count_answer("a worksheet", "answer_at", rbatl_answer_at(words, place), answers[place]);
}

/* Not finished and finished, no move and as many as there can be, and a position
 * whose number takes two bytes. */
static void check_reports(void)
{
    static const uint8_t first[] = {0, 0, 5, 0}, last[] = {1, 255, 0xFF, 0x17};

    count(!rbatl_report_finished(first), "a report", "finished too early");
    count(rbatl_report_finished(last), "a report", "not finished");
    same("moves of a report", rbatl_report_moves(first), 0);
    same("moves of a report", rbatl_report_moves(last), RBATL_SCRIPT_BYTES);
    same("position of a report", rbatl_report_position(first), 5);
    same("position of a report", rbatl_report_position(last), RBATL_MAX_POSITIONS - 1);
}

/* Each refusal has words of its own, and no other number has them. */
static void check_refusal_texts(void)
{
    const char *none = rbatl_refusal_text(0);

    for (int32_t number = RBATL_E_LENGTH; number <= RBATL_E_CHARGE; number++) {
        const char *words = rbatl_refusal_text(number);
        count(strcmp(words, none) != 0, words, "a refusal without words");
        for (int32_t other = RBATL_E_LENGTH; other < number; other++)
            count(strcmp(words, rbatl_refusal_text(other)) != 0, words,
                  "the words of two refusals");
    }
    count(strcmp(rbatl_refusal_text(RBATL_E_CHARGE + 1), none) == 0, none, "words of no refusal");
    count(strcmp(rbatl_refusal_text(-RBATL_E_LENGTH), none) == 0, none, "words of an answer");
}

void check_job(void)
{
    static uint8_t block[RBATL_BLOCK_BYTES];

    check_places();
    read_catch(block);
    check_structure(block);
    check_joints();
    check_fields(block);
    read_catch(block);
    check_bounds(block);
    check_words();
    check_answers();
    check_reports();
    check_refusal_texts();
}
