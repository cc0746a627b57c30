/* Catch as a block, and damage to it. */
#include "host.h"

#include <string.h>

/* Kind, left, right, team and the one bound of each row. */
static const uint8_t catch_rows[][ROW_FIELDS] = {
    {RBATL_PROP, 0, 0, 0, 0},  {RBATL_NOT, 0, 0, 0, 0},   {RBATL_OR, 0, 1, 0, 0},
    {RBATL_UNTIL, 2, 0, 1, 5}, {RBATL_UNTIL, 2, 0, 3, 5}, {RBATL_UNTIL, 2, 0, 3, 4},
};

void fill_row(uint8_t *block, unsigned row, const uint8_t *fields)
{
    for (unsigned field = 0; field < ROW_FIELDS; field++)
        block[rbatl_place_of_field(row, field)] = fields[field];
}

void fill_catch(uint8_t *block)
{
    const struct byte bytes[] = {
        {RBATL_PLACE_AGENTS, 2},
        {RBATL_PLACE_RESOURCES, 1},
        {RBATL_PLACE_STATES, 3},
        {RBATL_PLACE_PROPOSITIONS, 1},
        {RBATL_PLACE_ROWS, 6},
        {rbatl_place_of_mask(2), 1},
        {rbatl_place_of_count(0, 0), 2},
        {rbatl_place_of_count(0, 1), 2},
        {rbatl_place_of_count(1, 0), 2},
        {rbatl_place_of_count(1, 1), 1},
        {rbatl_place_of_count(2, 0), 1},
        {rbatl_place_of_count(2, 1), 1},
        {rbatl_place_of_cost(0, 0, 1, 0), 2},
        {rbatl_place_of_cost(1, 0, 1, 0), 3},
        {rbatl_place_of_next(0, 1), 1},
        {rbatl_place_of_next(1, 0), 1},
        {rbatl_place_of_next(1, 1), 2},
        {rbatl_place_of_next(2, 0), 2},
    };

    memset(block, 0, RBATL_BLOCK_BYTES);
    for (size_t i = 0; i < sizeof bytes / sizeof bytes[0]; i++)
        block[bytes[i].place] = bytes[i].value;
    for (unsigned row = 0; row < sizeof catch_rows / sizeof catch_rows[0]; row++)
        fill_row(block, row, catch_rows[row]);
}

struct damage fill_damaged(uint8_t *block, size_t i)
{
    const struct damage damages[DAMAGES] = {
        {"Catch", {RBATL_PLACE_AGENTS, 2}, 0},
        {"a fourth state without actions", {RBATL_PLACE_STATES, 4}, -RBATL_E_STATE},
        {"M 25", {RBATL_PLACE_STATES, 25}, -RBATL_E_SIZES},
        {"N 0", {RBATL_PLACE_AGENTS, 0}, -RBATL_E_SIZES},
        {"mask of state 0 with a second proposition", {rbatl_place_of_mask(0), 2}, -RBATL_E_STATE},
        {"count 5", {rbatl_place_of_count(0, 0), 5}, -RBATL_E_STATE},
        {"cost 15", {rbatl_place_of_cost(0, 0, 1, 0), 15}, 0},
        {"cost 16", {rbatl_place_of_cost(0, 0, 1, 0), 16}, -RBATL_E_STATE},
        {"charge 16", {rbatl_place_of_cost(0, 0, 1, 0), 240}, -RBATL_E_STATE},
        {"charge 15", {rbatl_place_of_cost(0, 0, 1, 0), 241}, 0},
        {"charge 15 of kind max", {rbatl_place_of_cost(0, 0, 1, 0), 241}, -RBATL_E_CHARGE},
        {"charge 1 of kind max", {rbatl_place_of_cost(1, 0, 1, 0), 255}, -RBATL_E_CHARGE},
        {"idle with a cost", {rbatl_place_of_cost(1, 0, 0, 0), 1}, -RBATL_E_STATE},
        {"idle with a charge", {rbatl_place_of_cost(1, 0, 0, 0), 255}, -RBATL_E_STATE},
        {"next state 2", {rbatl_place_of_next(0, 0), 2}, 0},
        {"next state 3", {rbatl_place_of_next(0, 0), 3}, -RBATL_E_NEXT},
        {"row 1 on itself", {rbatl_place_of_field(1, RBATL_FIELD_LEFT), 1}, -RBATL_E_ROW},
        {"empty coalition", {rbatl_place_of_field(3, RBATL_FIELD_TEAM), 0}, -RBATL_E_ROW},
        {"bound 15", {rbatl_place_of_field(3, RBATL_FIELD_BOUND), 15}, 0},
        {"bound 16", {rbatl_place_of_field(3, RBATL_FIELD_BOUND), 16}, -RBATL_E_ROW},
        {"bound unlimited", {rbatl_place_of_field(3, RBATL_FIELD_BOUND), RBATL_UNLIMITED}, 0},
        {"byte 28", {rbatl_place_of_mask(RBATL_MAX_STATES - 1), 1}, -RBATL_E_UNUSED},
        {"last byte of the rows", {RBATL_FIRST_RESOURCE_KIND - 1, 1}, -RBATL_E_UNUSED},
        {"kind max", {rbatl_place_of_resource_kind(0), RBATL_MAX}, 0},
        {"kind 2", {rbatl_place_of_resource_kind(0), 2}, -RBATL_E_SIZES},
        {"kind 255", {rbatl_place_of_resource_kind(0), 255}, -RBATL_E_SIZES},
        {"kind of no resource", {rbatl_place_of_resource_kind(1), RBATL_MAX}, -RBATL_E_UNUSED},
    };

    fill_catch(block);
    block[damages[i].change.place] = damages[i].change.value;
    if (damages[i].answer == -RBATL_E_CHARGE)
        block[rbatl_place_of_resource_kind(0)] = RBATL_MAX;
    return damages[i];
}
