/* The refusals of the calls on a row and a state, which come in one order. */
#include "host.h"

/* Rows without a table and absent ones, whatever the state, then absent states. */
static void check_choices(struct refuser call, const uint8_t *block)
{
    static const uint8_t tableless[] = {0, 1, 2, 6, 31, 32, 255};
    static const uint8_t states[] = {3, 24, 255};

    for (size_t i = 0; i < sizeof tableless; i++)
        for (uint8_t state = 0; state <= 3; state++)
            call.refuse("no table", block, tableless[i], state, -RBATL_E_ROW_CHOICE);
    for (size_t i = 0; i < sizeof states; i++)
        call.refuse("an absent state", block, 4, states[i], -RBATL_E_POSITION);
}

void check_refusals(struct refuser call)
{
    static uint8_t bytes[RBATL_BLOCK_BYTES + 1];

    fill_catch(bytes);
    check_choices(call, bytes);
    call.refuse_lengths("Catch", bytes, 4, 0);
    for (size_t i = 0; i < DAMAGES; i++) {
        struct damage damage = fill_damaged(bytes, i);
        if (damage.answer == 0)
            continue;
        call.refuse(damage.name, bytes, 4, 0, damage.answer);
        call.refuse(damage.name, bytes, 255, 255, damage.answer);
        call.refuse_lengths(damage.name, bytes, 255, 255);
    }
}
