/* A rehearsal: the coalition plays its table, a script or a pupil its opponents. */
#ifndef DESK_REHEARSE_H
#define DESK_REHEARSE_H

#include "desk.h"

/* What is rehearsed, the replies given, and the report on the first so many of
 * them. */
struct rehearsal {
    const uint8_t *block;
    uint8_t row, state;
    uint8_t script[RBATL_SCRIPT_BYTES];
    size_t length;
    uint8_t report[RBATL_REPORT_BYTES];
    struct table table;
};

/* Plays the first replies of the script, so many; what the library answers. A
 * refusal leaves the report. */
int32_t play(struct rehearsal *rehearsal, size_t replies);

/* The state that the report ends in. */
unsigned last_state(const struct rehearsal *rehearsal);

/* Prints the position that the report ends in; and it with the coalition's move. */
void print_last(const struct rehearsal *rehearsal);
void print_turn(const struct rehearsal *rehearsal);

/* Asks for the replies at the terminal, from the first position on. */
enum status ask(struct rehearsal *rehearsal);

#endif
