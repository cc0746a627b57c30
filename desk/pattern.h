/* Sets of joint actions of a state, written as few patterns. */
#ifndef DESK_PATTERN_H
#define DESK_PATTERN_H

#include "job.h"

/* The joint actions of a state that lead to the target, bit j for number j. */
uint64_t joints_to(const uint8_t *block, unsigned state, unsigned target);

/* Prints the joint actions as patterns, as in `(0,*)\n(1,1)`: one action for
 * each agent, `*` for any. `*` alone is every joint action of the state. */
void print_patterns(const uint8_t *block, unsigned state, uint64_t joints);

/* Prints the coalition's move as the pattern of the joint actions that it is a
 * part of. */
void print_move_pattern(const uint8_t *block, unsigned coalition, unsigned move);

#endif
