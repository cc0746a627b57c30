/* Rows, moves and replies in words, on standard output. */
#ifndef DESK_WORDS_H
#define DESK_WORDS_H

#include "job.h"

/* The formula of a row, as in `coalition 0, 1 within 5: row 2 until row 0`. */
void print_row(const uint8_t *block, unsigned row);

/* A strategic row without its bounds, as in `coalition 0, 1: row 2 until row 0`. */
void print_aim(const uint8_t *block, unsigned row);

/* The kinds of the resources, as in `sum, max`. */
void print_kinds(const uint8_t *block);

/* The actions of the agents of the mask in a joint action, as in `agent 0
 * action 1, agent 1 idle`; `nobody` without agents. */
void print_actions(unsigned joint, unsigned agents);

/* A coalition's move in words, as in `move 1: agent 0 action 1, agent 1 idle`. */
void print_move(const uint8_t *block, unsigned row, unsigned move);

/* A reply to the row's coalition in words, as in `reply 4: agent 1 action 1`. */
void print_reply(const uint8_t *block, unsigned row, unsigned reply);

/* A state with a stock for each resource, as in `state 0, stock 5`. */
void print_position(const uint8_t *block, unsigned state, unsigned stock0, unsigned stock1);

/* The same of the position with this number. */
void print_numbered(const uint8_t *block, unsigned row, size_t position);

/* A count of things, as in `2 moves`, after some words. */
void print_count(const char *before, unsigned count, const char *noun);

/* The states of a set, with spaces between them; `none` for the empty one. */
void print_states(uint32_t set);

#endif
