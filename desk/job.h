/* What follows from the bytes of a job that the check lets pass. */
#ifndef DESK_JOB_H
#define DESK_JOB_H

#include "rbatl_job.h"

bool in_coalition(unsigned coalition, unsigned agent);

/* The agents outside the coalition of a strategic row, as a mask. */
unsigned opponents_of(const uint8_t *block, unsigned row);

/* Whether the state has the joint action. */
bool has_joint(const uint8_t *block, unsigned state, unsigned joint);

/* The part of a joint action that the agents of the mask take. */
unsigned part_of(unsigned joint, unsigned agents);

/* Whether the number is an available reply to the row's coalition in the state. */
bool is_reply(const uint8_t *block, unsigned row, unsigned state, unsigned number);

/* What a coalition's move costs of a resource, by its kind; below 0 where it charges. */
int move_cost(const uint8_t *block, unsigned state, unsigned move, unsigned resource);

#endif
