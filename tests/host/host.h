/* What the checks of the host share. */
#ifndef HOST_H
#define HOST_H

#include "rbatl_job.h"

/* A byte that no text, block or buffer of a job has here. */
#define FILL 0xEE

/* A place of a block and its value. */
struct byte {
    size_t place;
    uint8_t value;
};

/* The fields of a row of a job with one resource. */
#define ROW_FIELDS (RBATL_FIELD_BOUND + 1)

/* Catch with one byte changed, and the answer that it must get. With RBATL_E_CHARGE its
 * resource is of kind max besides. */
struct damage {
    const char *name;
    struct byte change;
    int32_t answer;
};

/* The text of Catch, in edition 1 and in edition 2. */
extern const char catch_text[];
extern const char catch_text_2[];

/* A text that is refused, and the answer that it must get. */
struct refused_text {
    const char *text;
    int32_t answer;
};

extern const struct refused_text refused_texts[];
extern const size_t refused_count;

/* How many damages there are. Some leave a job that passes, with answer 0. */
#define DAMAGES 27

/* The block of Catch, a row in a block, and Catch with the i-th damage. */
void fill_catch(uint8_t *block);
void fill_row(uint8_t *block, unsigned row, const uint8_t *fields);
struct damage fill_damaged(uint8_t *block, size_t i);

/* A call on a row and a state: asked there, it must answer as expected; with each
 * wrong length, RBATL_E_LENGTH. */
struct refuser {
    void (*refuse)(const char *name, const uint8_t *block, uint8_t row, uint8_t state,
                   int32_t expected);
    void (*refuse_lengths)(const char *name, const uint8_t *block, uint8_t row, uint8_t state);
};

/* Each refusal up to RBATL_E_POSITION, on Catch and on its damages. */
void check_refusals(struct refuser call);

void count(int good, const char *name, const char *what);
void count_answer(const char *name, const char *call, int32_t answer, int32_t expected);
void count_room(const char *name, const uint8_t *room, int32_t expected);
int all(const uint8_t *bytes, size_t length, uint8_t value);

void check_job(void);
void check_kinds(void);
void check_charges(void);
void check_label(void);
void check_table(void);
void check_states(void);
void check_move(void);
void check_reply(void);
void check_sheet(void);
void check_needs(void);
void check_rehearse(void);
void check_list(void);

#endif
