/* Buffers lent to a call, so placed that a step outside is seen. */
#ifndef FUZZ_LEND_H
#define FUZZ_LEND_H

#include "random.h"

/* Where a buffer stands: with an unreadable page right after it or right before
 * it, at an odd address between canaries, or in a block of the heap of its own
 * size, which the address sanitizer fences. */
enum place { AT_END, AT_START, ODD, HEAP, PLACES };

/* How many buffers a call is lent at most. */
#define SLOTS 5

struct lent {
    unsigned slot;
    enum place place;
    uint8_t *bytes;
    size_t length;
};

/* Takes the pages that the buffers stand in. */
void open_slots(void);

/* Lends a copy of bytes that a call must not write; their page is read-only. */
struct lent lend_input(unsigned slot, enum place place, const uint8_t *bytes, size_t length);

/* Lends random bytes that a call may write. */
struct lent lend_noise(unsigned slot, enum place place, size_t length, struct random *random);

/* Whether the bytes are as they were lent. */
bool kept(const struct lent *lent);

bool is_zero(const uint8_t *bytes, size_t length);

/* Ends the loan: whether the canaries live. */
bool take_back(struct lent *lent);

#endif
