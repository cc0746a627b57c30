/* Random numbers that a seed decides (splitmix64). */
#ifndef FUZZ_RANDOM_H
#define FUZZ_RANDOM_H

#include <stdbool.h>
#include <stddef.h>
#include <stdint.h>

struct random {
    uint64_t state;
};

/* The numbers of one case of a run; cases do not depend on each other. */
static inline struct random random_for(uint64_t seed, uint64_t number)
{
    return (struct random){seed ^ number * UINT64_C(0xD6E8FEB86659FD93)};
}

static inline uint64_t draw(struct random *random)
{
    uint64_t z = random->state += UINT64_C(0x9E3779B97F4A7C15);
    z = (z ^ z >> 30) * UINT64_C(0xBF58476D1CE4E5B9);
    z = (z ^ z >> 27) * UINT64_C(0x94D049BB133111EB);
    return z ^ z >> 31;
}

static inline size_t below(struct random *random, size_t limit)
{
    return (size_t)(draw(random) % limit);
}

/* From least to most, both included. */
static inline unsigned within(struct random *random, unsigned least, unsigned most)
{
    return least + (unsigned)below(random, most - least + 1);
}

static inline bool one_in(struct random *random, size_t times)
{
    return below(random, times) == 0;
}

static inline uint8_t draw_byte(struct random *random)
{
    return (uint8_t)draw(random);
}

#endif
