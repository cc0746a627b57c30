#define _DEFAULT_SOURCE
#include "lend.h"

#include <stdio.h>
#include <stdlib.h>
#include <string.h>
#include <sys/mman.h>
#include <unistd.h>

#define CANARY 0xC5
#define CANARY_BYTES 64

/* A slot has these bytes between two unreadable pages. */
#define SLOT_BYTES ((size_t)1 << 17)

struct slot {
    uint8_t *bytes;
    /* What was lent, to compare with. */
    uint8_t copy[SLOT_BYTES];
};

static struct slot slots[SLOTS];

static void demand(bool good, const char *what)
{
    if (!good) {
        perror(what);
        exit(2);
    }
}

void open_slots(void)
{
    size_t page = (size_t)sysconf(_SC_PAGESIZE);
    for (size_t i = 0; i < SLOTS; i++) {
        uint8_t *pages = mmap(NULL, SLOT_BYTES + 2 * page, PROT_NONE,
                              MAP_PRIVATE | MAP_ANONYMOUS, -1, 0);
        demand(pages != MAP_FAILED, "mmap");
        slots[i].bytes = pages + page;
        demand(mprotect(slots[i].bytes, SLOT_BYTES, PROT_READ | PROT_WRITE) == 0, "mprotect");
    }
}

/* The bytes of the slot before the buffer, and after it. */
static size_t before(const struct lent *lent)
{
    return (size_t)(lent->bytes - slots[lent->slot].bytes);
}

static size_t after(const struct lent *lent)
{
    return SLOT_BYTES - before(lent) - lent->length;
}

static size_t canaries(size_t room)
{
    return room < CANARY_BYTES ? room : CANARY_BYTES;
}

static struct lent place_in(unsigned slot, enum place place, size_t length)
{
    struct lent lent = {slot, place, NULL, length};
    uint8_t *first = slots[slot].bytes;

    demand(length + 2 * CANARY_BYTES <= SLOT_BYTES, "a buffer for a slot");
    switch (place) {
    case HEAP:
        lent.bytes = malloc(length);
        demand(lent.bytes != NULL || length == 0, "malloc");
        break;
    case AT_END:
        lent.bytes = first + SLOT_BYTES - length;
        break;
    case AT_START:
        lent.bytes = first;
        break;
    case ODD:
    case PLACES:
        lent.bytes = first + CANARY_BYTES + 1;
        break;
    }
    /* A null pointer is not the caller's to lend. */
    if (lent.bytes == NULL)
        lent = place_in(slot, AT_END, length);
    if (lent.place != HEAP) {
        size_t front = canaries(before(&lent)), back = canaries(after(&lent));
        memset(lent.bytes - front, CANARY, front);
        memset(lent.bytes + length, CANARY, back);
    }
    return lent;
}

struct lent lend_input(unsigned slot, enum place place, const uint8_t *bytes, size_t length)
{
    struct lent lent = place_in(slot, place, length);
    memcpy(lent.bytes, bytes, length);
    memcpy(slots[slot].copy, bytes, length);
    if (lent.place != HEAP)
        demand(mprotect(slots[slot].bytes, SLOT_BYTES, PROT_READ) == 0, "mprotect");
    return lent;
}

struct lent lend_noise(unsigned slot, enum place place, size_t length, struct random *random)
{
    struct lent lent = place_in(slot, place, length);
    uint8_t *copy = slots[slot].copy;
    for (size_t i = 0; i < length; i += sizeof(uint64_t)) {
        uint64_t noise = draw(random);
        size_t rest = length - i;
        memcpy(copy + i, &noise, rest < sizeof noise ? rest : sizeof noise);
    }
    memcpy(lent.bytes, copy, length);
    return lent;
}

bool kept(const struct lent *lent)
{
    return memcmp(lent->bytes, slots[lent->slot].copy, lent->length) == 0;
}

bool is_zero(const uint8_t *bytes, size_t length)
{
    return length == 0 || (bytes[0] == 0 && memcmp(bytes, bytes + 1, length - 1) == 0);
}

static bool all_canaries(const uint8_t *bytes, size_t length)
{
    for (size_t i = 0; i < length; i++)
        if (bytes[i] != CANARY)
            return false;
    return true;
}

bool take_back(struct lent *lent)
{
    bool alive = true;
    if (lent->place == HEAP) {
        free(lent->bytes);
    } else {
        size_t front = canaries(before(lent)), back = canaries(after(lent));
        alive = all_canaries(lent->bytes - front, front) &&
                all_canaries(lent->bytes + lent->length, back);
        demand(mprotect(slots[lent->slot].bytes, SLOT_BYTES, PROT_READ | PROT_WRITE) == 0,
               "mprotect");
    }
    lent->bytes = NULL;
    return alive;
}
