/* Resources of both kinds: their words, their bytes, and what a move costs by
 * them. */
#include "host.h"

#include <string.h>

/* Two agents who act together lead from state 0 to state 1, for 4 and for 3
 * minutes: 7 summed, 4 side by side. Row 1 asks for it within 4 minutes, row 2
 * within 7, row 3 within 3. */
#define BODY \
    "state,0,0\nacts,0,0,2,0,4\nacts,0,1,2,0,3\ngo,0,0,0,0,1\n" \
    "state,1,1\nacts,1,0,1,0\nacts,1,1,1,0\ngo,1,1\n" \
    "prop,0\nnext,3,4,0\nnext,3,7,0\nnext,3,3,0\n"

/* A text, the kind that it says, and the states of its rows. */
struct kind {
    const char *text;
    unsigned kind;
    uint32_t sets[4];
};

static const struct kind kinds[] = {
    {"job2,2,1,2,1,4,sum\n" BODY, RBATL_SUM, {2, 2, 3, 2}},
    {"job2,2,1,2,1,4,max\n" BODY, RBATL_MAX, {2, 3, 3, 2}},
};

static void check_kind(const struct kind *kind)
{
    static uint8_t block[RBATL_BLOCK_BYTES], text[RBATL_TEXT_BYTES];
    static uint8_t sets[RBATL_SETS_BYTES], room[RBATL_ROOM_BYTES];
    const char *name = kind->kind == RBATL_MAX ? "max" : "sum";
    const size_t length = strlen(kind->text);

    int32_t answer = rbatl_read((const uint8_t *)kind->text, length, block, sizeof block);
    count_answer(name, "read", answer, 0);
    count_answer(name, "kind", (int32_t)rbatl_resource_kind(block, 0), (int32_t)kind->kind);
    answer = rbatl_write(block, sizeof block, text, sizeof text);
    count_answer(name, "write", answer, (int32_t)length);
    count(memcmp(text, kind->text, length) == 0, name, "another text");
    answer = rbatl_label(block, sizeof block, sets, sizeof sets, room, sizeof room);
    count_answer(name, "label", answer, 0);
    for (unsigned row = 0; row < 4; row++)
        count_answer(name, "set", (int32_t)rbatl_set_of(sets, row), (int32_t)kind->sets[row]);
}

void check_kinds(void)
{
    for (size_t i = 0; i < sizeof kinds / sizeof kinds[0]; i++)
        check_kind(&kinds[i]);
}
