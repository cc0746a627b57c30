/* The listing of a text. */
#include "host.h"

#include <string.h>

static const char catch_listing[] =
    "list,6\n"
    "set,0,1,4\nset,1,2,3\nset,2,3,7\n"
    "set,3,2,6\nplan,3,1,1,1\nplan,3,2,0,0\n"
    "set,4,3,7\nplan,4,0,2,1\nplan,4,1,1,1\nplan,4,2,0,0\n"
    "set,5,2,6\nplan,5,1,1,1\nplan,5,2,0,0\n";

/* The lengths that the three buffers are lent with. */
struct lengths {
    size_t listing, ranks, moves;
};

static const struct lengths right = {RBATL_LISTING_BYTES, RBATL_RANKS_BYTES, RBATL_MOVES_BYTES};

/* The listing must be that of Catch and zeros, or, refused, be as it was; ranks
 * and moves must hold zeros, or, after a wrong length, be as they were. */
static void expect_list(const char *name, const char *text, size_t length, struct lengths lent,
                        int32_t expected)
{
    static uint8_t listing[RBATL_LISTING_BYTES + 1];
    static uint8_t ranks[RBATL_RANKS_BYTES + 1], moves[RBATL_MOVES_BYTES + 1];
    const size_t end = sizeof catch_listing - 1;

    memset(listing, FILL, sizeof listing);
    memset(ranks, FILL, sizeof ranks);
    memset(moves, FILL, sizeof moves);
    int32_t answer = rbatl_list((const uint8_t *)text, length, listing, lent.listing, ranks,
                                lent.ranks, moves, lent.moves);
    count_answer(name, "list", answer, expected);
    if (expected < 0) {
        count(all(listing, sizeof listing, FILL), name, "refused, but the listing has changed");
    } else {
        count(memcmp(listing, catch_listing, end) == 0, name, "another listing");
        count(all(listing + end, RBATL_LISTING_BYTES - end, 0), name, "no zeros after the listing");
        count(listing[RBATL_LISTING_BYTES] == FILL, name, "listing written too far");
    }
    if (expected == -RBATL_E_LENGTH) {
        count(all(ranks, sizeof ranks, FILL), name, "a wrong length, but the ranks have changed");
        count(all(moves, sizeof moves, FILL), name, "a wrong length, but the moves have changed");
    } else {
        count(all(ranks, RBATL_RANKS_BYTES, 0), name, "no zeros in the ranks");
        count(all(moves, RBATL_MOVES_BYTES, 0), name, "no zeros in the moves");
        count(ranks[RBATL_RANKS_BYTES] == FILL && moves[RBATL_MOVES_BYTES] == FILL, name,
              "room written too far");
    }
}

/* Each buffer one byte shorter and one byte longer; a refused text does not
 * come before that. */
static void check_lent(const char *text, size_t length)
{
    for (int more = -1; more <= 1; more += 2) {
        const struct lengths others[] = {
            {right.listing + (size_t)more, right.ranks, right.moves},
            {right.listing, right.ranks + (size_t)more, right.moves},
            {right.listing, right.ranks, right.moves + (size_t)more},
        };
        expect_list("another listing", text, length, others[0], -RBATL_E_LENGTH);
        expect_list("other ranks", text, length, others[1], -RBATL_E_LENGTH);
        expect_list("other moves", text, length, others[2], -RBATL_E_LENGTH);
    }
}

void check_list(void)
{
    static char longest[RBATL_TEXT_BYTES + 1];
    const size_t length = strlen(catch_text);

    expect_list("Catch", catch_text, length, right, sizeof catch_listing - 1);
    expect_list("Catch in edition 2", catch_text_2, strlen(catch_text_2), right,
                sizeof catch_listing - 1);
    check_lent(catch_text, length);
    check_lent("", 0);
    memcpy(longest, catch_text, length);
    expect_list("32,768 bytes", longest, sizeof longest - 1, right, -RBATL_E_FORM);
    expect_list("32,769 bytes", longest, sizeof longest, right, -RBATL_E_LENGTH);
    for (size_t i = 0; i < refused_count; i++) {
        const char *text = refused_texts[i].text;
        expect_list(text, text, strlen(text), right, refused_texts[i].answer);
    }
}
