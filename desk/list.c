/* The job's sizes, and the listing of its rows. */
#include "desk.h"
#include "words.h"

#include <stdio.h>

enum status check(const struct text *text)
{
    uint8_t block[RBATL_BLOCK_BYTES];

    enum status status = read_job(text, block);
    if (status != DONE) {
        show_stop(text);
        return status;
    }
    print_count("passes: ", rbatl_job_agents(block), "agent");
    print_count(", ", rbatl_job_resources(block), "resource");
    printf(" (");
    print_kinds(block);
    printf(")");
    print_count(", ", rbatl_job_states(block), "state");
    print_count(", ", rbatl_job_propositions(block), "proposition");
    print_count(", ", rbatl_job_rows(block), "row");
    putchar('\n');
    return DONE;
}

enum status list(const struct text *text)
{
    uint8_t listing[RBATL_LISTING_BYTES];
    struct table room;

    int32_t answer = rbatl_list(text->bytes, text->length, listing, sizeof listing, room.ranks,
                                sizeof room.ranks, room.moves, sizeof room.moves);
    if (answer < 0)
        return refuse(answer);
    fwrite(listing, 1, (size_t)answer, stdout);
    return DONE;
}
