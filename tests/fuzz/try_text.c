/* The calls on a text, of a passing block and damaged. */
#include "fuzz.h"

#include <string.h>

/* The text is read as the block. */
static void expect_read(struct run *run, const uint8_t *block, const uint8_t *text, size_t length,
                        const char *what)
{
    static struct outcome outcome;

    expect(run, ask_text(run, READ, text, length, &outcome) == 0, "read", what);
    expect(run, memcmp(outcome.bytes[0], block, RBATL_BLOCK_BYTES) == 0, "read", what);
}

/* The block is written as edition 2 of its text, and zeros. */
static void expect_written(struct run *run, const uint8_t *block)
{
    static struct outcome outcome;
    static uint8_t due[TEXT_ROOM];
    size_t length = write_text(block, SECOND, due);
    int32_t answer = ask_block(run, WRITE, block, 0, &outcome);

    expect(run, answer >= 0 && (size_t)answer == length, "write", "another length than is due");
    memset(due + length, 0, RBATL_TEXT_BYTES - length);
    expect(run, memcmp(outcome.bytes[0], due, RBATL_TEXT_BYTES) == 0, "write", "another text");
}

size_t try_text(struct run *run, const uint8_t *block, uint8_t *text)
{
    enum edition edition = SECOND;

    expect_written(run, block);
    if (has_first_edition(block) && one_in(&run->random, 2))
        edition = FIRST;
    size_t length = write_text(block, edition, text);
    expect_read(run, block, text, length, "a written text");
    length = empty_bounds(&run->random, rbatl_job_resources(block), text, length);
    expect_read(run, block, text, length, "a text with empty bounds");
    return length;
}

/* Reading stops at the end of a text that is accepted; what stands before the
 * place where it stops, read alone, stops there too. */
static void try_stop(struct run *run, const uint8_t *text, size_t length, bool accepted)
{
    static struct outcome outcome;
    int32_t stop = ask_text(run, READ_AT, text, length, &outcome);

    if (stop < 0)
        return;
    expect(run, (size_t)stop <= length, "read_at", "a place past the end");
    expect(run, !accepted || (size_t)stop == length, "read_at", "not the end of an accepted text");
    expect(run, ask_text(run, READ_AT, text, (size_t)stop, &outcome) == stop, "read_at",
           "another place without what follows");
}

/* The text is that of the block in its edition, but for empty bounds. */
static void expect_text_of(struct run *run, const uint8_t *block, const uint8_t *text,
                           size_t length)
{
    static uint8_t filled[2 * TEXT_ROOM], due[TEXT_ROOM];
    enum edition edition = memcmp(text, "job2,", 5) == 0 ? SECOND : FIRST;
    size_t end = fill_bounds(text, length, filled);

    expect(run, edition == SECOND || has_first_edition(block), "read",
           "a kind or a charge of edition 1");
    expect(run, write_text(block, edition, due) == end, "read", "another length than is due");
    expect(run, memcmp(due, filled, end) == 0, "read", "the block of another text");
}

void try_damaged_text(struct run *run, uint8_t *text, size_t length)
{
    static struct outcome read, other;

    length = damage_text(&run->random, text, length);
    int32_t refused = ask_text(run, READ, text, length, &read);
    try_stop(run, text, length, refused == 0);
    if (refused < 0) {
        expect(run, ask_text(run, LIST, text, length, &other) == refused, "list",
               "another refusal than of reading");
        return;
    }
    const uint8_t *block = read.bytes[0];
    expect(run, ask_block(run, CHECK, block, 0, &other) == 0, "check", "a read block");
    expect_text_of(run, block, text, length);
    expect_written(run, block);
    try_listing(run, block, text, length);
}
