/* A C host: includes the header, links the library and checks a few answers.
 * Prints each check that fails, then 'N passed, M failed'. */
#include "host.h"

#include <stdio.h>
#include <string.h>

/* The text of Catch before its last line, in each edition, and that line. */
#define FRONT \
    "job,2,1,3,1,6\n" \
    "state,0,0\n" \
    "acts,0,0,2,0,2\nacts,0,1,2,0,0\n" \
    "go,0,0,0,0\ngo,0,1,0,1\ngo,0,0,1,0\ngo,0,1,1,0\n" \
    "state,1,0\n" \
    "acts,1,0,2,0,3\nacts,1,1,1,0\n" \
    "go,1,0,0,1\ngo,1,1,0,2\n" \
    "state,2,1\n" \
    "acts,2,0,1,0\nacts,2,1,1,0\n" \
    "go,2,0,0,2\n" \
    "prop,0\nnot,0\nor,0,1\nuntil,1,5,2,0\nuntil,3,5,2,0\n"
#define FRONT_2 \
    "job2,2,1,3,1,6,sum\n" \
    "state,0,0\n" \
    "acts,0,0,2,0,2\nacts,0,1,2,0,0\n" \
    "go,0,0,1,0,0\n" \
    "state,1,0\n" \
    "acts,1,0,2,0,3\nacts,1,1,1,0\n" \
    "go,1,1,2\n" \
    "state,2,1\n" \
    "acts,2,0,1,0\nacts,2,1,1,0\n" \
    "go,2,2\n" \
    "prop,0\nnot,0\nor,0,1\nuntil,1,5,2,0\nuntil,3,5,2,0\n"
#define LAST "until,3,4,2,0\n"

/* The first lines of a smallest job of edition 2. */
#define SMALL_2 "job2,1,1,1,1,1,sum\nstate,0,0\nacts,0,0,1,0\n"

/* A job up to the costs of idling and of one action more. */
#define COSTS(line, costs) line "\nstate,0,0\nacts,0,0,2," costs "\n"

const char catch_text[] = FRONT LAST;
const char catch_text_2[] = FRONT_2 LAST;

const struct refused_text refused_texts[] = {
    {"", -RBATL_E_FORM},
    {"job,2,1,25,1,6\n", -RBATL_E_SIZES},
    {"job,2,1,3,1,6\nstate,00,0\n", -RBATL_E_FORM},
    {"job,2,1,3,1,6\nstate,0,2\n", -RBATL_E_STATE},
    {"job,1,1,1,1,1\nstate,0,0\nacts,0,0,2,1,3\n", -RBATL_E_STATE},
    {"job,1,1,1,1,1\nstate,0,0\nacts,0,0,1,0\ngo,0,0,1\n", -RBATL_E_NEXT},
    {"job,1,1,1,1,1\nstate,0,0\nacts,0,0,1,0\ngo,0,0,0\nnot,0\n", -RBATL_E_ROW},
    {FRONT, -RBATL_E_FORM},
    {FRONT "until,3,4,2,0", -RBATL_E_FORM},
    {FRONT LAST "\n", -RBATL_E_FORM},
    {FRONT "until,3,4,2,5\n", -RBATL_E_ROW},
    {FRONT "until,3,16,2,0\n", -RBATL_E_ROW},
    {FRONT "until,3,255,2,0\n", -RBATL_E_ROW},
    {FRONT "until,3,256,2,0\n", -RBATL_E_FORM},
    {FRONT "until,,4,2,0\n", -RBATL_E_FORM},
    {FRONT "until,3, ,2,0\n", -RBATL_E_FORM},
    {"job3,2,1,3,1,6,sum\n", -RBATL_E_FORM},
    {"job2,9,1,3,1,6,min\n", -RBATL_E_SIZES},
    {"job2,2,1,3,1,6\n", -RBATL_E_FORM},
    {"job2,2,1,3,1,6,min\n", -RBATL_E_FORM},
    {"job2,2,1,3,1,6,sum,sum\n", -RBATL_E_FORM},
    {"job2,2,2,3,1,6,sum\n", -RBATL_E_FORM},
    {SMALL_2 "go,0,1\n", -RBATL_E_NEXT},
    {SMALL_2 "go,0,0,0\n", -RBATL_E_FORM},
    {SMALL_2 "go,0\n", -RBATL_E_FORM},
    {SMALL_2 "go,0,0\nnot,0\n", -RBATL_E_ROW},
    {COSTS("job2,1,1,1,1,1,sum", "0,-16"), -RBATL_E_STATE},
    {COSTS("job2,1,1,1,1,1,sum", "0,-255"), -RBATL_E_STATE},
    {COSTS("job2,1,1,1,1,1,sum", "0,-256"), -RBATL_E_FORM},
    {COSTS("job2,1,1,1,1,1,sum", "0,-0"), -RBATL_E_FORM},
    {COSTS("job2,1,1,1,1,1,sum", "0,--1"), -RBATL_E_FORM},
    {COSTS("job2,1,1,1,1,1,sum", "-3,0"), -RBATL_E_STATE},
    {COSTS("job2,1,1,1,1,1,max", "0,-3"), -RBATL_E_CHARGE},
    {COSTS("job2,1,1,1,1,1,max", "0,-16"), -RBATL_E_STATE},
    {COSTS("job2,1,1,1,1,1,max", "-3,0"), -RBATL_E_STATE},
    {COSTS("job,1,1,1,1,1", "0,-3"), -RBATL_E_FORM},
    {FRONT_2, -RBATL_E_FORM},
    {FRONT_2 "until,3,4,2,0", -RBATL_E_FORM},
    {FRONT_2 LAST "\n", -RBATL_E_FORM},
};
const size_t refused_count = sizeof refused_texts / sizeof refused_texts[0];

static int passed;
static int failed;

void count(int good, const char *name, const char *what)
{
    if (good) {
        passed++;
    } else {
        failed++;
        printf("FAILED: %s: %s\n", name, what);
    }
}

int all(const uint8_t *bytes, size_t length, uint8_t value)
{
    for (size_t i = 0; i < length; i++)
        if (bytes[i] != value)
            return 0;
    return 1;
}

void count_answer(const char *name, const char *call, int32_t answer, int32_t expected)
{
    char what[96];

    snprintf(what, sizeof what, "%s answers %ld, not %ld", call, (long)answer, (long)expected);
    count(answer == expected, name, what);
}

/* The room, one byte longer than lent, must hold zeros, or, after a wrong length, be as it was. */
void count_room(const char *name, const uint8_t *room, int32_t expected)
{
    if (expected == -RBATL_E_LENGTH)
        count(all(room, RBATL_ROOM_BYTES + 1, FILL), name,
              "a wrong length, but the room has changed");
    else
        count(all(room, RBATL_ROOM_BYTES, 0) && room[RBATL_ROOM_BYTES] == FILL, name,
              "no zeros in the room");
}

/* The answer must be the expected one, and the block must keep its bytes. */
static void expect(const char *name, const uint8_t *block, size_t length, int32_t expected)
{
    static uint8_t before[2 * RBATL_BLOCK_BYTES];

    memcpy(before, block, length);
    count_answer(name, "check", rbatl_check(block, length), expected);
    count(memcmp(before, block, length) == 0, name, "the block has changed");
}

static void check_lengths(void)
{
    static const size_t lengths[] = {
        0, 1, 2469, 2470, 2472, 2 * RBATL_BLOCK_BYTES,
    };
    static uint8_t bytes[2 * RBATL_BLOCK_BYTES];

    fill_catch(bytes);
    for (size_t i = 0; i < sizeof lengths / sizeof lengths[0]; i++)
        expect("another length", bytes, lengths[i], -RBATL_E_LENGTH);
}

static void check_damages(void)
{
    static uint8_t block[RBATL_BLOCK_BYTES];

    for (size_t i = 0; i < DAMAGES; i++) {
        struct damage damage = fill_damaged(block, i);
        expect(damage.name, block, sizeof block, damage.answer);
    }
}

/* The text must be read as the block, or, without one, be refused and leave
 * the lent block as it was; the text must keep its bytes. */
static void expect_read(const char *name, const char *text, size_t length, size_t block_length,
                        int32_t expected, const uint8_t *job)
{
    static uint8_t block[2 * RBATL_BLOCK_BYTES];
    static uint8_t lent[RBATL_TEXT_BYTES + 1];

    memset(block, FILL, sizeof block);
    memcpy(lent, text, length);
    count_answer(name, "read", rbatl_read(lent, length, block, block_length), expected);
    count(memcmp(lent, text, length) == 0, name, "the text has changed");
    if (job != NULL) {
        count(memcmp(block, job, block_length) == 0, name, "another block");
        count(all(block + block_length, sizeof block - block_length, FILL), name, "read too far");
    } else {
        count(all(block, sizeof block, FILL), name, "refused, but the block has changed");
    }
}

static void check_read(void)
{
    static const char empty[] = FRONT "until,3,,2,0\n";
    static const char inf[] = FRONT "until,3,inf,2,0\n";
    static char longest[RBATL_TEXT_BYTES + 1];
    static uint8_t job[RBATL_BLOCK_BYTES];
    const size_t length = sizeof catch_text - 1;

    fill_catch(job);
    expect_read("Catch", catch_text, length, sizeof job, 0, job);
    expect_read("Catch in edition 2", catch_text_2, strlen(catch_text_2), sizeof job, 0, job);
    expect_read("a short block", catch_text, length, sizeof job - 1, -RBATL_E_LENGTH, NULL);
    expect_read("a long block", catch_text, length, sizeof job + 1, -RBATL_E_LENGTH, NULL);
    expect_read("no block", catch_text, length, 0, -RBATL_E_LENGTH, NULL);
    expect_read("the byte after Catch", catch_text, length + 1, sizeof job, -RBATL_E_FORM, NULL);
    job[rbatl_place_of_field(5, RBATL_FIELD_BOUND)] = 0;
    expect_read("an empty bound", empty, sizeof empty - 1, sizeof job, 0, job);
    job[rbatl_place_of_field(5, RBATL_FIELD_BOUND)] = RBATL_UNLIMITED;
    expect_read("inf", inf, sizeof inf - 1, sizeof job, 0, job);
    memcpy(longest, catch_text, sizeof catch_text);
    expect_read("32,768 bytes", longest, sizeof longest - 1, sizeof job, -RBATL_E_FORM, NULL);
    expect_read("32,769 bytes", longest, sizeof longest, sizeof job, -RBATL_E_LENGTH, NULL);
    for (size_t i = 0; i < refused_count; i++) {
        const char *text = refused_texts[i].text;
        expect_read(text, text, strlen(text), sizeof job, refused_texts[i].answer, NULL);
    }
}

/* The block must be written as the text and zeros, or, without one, be refused
 * and leave the lent text as it was; the block must keep its bytes. */
static void expect_write(const char *name, const uint8_t *block, size_t length, size_t text_length,
                         int32_t expected, const char *job)
{
    static uint8_t text[2 * RBATL_TEXT_BYTES];
    static uint8_t before[2 * RBATL_BLOCK_BYTES];

    memset(text, FILL, sizeof text);
    memcpy(before, block, length);
    count_answer(name, "write", rbatl_write(block, length, text, text_length), expected);
    count(memcmp(before, block, length) == 0, name, "the block has changed");
    if (job != NULL) {
        size_t end = strlen(job);
        count(memcmp(text, job, end) == 0, name, "another text");
        count(all(text + end, text_length - end, 0), name, "no zeros after the text");
        count(all(text + text_length, sizeof text - text_length, FILL), name, "written too far");
    } else {
        count(all(text, sizeof text, FILL), name, "refused, but the text has changed");
    }
}

static void check_write(void)
{
    static const char inf[] = FRONT_2 "until,3,inf,2,0\n";
    static const size_t lengths[] = {
        0, sizeof catch_text_2 - 1, RBATL_TEXT_BYTES - 1, RBATL_TEXT_BYTES + 1, 2 * RBATL_TEXT_BYTES,
    };
    static uint8_t bytes[2 * RBATL_BLOCK_BYTES];
    const size_t size = RBATL_BLOCK_BYTES;

    fill_catch(bytes);
    expect_write("Catch", bytes, size, RBATL_TEXT_BYTES, sizeof catch_text_2 - 1, catch_text_2);
    expect_write("a short block", bytes, size - 1, RBATL_TEXT_BYTES, -RBATL_E_LENGTH, NULL);
    expect_write("a long block", bytes, size + 1, RBATL_TEXT_BYTES, -RBATL_E_LENGTH, NULL);
    for (size_t i = 0; i < sizeof lengths / sizeof lengths[0]; i++)
        expect_write("another length", bytes, size, lengths[i], -RBATL_E_LENGTH, NULL);
    bytes[rbatl_place_of_field(5, RBATL_FIELD_BOUND)] = RBATL_UNLIMITED;
    expect_write("inf", bytes, size, RBATL_TEXT_BYTES, sizeof inf - 1, inf);
    for (size_t i = 0; i < DAMAGES; i++) {
        struct damage damage = fill_damaged(bytes, i);
        if (damage.answer != 0)
            expect_write(damage.name, bytes, size, RBATL_TEXT_BYTES, damage.answer, NULL);
    }
}

int main(void)
{
    check_damages();
    check_lengths();
    check_read();
    check_write();
    check_job();
    check_kinds();
    check_charges();
    check_label();
    check_table();
    check_states();
    check_move();
    check_reply();
    check_sheet();
    check_needs();
    check_rehearse();
    check_list();
    printf("%d passed, %d failed\n", passed, failed);
    return failed != 0;
}
