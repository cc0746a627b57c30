/* The library's calls, with the buffers that they are lent. */
#include "desk.h"

#include <errno.h>
#include <stdio.h>
#include <string.h>

enum status cannot_read(const char *what)
{
    fprintf(stderr, "desk: cannot read %s: %s\n", what, strerror(errno));
    return FAILED;
}

enum status read_text(const char *file, struct text *text)
{
    errno = 0;
    FILE *stream = file == NULL ? stdin : fopen(file, "rb");
    if (stream == NULL)
        return cannot_read("the job");
    setvbuf(stream, NULL, _IONBF, 0);
    text->length = fread(text->bytes, 1, sizeof text->bytes, stream);
    enum status status = ferror(stream) ? cannot_read("the job") : DONE;
    if (stream != stdin)
        fclose(stream);
    return status;
}

enum status read_job(const struct text *text, uint8_t *block)
{
    int32_t answer = rbatl_read(text->bytes, text->length, block, RBATL_BLOCK_BYTES);
    return answer < 0 ? refuse(answer) : DONE;
}

enum status fill_table(const uint8_t *block, unsigned row, struct table *table)
{
    int32_t answer = rbatl_table(block, RBATL_BLOCK_BYTES, (uint8_t)row, table->ranks,
                                 sizeof table->ranks, table->moves, sizeof table->moves);
    return answer < 0 ? refuse(answer) : DONE;
}

enum status find_states(const uint8_t *block, unsigned row, uint32_t *set)
{
    uint8_t states[RBATL_STATES_BYTES], room[RBATL_ROOM_BYTES];

    int32_t answer = rbatl_states(block, RBATL_BLOCK_BYTES, (uint8_t)row, states, sizeof states,
                                  room, sizeof room);
    if (answer < 0)
        return refuse(answer);
    *set = 0;
    for (int32_t i = 0; i < answer; i++)
        *set |= UINT32_C(1) << states[i];
    return DONE;
}
