/* One case of the run. */
#include "fuzz.h"

#include <string.h>

/* How many bytes too many a buffer has at most. */
#define MAX_SKEW 4096

/* The set of a row that is not strategic, by the sets of lower rows. */
static uint32_t plain_set(const uint8_t *block, unsigned row, const uint8_t *sets)
{
    uint32_t all = (UINT32_C(1) << rbatl_job_states(block)) - 1, set = 0;
    unsigned operand = rbatl_row_left(block, row);

    switch (rbatl_row_kind(block, row)) {
    case RBATL_NOT:
        return all & ~rbatl_set_of(sets, operand);
    case RBATL_OR:
        return rbatl_set_of(sets, operand) | rbatl_set_of(sets, rbatl_row_right(block, row));
    default:
        for (unsigned state = 0; state < rbatl_job_states(block); state++)
            set |= (uint32_t)(rbatl_state_mask(block, state) >> operand & 1) << state;
        return set;
    }
}

static void try_states(struct run *run, const uint8_t *block, unsigned row, uint32_t set)
{
    static struct outcome outcome;
    int32_t count = ask_block(run, STATES, block, row, &outcome), found = 0;

    for (unsigned state = 0; state < RBATL_MAX_STATES; state++)
        if (rbatl_set_has(set, state))
            expect(run, outcome.bytes[0][found++] == state, "states", "another state than label");
    expect(run, count == found, "states", "another count than label");
    while (found < RBATL_STATES_BYTES)
        expect(run, outcome.bytes[0][found++] == 0, "states", "no zeros after the states");
    expect(run, ask_block(run, REFUSAL, block, row, &outcome) == 0, "states_refusal",
           "a row that has states");
}

static struct request at_position(enum entry entry, const struct view *view, size_t position)
{
    struct request request = request_of(entry, view->block, view->row);
    request.state = (uint8_t)state_of(view, position);
    request.stock0 = (uint8_t)stock_of(view, position, 0);
    request.stock1 = (uint8_t)stock_of(view, position, 1);
    return request;
}

/* A number of a move: any, or of agents of the coalition, so that it is often
 * allowed. */
static uint8_t random_move(struct random *random, const struct view *view)
{
    unsigned any = draw_byte(random);
    if (one_in(random, 4))
        return (uint8_t)any;
    unsigned mask = one_in(random, 2) ? 0x15 : 0x3F;
    return (uint8_t)part_of(any & mask, rbatl_row_team(view->block, view->row));
}

/* Exactly one side is answered, and as the table says. */
static void try_position(struct run *run, const struct view *view, size_t position)
{
    static struct outcome outcome;
    struct request move = at_position(MOVE, view, position);
    struct request reply = at_position(REPLY, view, position);
    bool won = is_won(view, position);

    ask(run, &move, &outcome);
    expect(run, outcome.answer == (won ? (int32_t)view->moves[position] : -RBATL_E_WRONG_SIDE),
           "move", "another move than the table's");
    reply.move = random_move(&run->random, view);
    ask(run, &reply, &outcome);
    int32_t due = -RBATL_E_WRONG_SIDE;
    if (!won)
        due = is_allowed(view, position, reply.move)
                  ? (int32_t)due_reply(view, position, reply.move)
                  : -RBATL_E_MOVE;
    expect(run, outcome.answer == due, "reply", "another reply than is due");
}

/* A state or a stock that there is not. */
static void try_no_position(struct run *run, const struct view *view, size_t position)
{
    static struct outcome outcome;
    struct request request = at_position(one_in(&run->random, 2) ? MOVE : REPLY, view, position);
    uint8_t *changed[] = {&request.state, &request.stock0, &request.stock1};
    const unsigned limits[] = {
        rbatl_job_states(view->block),
        rbatl_stock_places(view->block, view->row, 0),
        rbatl_stock_places(view->block, view->row, 1),
    };
    size_t which = below(&run->random, 3);

    *changed[which] = (uint8_t)within(&run->random, limits[which],
                                      one_in(&run->random, 2) ? limits[which] : UINT8_MAX);
    request.move = draw_byte(&run->random);
    ask(run, &request, &outcome);
    expect(run, outcome.answer == -RBATL_E_POSITION, entry_name(request.entry),
           "a position that there is not");
}

void try_absent_state(struct run *run, struct request request)
{
    static struct outcome outcome;
    unsigned states = rbatl_job_states(request.input);

    request.state = (uint8_t)(one_in(&run->random, 2) ? states
                                                      : within(&run->random, states, UINT8_MAX));
    ask(run, &request, &outcome);
    expect(run, outcome.answer == -RBATL_E_POSITION, entry_name(request.entry),
           "a state that there is not");
}

/* All positions of a small table, and some of a large one. */
static void try_entries(struct run *run, const struct view *view, size_t positions)
{
    size_t step = positions <= 200 ? 1 : within(&run->random, 1, (unsigned)(positions / 50));

    for (size_t position = below(&run->random, step); position < positions; position += step) {
        unsigned rank = rank_in(view, position);
        expect(run, rank == RBATL_NEVER || rank < positions || rank == 1, "table", "a large rank");
        expect(run, rank == due_rank(view, position), "table", "another rank than is due");
        expect(run, view->moves[position] == due_move(view, position), "table",
               "another move than is due");
    }
}

static void try_table(struct run *run, const uint8_t *block, unsigned row, const uint8_t *sets)
{
    static struct outcome outcome;
    size_t positions = rbatl_position_count(block, row);
    uint32_t set = rbatl_set_of(sets, row);
    struct view view = {block, row, outcome.bytes[0], outcome.bytes[1], 0, 0};

    view.left = rbatl_set_of(sets, rbatl_row_left(block, row));
    if (rbatl_row_kind(block, row) == RBATL_UNTIL)
        view.right = rbatl_set_of(sets, rbatl_row_right(block, row));
    expect(run, ask_block(run, TABLE, block, row, &outcome) == 0, "table", "a strategic row");
    for (size_t i = 2 * positions; i < RBATL_RANKS_BYTES; i++)
        expect(run, outcome.bytes[0][i] == 0, "table", "no zeros after the ranks");
    for (size_t i = positions; i < RBATL_MOVES_BYTES; i++)
        expect(run, outcome.bytes[1][i] == 0, "table", "no zeros after the moves");
    for (unsigned state = 0; state < rbatl_job_states(block); state++)
        expect(run, is_won(&view, rbatl_full_stock(block, row, state)) == rbatl_set_has(set, state),
               "label", "another set than the table's");
    try_entries(run, &view, positions);
    for (unsigned i = 0; i < 6; i++)
        try_position(run, &view, below(&run->random, positions));
    try_no_position(run, &view, below(&run->random, positions));
    try_sheet(run, &view);
    try_needs(run, block, row);
    try_rehearsals(run, &view);
}

/* A row without a table, or no row. */
static void try_no_table(struct run *run, const uint8_t *block, unsigned row)
{
    static struct outcome outcome;
    static const enum entry entries[] = {TABLE, MOVE, REPLY, SHEET, ALLOWANCES, REHEARSE};
    struct request request = request_of(entries[below(&run->random, 6)], block, row);

    request.state = draw_byte(&run->random);
    request.stock0 = draw_byte(&run->random);
    request.stock1 = draw_byte(&run->random);
    request.move = draw_byte(&run->random);
    random_list(&run->random, &request);
    ask(run, &request, &outcome);
    expect(run, outcome.answer == -RBATL_E_ROW_CHOICE, entry_name(request.entry),
           "a row without a table");
}

static void try_absent_row(struct run *run, const uint8_t *block)
{
    static struct outcome outcome;
    unsigned rows = rbatl_job_rows(block);
    unsigned row = one_in(&run->random, 2) ? rows : within(&run->random, rows, UINT8_MAX);

    try_no_table(run, block, row);
    expect(run, ask_block(run, STATES, block, row, &outcome) == -RBATL_E_ROW_CHOICE, "states",
           "an absent row");
    expect(run, ask_block(run, REFUSAL, block, row, &outcome) == -RBATL_E_ROW_CHOICE,
           "states_refusal", "an absent row");
}

/* The rows of a passing block; a row is left out now and then, so that large
 * jobs do not take all the time. */
static void try_rows(struct run *run, const uint8_t *block)
{
    static struct outcome labels;
    const uint8_t *sets = labels.bytes[0];

    expect(run, ask_block(run, LABEL, block, 0, &labels) == 0, "label", "a passing block");
    for (unsigned row = 0; row < rbatl_job_rows(block); row++) {
        bool strategic = rbatl_row_is_strategic(block, row);
        expect(run, strategic || rbatl_set_of(sets, row) == plain_set(block, row, sets), "label",
               "another set of a plain row");
        expect(run, rbatl_set_of(sets, row) >> rbatl_job_states(block) == 0, "label",
               "an absent state");
        if (rbatl_job_rows(block) > 9 && !one_in(&run->random, 4))
            continue;
        try_states(run, block, row, rbatl_set_of(sets, row));
        if (strategic)
            try_table(run, block, row, sets);
        else
            try_no_table(run, block, row);
    }
    for (unsigned row = rbatl_job_rows(block); row < RBATL_MAX_ROWS; row++)
        expect(run, rbatl_set_of(sets, row) == 0, "label", "a set past the last row");
    try_absent_row(run, block);
}

/* Every call refuses a block that the check refuses, with the same number,
 * whatever else is asked. */
static void try_refused(struct run *run, const uint8_t *block, int32_t answer)
{
    static struct outcome outcome;
    static const enum entry entries[] = {
        WRITE, LABEL, TABLE, MOVE, REPLY, SHEET, ALLOWANCES, REHEARSE, STATES, REFUSAL,
    };

    for (size_t i = 0; i < sizeof entries / sizeof entries[0]; i++) {
        struct request request = request_of(entries[i], block, draw_byte(&run->random));
        request.row = (uint8_t)(one_in(&run->random, 2) ? request.row : request.row % 8);
        request.state = draw_byte(&run->random);
        request.move = draw_byte(&run->random);
        random_list(&run->random, &request);
        ask(run, &request, &outcome);
        expect(run, outcome.answer == answer, entry_name(entries[i]),
               "another refusal than the check's");
    }
}

/* A difference of a length: one byte, all bytes, or some. */
static long random_skew(struct random *random, size_t length)
{
    switch (length == 0 ? 1 : below(random, 4)) {
    case 0:
        return -1;
    case 1:
        return 1;
    case 2:
        return -(long)length;
    default:
        return one_in(random, 2) ? -(long)within(random, 1, (unsigned)length)
                                 : (long)within(random, 1, MAX_SKEW);
    }
}

/* A request with one wrong length, of a block, a list or another buffer. A text
 * may have any length up to the limit, which damage tries. */
static struct request misfit(struct run *run, enum entry entry, const uint8_t *input,
                             size_t length)
{
    struct request request = request_of(entry, input, draw_byte(&run->random));
    unsigned buffers = lent_count(entry);
    unsigned which = (unsigned)below(&run->random, buffers + !takes_text(entry));

    request.input_length = length;
    random_list(&run->random, &request);
    if (takes_list(entry) && one_in(&run->random, 2))
        misfit_list(&run->random, &request);
    else if (which < buffers)
        request.skew[which] = random_skew(&run->random, lent_length(&request, which));
    else
        request.input_length += (size_t)random_skew(&run->random, length);
    return request;
}

/* Each call with a wrong length, if it has a buffer beside a text; that it is
 * refused with 1 is checked there. */
static void try_lengths(struct run *run, const uint8_t *block, const uint8_t *text, size_t length)
{
    static struct outcome outcome;
    static uint8_t input[2 * RBATL_BLOCK_BYTES + MAX_SKEW];

    memcpy(input, block, RBATL_BLOCK_BYTES);
    for (unsigned i = 0; i < ENTRIES; i++) {
        enum entry entry = (enum entry)i;
        if (takes_text(entry) && lent_count(entry) == 0)
            continue;
        struct request request = takes_text(entry)
                                     ? misfit(run, entry, text, length)
                                     : misfit(run, entry, input, RBATL_BLOCK_BYTES);
        ask(run, &request, &outcome);
    }
}

static void try_damage(struct run *run, const uint8_t *block, const uint8_t *text, size_t length)
{
    static struct outcome outcome;
    static uint8_t damaged_text[2 * TEXT_ROOM];
    uint8_t damaged[RBATL_BLOCK_BYTES];

    memcpy(damaged_text, text, length);
    try_damaged_text(run, damaged_text, length);
    memcpy(damaged, block, sizeof damaged);
    damage_block(&run->random, damaged);
    int32_t answer = ask_block(run, CHECK, damaged, 0, &outcome);
    if (answer < 0)
        try_refused(run, damaged, answer);
    else
        try_rows(run, damaged);
}

void try_case(struct run *run)
{
    static struct outcome outcome;
    static uint8_t text[TEXT_ROOM];
    uint8_t block[RBATL_BLOCK_BYTES];

    random_job(&run->random, block);
    expect(run, ask_block(run, CHECK, block, 0, &outcome) == 0, "check", "a passing block");
    size_t length = try_text(run, block, text);
    try_listing(run, block, text, length);
    try_rows(run, block);
    try_lengths(run, block, text, length);
    for (unsigned i = 0; i < 4; i++)
        try_damage(run, block, text, length);
}
