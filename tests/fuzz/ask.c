/* A call with its lent buffers, and what holds of it whatever the input is. */
#include "fuzz.h"
#include "lend.h"

#include <stdio.h>
#include <string.h>

/* What a call does with a buffer: no such buffer; filled unless it refuses;
 * working room; not written at all. */
enum use { NONE, FILLED, ROOM, KEPT };

/* The buffers of a call beside its inputs. */
struct shape {
    const char *name;
    struct {
        enum use use;
        size_t length;
    } lent[MAX_LENT];
    int32_t largest_answer;
    /* Bit n for refusal n. */
    unsigned refusals;
};

#define BIT(refusal) (1u << (refusal))
#define OF_BLOCK                                                                                   \
    (BIT(RBATL_E_LENGTH) | BIT(RBATL_E_SIZES) | BIT(RBATL_E_STATE) | BIT(RBATL_E_CHARGE) |         \
     BIT(RBATL_E_NEXT) | BIT(RBATL_E_ROW) | BIT(RBATL_E_UNUSED))
#define OF_TEXT ((OF_BLOCK & ~BIT(RBATL_E_UNUSED)) | BIT(RBATL_E_FORM))
#define OF_ROW (OF_BLOCK | BIT(RBATL_E_ROW_CHOICE))
#define OF_MOVE (OF_ROW | BIT(RBATL_E_POSITION) | BIT(RBATL_E_WRONG_SIDE))

static const struct shape shapes[ENTRIES] = {
    [CHECK] = {"check", {{NONE, 0}}, 0, OF_BLOCK},
    [READ] = {"read", {{FILLED, RBATL_BLOCK_BYTES}}, 0, OF_TEXT},
    [READ_AT] = {"read_at", {{NONE, 0}}, RBATL_TEXT_BYTES, BIT(RBATL_E_LENGTH)},
    [LIST] = {"list",
              {{FILLED, RBATL_LISTING_BYTES}, {ROOM, RBATL_RANKS_BYTES}, {ROOM, RBATL_MOVES_BYTES}},
              RBATL_LISTING_BYTES,
              OF_TEXT},
    [WRITE] = {"write", {{FILLED, RBATL_TEXT_BYTES}}, RBATL_TEXT_BYTES, OF_BLOCK},
    [LABEL] = {"label", {{FILLED, RBATL_SETS_BYTES}, {ROOM, RBATL_ROOM_BYTES}}, 0, OF_BLOCK},
    [TABLE] = {"table", {{FILLED, RBATL_RANKS_BYTES}, {FILLED, RBATL_MOVES_BYTES}}, 0, OF_ROW},
    [MOVE] = {"move", {{ROOM, RBATL_ROOM_BYTES}}, RBATL_JOINT_ACTIONS - 1, OF_MOVE},
    [REPLY] = {"reply",
               {{ROOM, RBATL_ROOM_BYTES}},
               RBATL_JOINT_ACTIONS - 1,
               OF_MOVE | BIT(RBATL_E_MOVE)},
    [SHEET] = {"worksheet", {{FILLED, RBATL_WORDS_BYTES}, {ROOM, RBATL_ROOM_BYTES}}, 0, OF_ROW},
    [ALLOWANCES] = {"allowances",
                    {{FILLED, RBATL_ALLOWANCES_BYTES}, {ROOM, RBATL_ROOM_BYTES}},
                    RBATL_MAX_ALLOWANCES,
                    OF_ROW | BIT(RBATL_E_POSITION)},
    [REHEARSE] = {"rehearse",
                  {{FILLED, RBATL_REPORT_BYTES}, {ROOM, RBATL_ROOM_BYTES}},
                  0,
                  OF_MOVE | BIT(RBATL_E_REPLY)},
    [STATES] = {"states",
                {{FILLED, RBATL_STATES_BYTES}, {ROOM, RBATL_ROOM_BYTES}},
                RBATL_MAX_STATES,
                OF_ROW},
    [REFUSAL] = {"states_refusal",
                 {{KEPT, RBATL_STATES_BYTES}, {ROOM, RBATL_ROOM_BYTES}},
                 0,
                 OF_ROW},
};

bool takes_text(enum entry entry)
{
    return entry == READ || entry == READ_AT || entry == LIST;
}

bool takes_list(enum entry entry)
{
    return entry == SHEET || entry == REHEARSE;
}

const char *entry_name(enum entry entry)
{
    return shapes[entry].name;
}

unsigned lent_count(enum entry entry)
{
    unsigned count = 0;
    while (count < MAX_LENT && shapes[entry].lent[count].use != NONE)
        count++;
    return count;
}

/* The words of a worksheet go by its list. */
size_t lent_length(const struct request *request, unsigned which)
{
    if (request->entry == SHEET && which == 0)
        return 2 * (request->list_length / RBATL_POSITION_BYTES);
    return shapes[request->entry].lent[which].length;
}

struct request request_of(enum entry entry, const uint8_t *block, unsigned row)
{
    struct request request = {.entry = entry, .input = block, .input_length = RBATL_BLOCK_BYTES};
    request.row = (uint8_t)row;
    return request;
}

int32_t ask_block(struct run *run, enum entry entry, const uint8_t *block, unsigned row,
                  struct outcome *outcome)
{
    struct request request = request_of(entry, block, row);
    ask(run, &request, outcome);
    return outcome->answer;
}

int32_t ask_text(struct run *run, enum entry entry, const uint8_t *text, size_t length,
                 struct outcome *outcome)
{
    struct request request = {.entry = entry, .input = text, .input_length = length};
    ask(run, &request, outcome);
    return outcome->answer;
}

/* A buffer as a call takes it. */
#define LENT(lent) (lent)->bytes, (lent)->length

static int32_t call(const struct request *r, const struct lent *in, const struct lent *list,
                    const struct lent *lent)
{
    const struct lent *a = &lent[0], *b = &lent[1], *c = &lent[2];

    switch (r->entry) {
    case CHECK:
        return rbatl_check(LENT(in));
    case READ:
        return rbatl_read(LENT(in), LENT(a));
    case READ_AT:
        return rbatl_read_at(LENT(in));
    case LIST:
        return rbatl_list(LENT(in), LENT(a), LENT(b), LENT(c));
    case WRITE:
        return rbatl_write(LENT(in), LENT(a));
    case LABEL:
        return rbatl_label(LENT(in), LENT(a), LENT(b));
    case TABLE:
        return rbatl_table(LENT(in), r->row, LENT(a), LENT(b));
    case MOVE:
        return rbatl_move(LENT(in), r->row, r->state, r->stock0, r->stock1, LENT(a));
    case REPLY:
        return rbatl_reply(LENT(in), r->row, r->state, r->stock0, r->stock1, r->move, LENT(a));
    case SHEET:
        return rbatl_worksheet(LENT(in), r->row, LENT(list), LENT(a), LENT(b));
    case ALLOWANCES:
        return rbatl_allowances(LENT(in), r->row, r->state, LENT(a), LENT(b));
    case REHEARSE:
        return rbatl_rehearse(LENT(in), r->row, r->state, LENT(list), LENT(a), LENT(b));
    case STATES:
        return rbatl_states(LENT(in), r->row, LENT(a), LENT(b));
    case REFUSAL:
        return rbatl_states_refusal(LENT(in), r->row, LENT(a), LENT(b));
    case ENTRIES:
        break;
    }
    return 1;
}

/* Whether some buffer has a length that is refused with 1. */
static bool bad_length(const struct request *r)
{
    bool bad = takes_text(r->entry) ? r->input_length > RBATL_TEXT_BYTES
                                    : r->input_length != RBATL_BLOCK_BYTES;
    if (r->entry == SHEET)
        bad |= r->list_length > RBATL_SHEET_BYTES || r->list_length % RBATL_POSITION_BYTES != 0;
    if (r->entry == REHEARSE)
        bad |= r->list_length > RBATL_SCRIPT_BYTES;
    for (unsigned i = 0; i < lent_count(r->entry); i++)
        bad |= r->skew[i] != 0;
    return bad;
}

static void check_answer(const struct run *run, const struct request *request, int32_t answer)
{
    const struct shape *shape = &shapes[request->entry];
    bool refused = answer < 0;

    expect(run, answer <= shape->largest_answer, shape->name, "an answer out of range");
    expect(run, answer >= -RBATL_E_CHARGE, shape->name, "an unknown refusal");
    expect(run, !refused || shape->refusals & BIT((unsigned)-answer), shape->name,
           "a refusal that the call does not have");
    expect(run, (answer == -RBATL_E_LENGTH) == bad_length(request), shape->name,
           "refusal 1 for right lengths, or none for wrong ones");
}

/* Refused, a buffer is as it was; room holds zeros, except after refusal 1. */
static void check_buffer(const struct run *run, const char *name, int32_t answer,
                         const struct lent *lent, enum use use)
{
    if (answer == -RBATL_E_LENGTH || (answer < 0 && use == FILLED) || use == KEPT)
        expect(run, kept(lent), name, "refused or not to be written, but a buffer has changed");
    else if (use == ROOM)
        expect(run, is_zero(lent->bytes, lent->length), name, "no zeros in the room");
}

static enum place any_place(struct random *random)
{
    return (enum place)below(random, PLACES);
}

void ask(struct run *run, const struct request *request, struct outcome *outcome)
{
    const struct shape *shape = &shapes[request->entry];
    unsigned count = lent_count(request->entry);
    struct lent lent[MAX_LENT] = {{0}};
    struct lent input = lend_input(SLOTS - 1, any_place(&run->random), request->input,
                                   request->input_length);
    struct lent list = lend_input(SLOTS - 2, any_place(&run->random), request->list,
                                  request->list_length);

    for (unsigned i = 0; i < count; i++) {
        size_t length = (size_t)((long)lent_length(request, i) + request->skew[i]);
        lent[i] = lend_noise(i, any_place(&run->random), length, &run->random);
    }
    outcome->answer = call(request, &input, &list, lent);
    run->calls[request->entry]++;
    run->refusals[request->entry] += outcome->answer < 0;
    check_answer(run, request, outcome->answer);
    expect(run, kept(&input) && kept(&list), shape->name, "an input has changed");
    for (unsigned i = 0; i < count; i++) {
        enum use use = shape->lent[i].use;
        check_buffer(run, shape->name, outcome->answer, &lent[i], use);
        if (outcome->answer >= 0 && use == FILLED)
            memcpy(outcome->bytes[i], lent[i].bytes, lent[i].length);
        expect(run, take_back(&lent[i]), shape->name, "written outside a buffer");
    }
    expect(run, take_back(&input) && take_back(&list), shape->name, "written outside an input");
}
