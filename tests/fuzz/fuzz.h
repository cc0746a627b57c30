/* A long random run over every call of the library. */
#ifndef FUZZ_H
#define FUZZ_H

#include "../../desk/job.h"
#include "random.h"

/* The longest text, one byte more, and what an edit puts in. */
#define TEXT_ROOM (RBATL_TEXT_BYTES + 64)

/* The editions of a text. */
enum edition { FIRST, SECOND };

/* The calls of the library. */
enum entry {
    CHECK,
    READ,
    READ_AT,
    LIST,
    WRITE,
    LABEL,
    TABLE,
    MOVE,
    REPLY,
    SHEET,
    ALLOWANCES,
    REHEARSE,
    STATES,
    REFUSAL,
    ENTRIES
};

/* How many buffers beside its inputs a call is lent at most. */
#define MAX_LENT 3

/* The longest script, which no list of a worksheet exceeds, and some bytes too many. */
#define LIST_ROOM (RBATL_SCRIPT_BYTES + 64)

/* What a call is asked: the input is a text for READ, READ_AT and LIST, and a
 * block for the rest. SHEET takes the list too, and REHEARSE as its script. */
struct request {
    enum entry entry;
    const uint8_t *input;
    size_t input_length;
    uint8_t row, state, stock0, stock1, move;
    uint8_t list[LIST_ROOM];
    size_t list_length;
    /* The lengths of the other buffers differ by this from the right ones. */
    long skew[MAX_LENT];
};

/* The answer, and the bytes of the buffers that the call fills. */
struct outcome {
    int32_t answer;
    uint8_t bytes[2][RBATL_TEXT_BYTES];
};

/* The run so far. */
struct run {
    uint64_t seed;
    uint64_t number;
    struct random random;
    uint64_t calls[ENTRIES];
    uint64_t refusals[ENTRIES];
};

/* A row with its table and the sets of its operands. */
struct view {
    const uint8_t *block;
    unsigned row;
    const uint8_t *ranks;
    const uint8_t *moves;
    uint32_t left;
    uint32_t right;
};

/* Whether a call starts from a text. */
bool takes_text(enum entry entry);

/* The name of a call, without its prefix. */
const char *entry_name(enum entry entry);

/* How many buffers beside its inputs a call is lent, and their right lengths. */
unsigned lent_count(enum entry entry);
size_t lent_length(const struct request *request, unsigned which);

/* Ends the run with a message unless the fact holds. */
void expect(const struct run *run, bool fact, const char *call, const char *what);

/* Calls the library, and checks what holds of the call whatever the input is. */
void ask(struct run *run, const struct request *request, struct outcome *outcome);

/* A request on a row of a block. */
struct request request_of(enum entry entry, const uint8_t *block, unsigned row);

/* Asks on a block, and on a text; the answer. */
int32_t ask_block(struct run *run, enum entry entry, const uint8_t *block, unsigned row,
                  struct outcome *outcome);
int32_t ask_text(struct run *run, enum entry entry, const uint8_t *text, size_t length,
                 struct outcome *outcome);

/* The text of a passing block in an edition; its length. */
size_t write_text(const uint8_t *block, enum edition edition, uint8_t *bytes);

/* Whether the passing block is the meaning of a text of edition 1. */
bool has_first_edition(const uint8_t *block);

/* A passing block is written as it should be, and its text, in either edition and
 * also with empty bounds, is read back as it. The length of that text, which is
 * handed on. */
size_t try_text(struct run *run, const uint8_t *block, uint8_t *text);

/* A text that is damaged; if it is read all the same, it is the text of its block. */
void try_damaged_text(struct run *run, uint8_t *text, size_t length);

/* Lists the text of a passing block. */
void try_listing(struct run *run, const uint8_t *block, const uint8_t *text, size_t length);

/* Whether a call takes a list. */
bool takes_list(enum entry entry);

/* A list of any bytes that has a right length, and one of a wrong length. */
void random_list(struct random *random, struct request *request);
void misfit_list(struct random *random, struct request *request);

/* A worksheet of a row, by its table and by single calls. */
void try_sheet(struct run *run, const struct view *view);

/* The request at a state that there is not. */
void try_absent_state(struct run *run, struct request request);

/* The smallest allowances of a row in its states, by all pairs of bounds. */
void try_needs(struct run *run, const uint8_t *block, unsigned row);

/* Rehearsals of a row, by its table and the sets of its operands. */
void try_rehearsals(struct run *run, const struct view *view);

/* What an action costs of a resource, and what a coalition's move takes of it by its
 * kind: below 0 where it charges. */
int cost_at(const uint8_t *block, unsigned state, unsigned agent, unsigned action,
            unsigned resource);
int taken_by(const uint8_t *block, unsigned state, unsigned move, unsigned resource);

/* Whether an action of a passing block charges a resource. */
bool has_charges(const uint8_t *block);

/* Makes some costs of resources of kind sum charges. */
void add_charges(struct random *random, uint8_t *block);

/* A cradle that the first agent passes again and again: what its actions in a state
 * cost, and where a joint action leads. */
void cradle_costs(struct random *random, uint8_t *block, unsigned state);
unsigned cradle_target(struct random *random, const uint8_t *block, unsigned state, unsigned joint);

/* Random jobs, and damage to them. */
void random_job(struct random *random, uint8_t *block);
void damage_block(struct random *random, uint8_t *block);
size_t damage_text(struct random *random, uint8_t *text, size_t length);

/* Leaves some bounds 0 of a job's text empty; its length. */
size_t empty_bounds(struct random *random, unsigned resources, uint8_t *text, size_t length);

/* The text with 0 in each empty field; its length. */
size_t fill_bounds(const uint8_t *text, size_t length, uint8_t *filled);

/* What a table must show, from document 01. */
unsigned rank_in(const struct view *view, size_t position);
unsigned due_rank(const struct view *view, size_t position);
unsigned due_move(const struct view *view, size_t position);
bool is_won(const struct view *view, size_t position);
/* Whether the coalition may make the move there. */
bool is_allowed(const struct view *view, size_t position, unsigned move);
/* The position that an allowed move and a reply lead to. */
size_t outcome_of(const struct view *view, size_t position, unsigned move, unsigned reply);
/* Whether the coalition's opponents may make the reply there. */
bool can_reply(const struct view *view, unsigned state, unsigned reply);
/* The reply that is due to an allowed move where the coalition does not win. */
unsigned due_reply(const struct view *view, size_t position, unsigned move);

/* The state and a stock of a position. */
unsigned state_of(const struct view *view, size_t position);
unsigned stock_of(const struct view *view, size_t position, unsigned resource);

/* One case of the run: a job, and damage to it. */
void try_case(struct run *run);

#endif
