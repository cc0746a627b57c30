/* rbatl.h: resource-bounded alternating-time temporal logic on small jobs.
 *
 * A job has agents, resources, states, actions with their costs, next states,
 * and formula rows. It comes as a text, which rbatl_list lists and rbatl_read
 * turns into a block of RBATL_BLOCK_BYTES bytes; every other call starts from
 * the block.
 *
 *     #include "rbatl.h"
 *     #include <stdio.h>
 *     int main(void) {
 *         static const char text[] = "job,1,1,2,1,3\nstate,0,0\nacts,0,0,2,0,2\ngo,0,0,0\n"
 *             "go,0,1,1\nstate,1,1\nacts,1,0,1,0\ngo,1,0,1\nprop,0\nnot,0\nuntil,1,2,1,0\n";
 *         static uint8_t block[RBATL_BLOCK_BYTES], sets[RBATL_SETS_BYTES], room[RBATL_ROOM_BYTES];
 *         int32_t n = rbatl_read((const uint8_t *)text, sizeof text - 1, block, sizeof block);
 *         if (n == 0) n = rbatl_label(block, sizeof block, sets, sizeof sets, room, sizeof room);
 *         if (n < 0) return printf("refused, %d\n", (int)-n), 1;
 *         return printf("row 2 is %s in state 0\n", sets[4 * 2] & 1 ? "true" : "false") < 0;
 *     }
 *
 * Each call answers a value from 0, or minus the number of a refusal (enum
 * rbatl_refusal; its words, rbatl_refusal_text in rbatl_job.h). A refused call
 * leaves every buffer as it was, except working room. Of several refusals the
 * first in this order is answered: RBATL_E_LENGTH; then those of the block in the
 * order of rbatl_check, each tried over the whole block; then RBATL_E_ROW_CHOICE,
 * RBATL_E_POSITION, RBATL_E_WRONG_SIDE, RBATL_E_MOVE and RBATL_E_REPLY. A text has
 * an order of its own (rbatl_read).
 *
 * Working room may hold anything before a call and holds zeros after it, refused
 * or not, except that RBATL_E_LENGTH leaves it as it was.
 *
 * Threads: the library has no state, so calls may run at once on different
 * buffers. A buffer that all of them only read may be the same.
 *
 * Stack: any call takes at most RBATL_STACK_BYTES, and none allocates. As
 * bench/run measures it, in bytes: check 207, states_refusal 255, write 415, read_at
 * 3159, read 3207, label 8108, states 8236, table 8380, reply 8460, move 8476,
 * worksheet 8524, rehearse 8540, list 10860, allowances 10956.
 *
 * Cost: rbatl_move and rbatl_reply solve the row anew at each call. For the moves
 * of up to 64 positions ask rbatl_worksheet, which solves it once, as
 * rbatl_rehearse does; for those of all positions fetch the row's table.
 * rbatl_allowances solves the row once; where an action charges, anew with each pair
 * of bounds that it tries, some thirty at most, since then the stock left under one
 * bound says nothing of another.
 * rbatl_job.h reads all of these by name, as it does sets and blocks.
 *
 * Machine: x86-64 with the calling convention of System V, and no other.
 *
 * What the caller owes, since no call can test it:
 * - a pointer is not null, also where its length is 0, and is valid for as
 *   many bytes as the length beside it says; it need not be aligned;
 * - a buffer that a call may write overlaps no other buffer of that call;
 * - nobody else writes a buffer while the call runs;
 * - a row, a state, a stock or a move that is held as an int is at most 255.
 *   C cuts a larger one to its low byte, so that 256 asks for row 0: test it
 *   first.
 */
#ifndef RBATL_H
#define RBATL_H

#include <stddef.h>
#include <stdint.h>

#ifdef __cplusplus
extern "C" {
#endif

/* The version of this header: major * 10000 + minor * 100 + patch, to compare
 * when a host is compiled, as in `#if RBATL_VERSION_NUMBER < 30000`, and the
 * same as a string. Before 3.0.0 a block had 2469 bytes, without kinds of
 * resources, and rbatl_write wrote edition 1; before 3.1.0 there was no
 * rbatl_allowances, before 3.2.0 no rbatl_rehearse, and before 3.3.0 no action could
 * charge. */
#define RBATL_VERSION_NUMBER 30300
#define RBATL_VERSION "3.3.0"

/* Length of a block; the longest text that is read, and the length of the
 * buffer that a text is written to. */
#define RBATL_BLOCK_BYTES 2471
#define RBATL_TEXT_BYTES 32768

/* The most positions of a row: 24 states with 16 stocks of each resource. */
#define RBATL_MAX_POSITIONS 6144

/* Lengths of the sets of all rows, four bytes each; of a row's ranks and moves,
 * two bytes and one for each position; and of working room. */
#define RBATL_SETS_BYTES 128
#define RBATL_RANKS_BYTES 12288
#define RBATL_MOVES_BYTES 6144
#define RBATL_ROOM_BYTES 12288

/* Length of the list of a row's states. */
#define RBATL_STATES_BYTES 24

/* The most positions of a worksheet, the bytes of each in its list, and so the
 * longest list and the most bytes of its words, two for each position. */
#define RBATL_SHEET_POSITIONS 64
#define RBATL_POSITION_BYTES 3
#define RBATL_SHEET_BYTES 192
#define RBATL_WORDS_BYTES 128

/* What a word of a worksheet has more than the number of a refusal. */
#define RBATL_WORD_REFUSED 256

/* The most smallest allowances that a row has in a state, and the length of their
 * list, a byte for each of two resources. */
#define RBATL_MAX_ALLOWANCES 16
#define RBATL_ALLOWANCES_BYTES 32

/* The longest script of a rehearsal, a byte for each reply, and the length of its
 * report. */
#define RBATL_SCRIPT_BYTES 255
#define RBATL_REPORT_BYTES 4

/* Length of the buffer of a listing. */
#define RBATL_LISTING_BYTES 32768

/* The most stack that a call takes. */
#define RBATL_STACK_BYTES 12288

/* The rank where nothing is enforced or forced, and the move where the
 * coalition does not win. */
#define RBATL_NEVER 65535
#define RBATL_NO_MOVE 255

/* Largest sizes of a job (N, R, M, P, F); the smallest of each is 1. */
#define RBATL_MAX_AGENTS 3
#define RBATL_MAX_RESOURCES 2
#define RBATL_MAX_STATES 24
#define RBATL_MAX_PROPOSITIONS 8
#define RBATL_MAX_ROWS 32

/* Largest number of actions of an agent in a state, the largest cost of one and the
 * largest charge, the largest limited bound, and the byte of an unlimited bound. */
#define RBATL_MAX_ACTIONS 4
#define RBATL_MAX_COST 15
#define RBATL_MAX_BOUND 15
#define RBATL_UNLIMITED 255

/* The kinds of a resource: what a coalition's move costs of it is the sum of its
 * agents' costs, as for charge, or the largest of them, as for minutes that run
 * side by side. A cost below 0 is a charge, of RBATL_SUM alone, and what a move costs
 * may then be below 0 too. */
enum rbatl_cost_kind {
    RBATL_SUM = 0,
    RBATL_MAX
};

/* The kinds of a row; those from RBATL_NEXT on have a table. */
enum rbatl_kind {
    RBATL_PROP = 0,
    RBATL_NOT,
    RBATL_OR,
    RBATL_NEXT,
    RBATL_ALWAYS,
    RBATL_UNTIL
};

/* Why a call refuses. A refused call answers minus the number. */
enum rbatl_refusal {
    /* A buffer does not have the length that the call asks for, or a text is too
     * long. */
    RBATL_E_LENGTH = 1,
    /* The number of agents, resources, states, propositions or rows is out of
     * range, or the kind of a resource is unknown (in a text RBATL_E_FORM). */
    RBATL_E_SIZES = 2,
    /* A state has a proposition that does not exist, a count of actions that
     * is not 1 to 4, a cost or charge above 15, or an idle action with a cost or
     * charge. */
    RBATL_E_STATE = 3,
    /* A next state does not exist. */
    RBATL_E_NEXT = 4,
    /* A row has an unknown kind, names a row that is not lower or a
     * proposition that does not exist, has an empty coalition or an agent that
     * does not exist in it, or a bound that is neither 0 to 15 nor unlimited. */
    RBATL_E_ROW = 5,
    /* A place of the block that the job does not use is not 0. */
    RBATL_E_UNUSED = 6,
    /* A text does not have the form of a job. */
    RBATL_E_FORM = 7,
    /* The row asked for does not exist, or is of kind prop, not or or where
     * more than its set of states is wanted. */
    RBATL_E_ROW_CHOICE = 8,
    /* The state asked for does not exist, or a stock is above its bound, or is
     * not 0 where it must be. */
    RBATL_E_POSITION = 9,
    /* The coalition's move, or a rehearsal, is asked for where it does not win, or
     * a reply where it does. */
    RBATL_E_WRONG_SIDE = 10,
    /* The move to reply to is not available or not affordable. */
    RBATL_E_MOVE = 11,
    /* A byte of a script is no available reply when its turn comes. */
    RBATL_E_REPLY = 12,
    /* An action charges a resource of kind max. */
    RBATL_E_CHARGE = 13
};

/* Checks a block: 0 if it holds a job; -RBATL_E_LENGTH for any other length;
 * else minus the first of RBATL_E_SIZES, RBATL_E_STATE, RBATL_E_CHARGE,
 * RBATL_E_NEXT, RBATL_E_ROW and RBATL_E_UNUSED whose condition holds anywhere in
 * the block.
 * Its bytes, which rbatl_job.h reads by name, are
 * - 0 to 4: the numbers of agents, resources, states, propositions and rows;
 * - 5 + s: the propositions true in state s, bit k for proposition k;
 * - 29 + 3s + a: the number of actions of agent a in state s;
 * - 101 + 24s + 8a + 2k + j: what action k of agent a there costs of resource j, 0
 *   to 15, or 256 minus what it charges, which is 1 to 15;
 * - 677 + 64s + a0 + 4 * a1 + 16 * a2: the next state by the agents' actions;
 * - 2213 + 8i on: row i as kind (enum rbatl_kind), left, right, coalition,
 *   bound of each of two resources, 0, 0; left and right are lower rows, or left
 *   the proposition; the coalition has bit a for agent a;
 * - 2469 + j: the kind of resource j (enum rbatl_cost_kind).
 * Every place that the job does not use is 0. Action 0 is idle. */
int32_t rbatl_check(const uint8_t *block, size_t block_len);

/* Reads a text of either edition into a block of RBATL_BLOCK_BYTES: 0, and the
 * block is the job of the text; -RBATL_E_LENGTH for a block of any other length
 * or a text above RBATL_TEXT_BYTES; else minus the first refusal that the fields
 * meet from left to right and line by line, each tried for its form
 * (RBATL_E_FORM), the comma or line end after it included, and then for its value
 * (RBATL_E_SIZES, RBATL_E_STATE before RBATL_E_CHARGE, RBATL_E_NEXT, RBATL_E_ROW).
 * The first word tells the edition:
 * - `job`: all resources are of kind RBATL_SUM, no cost has a minus, and each joint
 *   action of a state has a `go` line with its actions and its next state;
 * - `job2`: after the sizes the first line has a word for each resource, `sum` or
 *   `max`, a charge is a cost with a minus before its number, and a state has one
 *   `go` line, with all its next states.
 * A bound is a number, `inf`, which is unlimited, or empty, which is 0 (unlimited
 * before version 2.0.0). The text needs no byte 0 at its end, and has none. A
 * refused call leaves the block as it was. */
int32_t rbatl_read(const uint8_t *text, size_t text_len, uint8_t *block, size_t block_len);

/* Where reading stops: the offset of the field that a text is refused for, or of
 * the bytes after the last line; the length of a text that rbatl_read accepts.
 * -RBATL_E_LENGTH for a text above RBATL_TEXT_BYTES. */
int32_t rbatl_read_at(const uint8_t *text, size_t text_len);

/* Writes the text of a block, in edition 2, into a buffer of RBATL_TEXT_BYTES: the
 * length of the text, and zeros stand after it; -RBATL_E_LENGTH for a block or a
 * buffer of any other length; else what rbatl_check answers on the block. An unlimited
 * bound is written `inf`, and any other as a number. A refused call leaves the
 * buffer as it was. */
int32_t rbatl_write(const uint8_t *block, size_t block_len, uint8_t *text, size_t text_len);

/* Labels the rows of a block: 0, and word i of the sets has bit s exactly where
 * row i is true in state s; words past the last row are 0. A row of kind next,
 * always or until is true where its coalition has a strategy whose every move the
 * stocks pay along every play, and that makes left true at the second state, left
 * true at every state, or right true at some state with left true at all earlier
 * ones. The stock of a resource starts at its bound. A move costs what the
 * coalition's agents' actions cost, by the kind of the resource, and those of others
 * count nothing; the stock pays it if it is at least that. What is left is the stock
 * less the cost, which is more where the move charges, but never more than the bound;
 * an unlimited resource binds nothing, and its stock is 0. The sets are
 * RBATL_SETS_BYTES: 32 words of four bytes, lowest byte first. The room is
 * RBATL_ROOM_BYTES of working room. -RBATL_E_LENGTH for a block, sets or a room of
 * any other length, and then nothing changes; else what rbatl_check answers on the
 * block, and the sets stay as they were. */
int32_t rbatl_label(const uint8_t *block, size_t block_len, uint8_t *sets, size_t sets_len,
                    uint8_t *room, size_t room_len);

/* Fills the table of a row of kind next, always or until: 0, and ranks and moves
 * hold the rank and the move of each position. A position is a state with a
 * stock of each resource; with c0 and c1 stock places (bound + 1, or 1 where
 * unlimited or absent) its number is (state * c0 + stock 0) * c1 + stock 1.
 * The ranks are RBATL_RANKS_BYTES: words of two bytes, lowest byte first; the
 * moves are RBATL_MOVES_BYTES. Past the last position both are 0. A rank is
 * - until: the fewest moves within which the coalition can enforce the row, 0
 *   where right holds; it is below the number of positions, and with charges it may
 *   be above the number of states;
 * - always: the fewest within which its opponents, knowing its present move
 *   each time, can make left false, 0 where it is false;
 * - next: 1 where the coalition can;
 * and RBATL_NEVER where there is none; in always the coalition wins there. The
 * move (its number: rbatl_move) is RBATL_NO_MOVE where the coalition does not
 * win, and 0 at rank 0 of until. Else it is the smallest that the stock pays
 * whose outcomes, whatever the reply, all have a lower rank (until), all have
 * rank RBATL_NEVER (always), or all satisfy left (next). -RBATL_E_LENGTH for a
 * block, ranks or moves of any other length; else what rbatl_check answers on
 * the block; else -RBATL_E_ROW_CHOICE. A refused call leaves both buffers as
 * they were. */
int32_t rbatl_table(const uint8_t *block, size_t block_len, uint8_t row, uint8_t *ranks,
                    size_t ranks_len, uint8_t *moves, size_t moves_len);

/* The coalition's move of a row at a position, a state with its stocks: the
 * move of the row's table. A move has the number a0 + 4 * a1 + 16 * a2 of its
 * agents' actions, with 0 for agents outside the coalition. A stock is 0 where
 * its resource is unlimited or absent. The room is RBATL_ROOM_BYTES of working
 * room. -RBATL_E_LENGTH for a block or a room of any other length, and then
 * nothing changes; else what rbatl_check answers on the block; else the first
 * of -RBATL_E_ROW_CHOICE, -RBATL_E_POSITION and -RBATL_E_WRONG_SIDE that
 * applies. */
int32_t rbatl_move(const uint8_t *block, size_t block_len, uint8_t row, uint8_t state,
                   uint8_t stock0, uint8_t stock1, uint8_t *room, size_t room_len);

/* The reply of all other agents to the coalition's move at a position where the
 * coalition does not win: against these replies no play whose moves the stock
 * pays makes the row true, whoever chose them. It is the smallest whose outcome
 * the coalition does not win (until), has a lower rank (always), or fails left
 * (next); and 0 where the state alone makes the row false. A reply has 0 for the
 * coalition's agents. Otherwise as rbatl_move, with -RBATL_E_MOVE last of the
 * refusals. */
int32_t rbatl_reply(const uint8_t *block, size_t block_len, uint8_t row, uint8_t state,
                    uint8_t stock0, uint8_t stock1, uint8_t move, uint8_t *room, size_t room_len);

/* The coalition's moves of a row at the positions of a worksheet, with the row
 * solved once for all of them: 0, and each word is what rbatl_move answers at its
 * position, the move, or RBATL_WORD_REFUSED plus the number of the refusal, which
 * is RBATL_E_POSITION or RBATL_E_WRONG_SIDE. These two stand in words alone and
 * refuse no worksheet. The list has RBATL_POSITION_BYTES for each position, its
 * state, stock 0 and stock 1, at most RBATL_SHEET_BYTES, and may be empty; a
 * position may stand twice. The words have two bytes for each position, lowest
 * byte first, in the order of the list. The room is RBATL_ROOM_BYTES of working
 * room. -RBATL_E_LENGTH for a list that is longer or no multiple of
 * RBATL_POSITION_BYTES, for words of any length but two bytes for each of its
 * positions, or for a block or a room of any other length, and then nothing
 * changes; else what rbatl_check answers on the block; else -RBATL_E_ROW_CHOICE,
 * also where the list is empty. A refused call leaves the words as they were. */
int32_t rbatl_worksheet(const uint8_t *block, size_t block_len, uint8_t row, const uint8_t *list,
                        size_t list_len, uint8_t *words, size_t words_len, uint8_t *room,
                        size_t room_len);

/* The smallest allowances with which a row of kind next, always or until is true in
 * a state: their count, and the list of RBATL_ALLOWANCES_BYTES holds them, two bytes
 * each, a bound of resource 0 and one of resource 1, in rising first bound, and zeros
 * after them. An allowance is there exactly if the row is true in the state with it
 * in the place of the row's bounds and with no other that is nowhere larger. Bounds
 * from 0 to RBATL_MAX_BOUND are tried, whatever limited bounds the row has; where it
 * has none, RBATL_UNLIMITED stands, and 0 for an absent resource. The count is at
 * most RBATL_MAX_ALLOWANCES, and 0 where no bounds in range are enough. The room is
 * RBATL_ROOM_BYTES of working room. -RBATL_E_LENGTH for a block, a list or a room of
 * any other length, and then nothing changes; else what rbatl_check answers on the
 * block; else -RBATL_E_ROW_CHOICE; else -RBATL_E_POSITION for a state that does not
 * exist. A refused call leaves the list as it was. */
int32_t rbatl_allowances(const uint8_t *block, size_t block_len, uint8_t row, uint8_t state,
                         uint8_t *list, size_t list_len, uint8_t *room, size_t room_len);

/* Rehearses a row of kind next, always or until: from a state at full stock the
 * coalition makes the moves of its table, and the script gives its opponents' reply
 * to each, one byte a reply: 0, and the report of RBATL_REPORT_BYTES holds 1 for
 * finished or 0 for unfinished, the number of moves made, and the number of the
 * last position (rbatl_table), lowest byte first. A rehearsal of next ends after one
 * move, one of until where right holds, at once if it does in the first state, and
 * one of always when the script is used up: these are finished. It is unfinished
 * exactly if the script runs out first, of next or until. Bytes past the end are
 * not read. The stocks pay every move, and of until there are at most as many as
 * the rank of the first position, which with charges may be above
 * RBATL_SCRIPT_BYTES. Where a rehearsal of next or until is finished, the row is
 * true on every play of these moves that begins so; of always, left was true in
 * every state so far. The script has 0 to RBATL_SCRIPT_BYTES. The room is
 * RBATL_ROOM_BYTES of working room. -RBATL_E_LENGTH for a longer script, or
 * for a block, a report or a room of any other length, and then nothing changes;
 * else what rbatl_check answers on the block; else -RBATL_E_ROW_CHOICE; else
 * -RBATL_E_POSITION for a state that does not exist; else -RBATL_E_WRONG_SIDE where
 * the coalition does not win at full stock, also with an empty script; else
 * -RBATL_E_REPLY. A refused call leaves the report as it was. */
int32_t rbatl_rehearse(const uint8_t *block, size_t block_len, uint8_t row, uint8_t state,
                       const uint8_t *script, size_t script_len, uint8_t *report,
                       size_t report_len, uint8_t *room, size_t room_len);

/* Lists the states in which a row, of any kind, is true: their count, and the
 * list of RBATL_STATES_BYTES holds them in rising order and zeros after them.
 * The room is RBATL_ROOM_BYTES of working room. -RBATL_E_LENGTH for a block, a
 * list or a room of any other length, and then nothing changes; else what
 * rbatl_check answers on the block; else -RBATL_E_ROW_CHOICE for a row that does
 * not exist. A refused call leaves the list as it was. */
int32_t rbatl_states(const uint8_t *block, size_t block_len, uint8_t row, uint8_t *list,
                     size_t list_len, uint8_t *room, size_t room_len);

/* The refusal of rbatl_states on the same arguments, or 0 if it has none. Of
 * the list only the length counts; it is not written. The room is left as
 * rbatl_states leaves it. */
int32_t rbatl_states_refusal(const uint8_t *block, size_t block_len, uint8_t row,
                             const uint8_t *list, size_t list_len, uint8_t *room,
                             size_t room_len);

/* Lists the rows of a job from its text: the length of the listing, and the
 * buffer of RBATL_LISTING_BYTES holds it and zeros after it. Its lines end in
 * byte 10, and numbers are written as in a text:
 * - `list,` and the number of rows;
 * - for each row `set,` with the row, the count of its states, and its word as
 *   rbatl_label gives it;
 * - right after it, if the row is of kind next, always or until, for each state
 *   of the set, rising, `plan,` with the row, the state, and the rank and move
 *   of its table where each stock is its bound, or 0 if unlimited or absent.
 * Ranks and moves, of RBATL_RANKS_BYTES and RBATL_MOVES_BYTES, are working room.
 * -RBATL_E_LENGTH for a text above RBATL_TEXT_BYTES or for a listing, ranks or
 * moves of any other length, and then nothing changes; else what rbatl_read
 * answers on the text, and the listing stays as it was. */
int32_t rbatl_list(const uint8_t *text, size_t text_len, uint8_t *listing, size_t listing_len,
                   uint8_t *ranks, size_t ranks_len, uint8_t *moves, size_t moves_len);

#ifdef __cplusplus
}
#endif

#endif
