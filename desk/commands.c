/* The commands, and the words of their help. */
#include "command.h"

#include <string.h>

#define NOTHING "Arguments: none.\n"

/* What the commands say that need a strategic row. */
#define STRATEGIC_ROW                                                                              \
    "Arguments:\n"                                                                                 \
    "  ROW    a row of kind next, always or until; it may be left out where the job\n"             \
    "         has exactly one\n"

/* The arguments after the row: a state, and those of a position. */
#define STATE "  STATE  the state\n"
#define POSITION                                                                                   \
    STATE                                                                                          \
    "  STOCK  what is left of each resource, one number for each; 0 if unlimited\n"

const struct command commands[] = {
    {
        .name = "check",
        .run_on_text = check,
        .words = "",
        .summary = "that the job passes; its sizes and kinds of resources",
        .does = "Says that the job passes, with its sizes, and for each resource whether a move\n"
                "takes the sum of its agents' costs or the largest (max). Of a text that is\n"
                "refused it shows the line where reading stopped on standard error, with a mark\n"
                "under the field.\n",
        .takes = NOTHING,
        .prints = "Output: one line, as in\n"
                  "  passes: 2 agents, 1 resource (sum), 3 states, 1 proposition, 6 rows\n",
    },
    {
        .name = "list",
        .run_on_text = list,
        .words = "",
        .summary = "the listing: the states of each row, with rank and move",
        .does = "Lists the states in which each row is true and, for a row of kind next, always\n"
                "or until, rank and move in each of them at full stock.\n",
        .takes = NOTHING,
        .prints =
            "Output: lines of numbers with commas between them, as in\n"
            "  list,6        the number of rows\n"
            "  set,4,3,7     each row: row, count of its states, word with bit s for state s\n"
            "  plan,4,0,2,1  after it, each of these states: row, state, rank, move\n",
    },
    {
        .name = "table",
        .row = true,
        .run = show_table,
        .words = " [ROW]",
        .summary = "the states of a row; rank and move of each position",
        .does = "Shows rank and move of a row at each position, which is a state with a stock of\n"
                "each resource.\n",
        .takes = STRATEGIC_ROW,
        .prints = "Output: the row, its states, and a line for each position, as in\n"
                  "  row 4: coalition 0, 1 within 5: row 2 until row 0\n"
                  "  states: 0 1 2\n"
                  "  state 0, stock 5: rank 2, move 1: agent 0 action 1, agent 1 idle\n",
    },
    {
        .name = "move",
        .row = true,
        .others = 1,
        .stocks = true,
        .run = show_move,
        .words = " [ROW] STATE STOCK..",
        .summary = "the coalition's move at a position",
        .does = "Gives the coalition's move at a position where it wins the row.\n",
        .takes = STRATEGIC_ROW POSITION
        "The count of the numbers tells whether ROW is left out. With one resource two\n"
        "are STATE STOCK, and three have ROW in front; with two resources three are\n"
        "STATE STOCK STOCK, and four have ROW in front.\n",
        .prints = "Output: one line with the move's number and the actions of its agents, as in\n"
                  "  move 1: agent 0 action 1, agent 1 idle\n",
    },
    {
        .name = "reply",
        .row = true,
        .others = 2,
        .stocks = true,
        .run = show_reply,
        .words = " [ROW] STATE STOCK.. MOVE",
        .summary = "its opponents' reply to a move there",
        .does = "Gives the reply of all other agents to a move of the coalition at a position\n"
                "where the coalition does not win the row.\n",
        .takes = STRATEGIC_ROW POSITION
        "  MOVE   the move's number, a0 + 4 * a1 + 16 * a2 by its agents' actions\n"
        "The count of the numbers tells whether ROW is left out. With one resource\n"
        "three are STATE STOCK MOVE, and four have ROW in front; with two resources four\n"
        "are STATE STOCK STOCK MOVE, and five have ROW in front.\n",
        .prints = "Output: one line with the reply's number and the actions of its agents, as in\n"
                  "  reply 4: agent 1 action 1\n",
    },
    {
        .name = "sheet",
        .row = true,
        .others = 1,
        .stocks = true,
        .sheet = true,
        .run = show_sheet,
        .words = " [ROW] STATE:STOCK[:STOCK] ..",
        .summary = "the coalition's move at each position",
        .does = "Gives the coalition's move at each of up to 64 positions, or says why it has\n"
                "none there. The row is solved once for all of them.\n",
        .takes = STRATEGIC_ROW POSITION
        "A position is STATE:STOCK with one resource and STATE:STOCK:STOCK with two; it\n"
        "may stand twice. The first word is ROW if it has no colon.\n",
        .prints = "Output: a line for each position, in the order given, as in\n"
                  "  state 0, stock 5: move 1: agent 0 action 1, agent 1 idle\n"
                  "  state 0, stock 4: no move: the coalition does not win here\n"
                  "and `no position`, with the reason, where the row has no such position.\n",
    },
    {
        .name = "needs",
        .row = true,
        .others = 1,
        .run = show_needs,
        .words = " [ROW] STATE",
        .summary = "the smallest allowances for a state",
        .does = "Says what a row needs in a state: each allowance from 0 to 15 of a resource\n"
                "with which the row is true there, while nothing smaller is enough. The numbers\n"
                "in the row's own line play no part; a resource that is unlimited there stays so.\n",
        .takes = STRATEGIC_ROW STATE,
        .prints = "Output: the row without its bounds, and a line for each allowance, as in\n"
                  "  row 5: coalition 0, 1: row 2 until row 0\n"
                  "  state 0: enough: 5 of resource 0\n"
                  "  state 0: nothing smaller is enough\n"
                  "or that no allowance is enough. Of a row that limits no resource it says only\n"
                  "whether the row is true.\n",
    },
    {
        .name = "rehearse",
        .row = true,
        .others = 1,
        .script = true,
        .run = show_rehearsal,
        .words = " [ROW] STATE [REPLY ..]",
        .summary = "the coalition's play against given replies",
        .does = "Rehearses a row from a state at full stock: the coalition makes the moves of its\n"
                "table, and the replies of all other agents are given. A row of kind next ends\n"
                "after one move, until where the right row is true, always with the last reply.\n"
                "Without a REPLY, a terminal on standard input is asked for each: the replies\n"
                "that are available are shown, and an empty line or Ctrl-D ends the rehearsal.\n"
                "--job FILE leaves the terminal free for that; else the job is typed first, up\n"
                "to its own Ctrl-D. Where standard input is no terminal, there are no replies.\n",
        .takes = STRATEGIC_ROW STATE
        "  REPLY  a reply's number, a0 + 4 * a1 + 16 * a2 by the other agents' actions;\n"
        "         up to 255 of them, and those past the end are not used\n"
        "ROW may be left out only where no REPLY is given: one number is STATE, and two\n"
        "or more have ROW in front.\n",
        .prints = "Output: the row, a line for each turn, the last position, how it ends, as in\n"
                  "  row 3: coalition 0 within 5: row 2 until row 0\n"
                  "  state 1, stock 5: move 1: agent 0 action 1; reply 0: agent 1 idle\n"
                  "  state 2, stock 2\n"
                  "  finished after 1 move: row 0 is true in state 2\n"
                  "It is unfinished where the replies of next or until end too soon.\n",
    },
    {
        .name = "dot",
        .row = true,
        .run = draw,
        .words = " [ROW]",
        .summary = "a drawing of the job for a row",
        .does = "Draws the job in the language of Graphviz: the states, filled where the row is\n"
                "true, and the joint actions that lead from one to another. The title has the row\n"
                "and the kind of each resource. A state has the move at full stock, with what it\n"
                "costs of each resource; a cost below 0 is a charge.\n",
        .takes = "Arguments:\n"
                 "  ROW    a row of any kind; it may be left out where the job has exactly one of\n"
                 "         kind next, always or until, which is then drawn\n",
        .prints = "Output: a graph with a line for each state and each edge, as in\n"
                  "  s0 [label=\"state 0\\nmove (1,0), cost 2\\nrank 2\", fillcolor=\"#cfe8cf\"];\n"
                  "  s0 -> s1 [label=\"(1,0)\", penwidth=2.5];\n",
    },
};

const size_t command_count = sizeof commands / sizeof commands[0];

const struct command *find_command(const char *name)
{
    for (size_t i = 0; i < command_count; i++)
        if (strcmp(commands[i].name, name) == 0)
            return &commands[i];
    return NULL;
}
