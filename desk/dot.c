/* A drawing of the job for one row, in the language of Graphviz. */
#include "desk.h"
#include "pattern.h"
#include "words.h"

#include <stdio.h>

/* The row that is drawn, the states that satisfy it and, if it is strategic,
 * its table. */
struct drawing {
    const uint8_t *block;
    unsigned row;
    uint32_t set;
    bool strategic;
    struct table table;
};

/* The rank of a state at full stock, and the move there. */
static unsigned rank_in(const struct drawing *drawing, unsigned state)
{
    size_t position = rbatl_full_stock(drawing->block, drawing->row, state);
    return rbatl_rank_at(drawing->table.ranks, position);
}

static unsigned move_in(const struct drawing *drawing, unsigned state)
{
    size_t position = rbatl_full_stock(drawing->block, drawing->row, state);
    return rbatl_move_at(drawing->table.moves, position);
}

/* Whether the coalition has a move to make in the state at full stock: none
 * where it does not win, and none where an until row is met already. */
static bool has_move(const struct drawing *drawing, unsigned state)
{
    if (!drawing->strategic || !rbatl_set_has(drawing->set, state))
        return false;
    return rank_in(drawing, state) != 0;
}

static void draw_head(const struct drawing *drawing)
{
    printf("digraph row_%u {\n", drawing->row);
    printf("  graph [rankdir=LR, nodesep=0.5, ranksep=0.7, fontname=\"Helvetica\", labelloc=t,\n");
    printf("    label=\"row %u: ", drawing->row);
    print_row(drawing->block, drawing->row);
    printf("\\nresources: ");
    print_kinds(drawing->block);
    printf("\\nfilled: true there; edges: the agents' actions");
    if (drawing->strategic)
        printf("; bold: the move at full stock");
    printf("\\n \"];\n");
    printf("  node [shape=box, style=\"rounded,filled\", fillcolor=white, "
           "fontname=\"Helvetica\", fontsize=12, margin=\"0.15,0.08\"];\n");
    printf("  edge [fontname=\"Helvetica\", fontsize=11, arrowsize=0.8];\n");
}

static void draw_move(const struct drawing *drawing, unsigned state)
{
    const uint8_t *block = drawing->block;
    unsigned move = move_in(drawing, state);
    const char *before = ", cost ";

    printf("\\nmove ");
    print_move_pattern(block, rbatl_row_team(block, drawing->row), move);
    for (unsigned resource = 0; resource < rbatl_job_resources(block); resource++) {
        printf("%s%d", before, move_cost(block, state, move, resource));
        before = " and ";
    }
}

static void draw_state(const struct drawing *drawing, unsigned state)
{
    const uint8_t *block = drawing->block;
    const char *before = "\\n";

    printf("  s%u [label=\"state %u", state, state);
    for (unsigned k = 0; k < rbatl_job_propositions(block); k++)
        if (rbatl_state_mask(block, state) >> k & 1) {
            printf("%sp%u", before, k);
            before = " ";
        }
    if (has_move(drawing, state))
        draw_move(drawing, state);
    if (rbatl_row_kind(block, drawing->row) == RBATL_UNTIL && rbatl_set_has(drawing->set, state))
        printf("\\nrank %u", rank_in(drawing, state));
    printf("\"%s];\n", rbatl_set_has(drawing->set, state) ? ", fillcolor=\"#cfe8cf\"" : "");
}

/* Whether the coalition's move can lead along these joint actions. */
static bool follows_move(const struct drawing *drawing, unsigned state, uint64_t joints)
{
    unsigned coalition = rbatl_row_team(drawing->block, drawing->row);
    if (!has_move(drawing, state))
        return false;
    for (unsigned joint = 0; joint < RBATL_JOINT_ACTIONS; joint++)
        if (joints >> joint & 1 && part_of(joint, coalition) == move_in(drawing, state))
            return true;
    return false;
}

static void draw_edges(const struct drawing *drawing, unsigned state)
{
    for (unsigned target = 0; target < rbatl_job_states(drawing->block); target++) {
        uint64_t joints = joints_to(drawing->block, state, target);
        if (joints == 0)
            continue;
        printf("  s%u -> s%u [label=\"", state, target);
        print_patterns(drawing->block, state, joints);
        printf("\"%s];\n", follows_move(drawing, state, joints) ? ", penwidth=2.5" : "");
    }
}

enum status draw(const uint8_t *block, const struct numbers *numbers)
{
    struct drawing drawing = {.block = block, .row = numbers->at[0]};

    enum status status = find_states(block, drawing.row, &drawing.set);
    if (status != DONE)
        return status;
    drawing.strategic = rbatl_row_is_strategic(block, drawing.row);
    if (drawing.strategic)
        status = fill_table(block, drawing.row, &drawing.table);
    if (status != DONE)
        return status;
    draw_head(&drawing);
    for (unsigned state = 0; state < rbatl_job_states(block); state++)
        draw_state(&drawing, state);
    for (unsigned state = 0; state < rbatl_job_states(block); state++)
        draw_edges(&drawing, state);
    printf("}\n");
    return DONE;
}
