// "Which plan among equals": the run read back from the filled cells, from the top down. The best is by worth and power both, as the cells are.
// Both plans in C use it.
#include "cells.h"

// What the row from load k onward reaches at this stage with an allowance.
static uint32_t row_value(const Tables *t, uint32_t *work, int k, int stage, int allowance) {
    if (k == NONE)
        return ends_at(t, stage) ? EMPTY : 0;
    return row_cells(t, work, k, stage)[allowance];
}

// Load k takes the lowest load rule that still reaches the best: its row's stage, and what is left for the row.
static int choose_load_rule(const Tables *t, uint32_t *work, int k, int state, int *allowance, Run *run) {
    uint32_t goal = branch_cells(t, work, k, state)[*allowance];
    int child = first_child(t, k);
    for (int j = 0; j < (int)t->book.load_rules.count; j++) {
        Transition r = t->book.load_rules.items[j];
        int power = r.label ? t->loads.items[k].power : 0;
        if (r.from != state || r.kind != t->loads.items[k].kind || power > *allowance)
            continue;
        if (joined(own_cell(t, k, r.label), row_value(t, work, child, r.to, *allowance - power)) == goal) {
            run->states[k] = (uint8_t)state;
            run->load_rules[k] = (uint8_t)(j + 1);
            if (r.label)
                run->set = hulmeide_with_load(run->set, (size_t)k + 1);
            *allowance -= power;
            return r.to;
        }
    }
    return 0;
}

// The smallest share of the allowance for load k's branch that reaches the goal by this row rule, or NONE.
static int smallest_share(const Tables *t, uint32_t *work, int k, int next, Transition r, int allowance, uint32_t goal) {
    const uint32_t *branch = branch_cells(t, work, k, r.label);
    for (int share = 0; share <= allowance; share++)
        if (joined(branch[share], row_value(t, work, next, r.to, allowance - share)) == goal)
            return share;
    return NONE;
}

// Load k takes the lowest row rule that still reaches the best, then the smallest allowance: the rule, and that allowance.
static Transition choose_row_rule(const Tables *t, uint32_t *work, int k, int stage, int allowance, int *share, Run *run) {
    uint32_t goal = row_cells(t, work, k, stage)[allowance];
    int next = next_sibling(t, k);
    for (int j = 0; j < (int)t->book.row_rules.count; j++) {
        Transition r = t->book.row_rules.items[j];
        if (r.from != stage)
            continue;
        *share = smallest_share(t, work, k, next, r, allowance, goal);
        if (*share != NONE) {
            run->row_rules[k] = (uint8_t)(j + 1);
            return r;
        }
    }
    return (Transition){0, 0, 0, 0};
}

static void choose_branch(const Tables *t, uint32_t *work, int k, int state, int allowance, Run *run);

// The row from load k onward, child by child.
static void choose_row(const Tables *t, uint32_t *work, int k, int stage, int allowance, Run *run) {
    while (k != NONE) {
        int share = 0;
        Transition r = choose_row_rule(t, work, k, stage, allowance, &share, run);
        choose_branch(t, work, k, r.label, share, run);
        stage = r.to;
        allowance -= share;
        k = next_sibling(t, k);
    }
}

static void choose_branch(const Tables *t, uint32_t *work, int k, int state, int allowance, Run *run) {
    int stage = choose_load_rule(t, work, k, state, &allowance, run);
    choose_row(t, work, first_child(t, k), stage, allowance, run);
}

Outcome chosen(const Tables *t, uint32_t *work) {
    Outcome out = {0};
    uint32_t goal = 0;
    int root = 0;
    for (int state = 1; state <= t->book.states; state++) {
        uint32_t value = t->book.starts >> (state - 1) & 1 ? branch_cells(t, work, 0, state)[t->budget] : 0;
        if (goal < value) {
            goal = value;
            root = state;
        }
    }
    out.found = goal != 0;
    if (out.found)
        choose_branch(t, work, 0, root, t->budget, &out.run);
    return out;
}
