// A plan in plain C, as one writes it from the paper: every cell of every branch and row, in cache order, every split tried.
#include "cells.h"
#include <string.h>

// The branch of load k by one load rule.
static void raise_branch(const Tables *t, uint32_t *work, int k, int child, Transition r) {
    uint32_t *o = branch_cells(t, work, k, r.from), own = own_cell(t, k, r.label);
    int power = r.label ? t->loads.items[k].power : 0;
    if (child == NONE) {
        if (ends_at(t, r.to))
            for (int a = power; a < width_of(t); a++)
                if (o[a] < own)
                    o[a] = own;
        return;
    }
    uint32_t *row = row_cells(t, work, child, r.to);
    for (int a = power; a < width_of(t); a++) {
        uint32_t z = joined(own, row[a - power]);
        if (o[a] < z)
            o[a] = z;
    }
}

// A row that goes on after a branch: every allowance of the branch is tried with every allowance.
static void raise_splits(uint32_t *o, const uint32_t *branch, const uint32_t *later, int width) {
    for (int c = 0; c < width; c++) {
        if (!branch[c])
            continue;
        for (int a = c; a < width; a++) {
            // As `joined` has it: the branch is not 0 here, and the loop is faster without that test.
            uint32_t z = later[a - c] ? later[a - c] + branch[c] - EMPTY : 0;
            if (o[a] < z)
                o[a] = z;
        }
    }
}

// The row from load k onward by one row rule.
static void raise_row(const Tables *t, uint32_t *work, int k, int next, Transition r) {
    uint32_t *o = row_cells(t, work, k, r.from);
    const uint32_t *branch = branch_cells(t, work, k, r.label);
    if (next != NONE) {
        raise_splits(o, branch, row_cells(t, work, next, r.to), width_of(t));
        return;
    }
    if (ends_at(t, r.to))
        for (int a = 0; a < width_of(t); a++)
            if (o[a] < branch[a])
                o[a] = branch[a];
}

static void fill(const Tables *t, uint32_t *work) {
    memset(work, 0, cells_of(t) * sizeof *work);
    for (int k = (int)t->loads.count - 1; k >= 0; k--) {
        int child = first_child(t, k), next = next_sibling(t, k);
        for (size_t j = 0; j < t->book.load_rules.count; j++)
            if (t->book.load_rules.items[j].kind == t->loads.items[k].kind)
                raise_branch(t, work, k, child, t->book.load_rules.items[j]);
        for (size_t j = 0; j < t->book.row_rules.count; j++)
            raise_row(t, work, k, next, t->book.row_rules.items[j]);
    }
}

Outcome plain_c_plan(const Tables *t, uint32_t *work) {
    fill(t, work);
    Outcome out = chosen(t, work);
    memset(work, 0, cells_of(t) * sizeof *work);
    return out;
}
