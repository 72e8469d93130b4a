// A plan in C with the ideas of the proved cells. A stretch is worked out in a strip of its own, written without branches. Child and sibling of
// each load are looked up once. Of the branch and the later row the one with fewer steps leads a join, and the allowances at which it says no
// more than before are passed over, many at a time; where the other one says that there is a set, nothing is tested.
#include "cells.h"
#include <string.h>

// The cells of a strip: as many as the proved one has, so that both clear the same number. The strides in which allowances are passed over.
enum { STRIP_CELLS = 512, FAR = 64, NEAR = 8 };

// The first child and the next sibling of each load.
typedef struct { int child[HULMEIDE_MAX_LOADS], sibling[HULMEIDE_MAX_LOADS]; } Outline;

static Outline outline_of(const Tables *t) {
    Outline outline;
    int latest[HULMEIDE_MAX_LOADS + 1];
    for (int k = 0; k <= HULMEIDE_MAX_LOADS; k++)
        latest[k] = NONE;
    for (int k = (int)t->loads.count - 1; k >= 0; k--) {
        int parent = t->loads.items[k].parent;
        outline.child[k] = latest[k + 1];
        outline.sibling[k] = latest[parent];
        latest[parent] = k;
    }
    return outline;
}

static uint32_t greater(uint32_t x, uint32_t y) {
    return x < y ? y : x;
}

// The strip raised to `cells`, each joined with `own`, moved up by `shift`. What is added to each may be below 0, and then wraps round.
static void lift(uint32_t *restrict strip, const uint32_t *restrict cells, int shift, uint32_t own, int width) {
    uint32_t more = own - EMPTY;
    for (int a = shift; a < width; a++) {
        uint32_t cell = cells[a - shift];
        strip[a] = greater(strip[a], cell ? cell + more : 0);
    }
}

// The same from an allowance on, where every cell says that there is a set.
static void rise(uint32_t *restrict strip, const uint32_t *restrict cells, int shift, uint32_t more, int from, int width) {
    for (int a = from; a < width; a++)
        strip[a] = greater(strip[a], cells[a - shift] + more);
}

// The first allowance from `from` on at which the cells step up from `last`. They never fall, so the last cell of a stride tells of all.
static int next_step(const uint32_t *cells, int from, uint32_t last, int width) {
    static const int strides[] = {FAR, NEAR, 1};
    for (int i = 0; i < 3; i++)
        while (strides[i] <= width - from && cells[from + strides[i] - 1] == last)
            from += strides[i];
    return from;
}

// Do the cells of x step up less often than those of y?
static bool lighter(const uint32_t *x, const uint32_t *y, int width) {
    int a = next_step(x, 0, 0, width), b = next_step(y, 0, 0, width);
    while (a < width && b < width) {
        a = next_step(x, a + 1, x[a], width);
        b = next_step(y, b + 1, y[b], width);
    }
    return a >= width && b < width;
}

// The strip raised to the best splits, by the steps of x.
static void split(uint32_t *strip, const uint32_t *x, const uint32_t *y, int width) {
    int first = next_step(y, 0, 0, width);
    for (int c = next_step(x, 0, 0, width); c < width; c = next_step(x, c + 1, x[c], width))
        if (x[c] < EMPTY)
            lift(strip, y, c, x[c], width);
        else
            rise(strip, y, c, x[c] - EMPTY, c + first, width);
}

static void share(uint32_t *strip, const uint32_t *branch, const uint32_t *later, int width) {
    if (lighter(later, branch, width))
        split(strip, later, branch, width);
    else
        split(strip, branch, later, width);
}

// The strip raised to the branch of load k by one load rule.
static void raise_branch(const Tables *t, uint32_t *work, uint32_t *strip, int k, int child, Transition r) {
    int power = r.label ? t->loads.items[k].power : 0;
    uint32_t own = own_cell(t, k, r.label);
    if (child != NONE)
        lift(strip, row_cells(t, work, child, r.to), power, own, width_of(t));
    else if (ends_at(t, r.to))
        for (int a = power; a < width_of(t); a++)
            strip[a] = greater(strip[a], own);
}

// The strip raised to the row from load k onward by one row rule.
static void raise_row(const Tables *t, uint32_t *work, uint32_t *strip, int k, int next, Transition r) {
    const uint32_t *branch = branch_cells(t, work, k, r.label);
    if (next != NONE)
        share(strip, branch, row_cells(t, work, next, r.to), width_of(t));
    else if (ends_at(t, r.to))
        lift(strip, branch, 0, EMPTY, width_of(t));
}

// The cells of load k and the state or stage `from`, by the child or the sibling that the rules lead to.
static void fill_stretch(const Tables *t, uint32_t *work, int k, int other, bool of_loads, int from) {
    uint32_t strip[STRIP_CELLS] = {0};
    const TransitionList *rules = of_loads ? &t->book.load_rules : &t->book.row_rules;
    for (size_t j = 0; j < rules->count; j++) {
        Transition r = rules->items[j];
        if (r.from != from)
            continue;
        if (!of_loads)
            raise_row(t, work, strip, k, other, r);
        else if (r.kind == t->loads.items[k].kind)
            raise_branch(t, work, strip, k, other, r);
    }
    uint32_t *cells = of_loads ? branch_cells(t, work, k, from) : row_cells(t, work, k, from);
    memcpy(cells, strip, (size_t)width_of(t) * sizeof *cells);
}

void same_ideas_fill(const Tables *t, uint32_t *work) {
    Outline outline = outline_of(t);
    for (int k = (int)t->loads.count - 1; k >= 0; k--) {
        for (int state = 1; state <= t->book.states; state++)
            fill_stretch(t, work, k, outline.child[k], true, state);
        for (int stage = 1; stage <= t->book.stages; stage++)
            fill_stretch(t, work, k, outline.sibling[k], false, stage);
    }
}

Outcome same_ideas_plan(const Tables *t, uint32_t *work) {
    same_ideas_fill(t, work);
    Outcome out = chosen(t, work);
    memset(work, 0, cells_of(t) * sizeof *work);
    return out;
}
