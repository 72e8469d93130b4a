// Where the cells of the two plans in C stand, what they hold, and what both look up. Loads are numbered from 0 here, and NONE is no load.
#pragma once
#include "cabinet.h"

enum { NONE = -1 };

// A cell is 0 where no run fits, and otherwise worth * EMPTY + EMPTY - power of the best run: greatest worth, then least power. EMPTY is the
// cell of the empty set, and more than any power that fits a budget.
enum { EMPTY = 512 };

// The cell of load k with this mark, without what is below it.
static inline uint32_t own_cell(const Tables *t, int k, int mark) {
    return mark ? t->loads.items[k].worth * EMPTY + EMPTY - t->loads.items[k].power : EMPTY;
}

// The cell of two parts of the tree together.
static inline uint32_t joined(uint32_t x, uint32_t y) {
    return x && y ? x + y - EMPTY : 0;
}

static inline int width_of(const Tables *t) {
    return t->budget + 1;
}

// The cells of load k and state or stage x, both from 0, stages after states; one for each allowance.
static inline uint32_t *cells_at(const Tables *t, uint32_t *work, int k, int x) {
    size_t rank = (t->loads.count - 1 - (size_t)k) * (size_t)(t->book.states + t->book.stages) + (size_t)x;
    return work + rank * (size_t)width_of(t);
}

static inline uint32_t *branch_cells(const Tables *t, uint32_t *work, int k, int state) {
    return cells_at(t, work, k, state - 1);
}

static inline uint32_t *row_cells(const Tables *t, uint32_t *work, int k, int stage) {
    return cells_at(t, work, k, t->book.states + stage - 1);
}

static inline bool ends_at(const Tables *t, int stage) {
    return t->book.ends >> (stage - 1) & 1;
}

// The first load after load k whose parent has this number, which counts from 1.
static inline int first_after(const Tables *t, int k, int parent) {
    for (int j = k + 1; j < (int)t->loads.count; j++)
        if (t->loads.items[j].parent == parent)
            return j;
    return NONE;
}

static inline int first_child(const Tables *t, int k) {
    return first_after(t, k, k + 1);
}

static inline int next_sibling(const Tables *t, int k) {
    return first_after(t, k, t->loads.items[k].parent);
}

// The cells filled; same_ideas.c.
void same_ideas_fill(const Tables *t, uint32_t *work);

// The run read back from the filled cells; choice.c.
Outcome chosen(const Tables *t, uint32_t *work);
