// Random cabinets. Equal cabinets have equal tables.
#include "cabinet.h"
#include <stdlib.h>
#include <string.h>

const char *const shape_names[SHAPES] = {"random", "star", "chain", "caterpillar"};

static bool found(const TransitionList *list, Transition t) {
    for (size_t j = 0; j < list->count; j++)
        if (memcmp(&list->items[j], &t, sizeof t) == 0)
            return true;
    return false;
}

// Rules that are all different, of kind 0. Their first numbers go round, so that each state or stage has as many as another; the mark or state
// and the last number are random. A longer list begins with the shorter one.
void add_rules(TransitionList *list, int rules, int states, bool of_loads, unsigned seed) {
    srand(seed);
    while ((int)list->count < rules) {
        int j = (int)list->count;
        int label = of_loads ? rand() % 2 : 1 + rand() % states;
        Transition t = {(uint8_t)(1 + j % states), (uint8_t)label, (uint8_t)(1 + rand() % states), 0};
        if (!found(list, t))
            list->items[list->count++] = t;
    }
}

// The number of the parent of the load that comes after k others, 0 for the first.
static int parent_of(Shape shape, int k) {
    if (k == 0)
        return 0;
    switch (shape) {
    case RANDOM:
        return 1 + rand() % k;
    case CHAIN:
        return k;
    case CATERPILLAR:
        return k < 3 ? 1 : k - 2 + k % 2;
    default:
        return 1;
    }
}

// The watts of all loads together, each at its greatest.
enum { TOP_WATTS = 3840, TOP_CATERPILLAR_WATTS = 1024 };

// The loads draw some 1,920 watts together, however many they are, so that every budget is short. Those of a caterpillar draw a little more than
// half of theirs, 64 of them 1 to 16 each, so that a branch has many sums to tell apart.
static int power_of(Cabinet c) {
    if (c.shape == CATERPILLAR)
        return 1 + rand() % (TOP_CATERPILLAR_WATTS / c.loads);
    return rand() % (TOP_WATTS / c.loads);
}

Cabinet largest(Shape shape) {
    return (Cabinet){shape, HULMEIDE_MAX_LOADS, HULMEIDE_MAX_STATES, HULMEIDE_MAX_RULES, HULMEIDE_MAX_BUDGET};
}

Tables tables_of(Cabinet c) {
    Tables t;
    memset(&t, 0, sizeof t);
    t.book.states = t.book.stages = (uint8_t)c.states;
    t.book.starts = (uint8_t)((1 << c.states) - 1);
    t.book.ends = t.book.starts & 0x55;
    t.budget = (uint16_t)c.budget;
    add_rules(&t.book.load_rules, c.rules, c.states, true, 5);
    add_rules(&t.book.row_rules, c.rules, c.states, false, 5);
    srand(6);
    for (int k = 0; k < c.loads; k++) {
        uint8_t parent = (uint8_t)parent_of(c.shape, k);
        uint16_t power = (uint16_t)power_of(c);
        t.loads.items[k] = (Load){parent, 0, power, (uint16_t)(rand() % (HULMEIDE_MAX_WORTH + 1))};
    }
    t.loads.count = (size_t)c.loads;
    return t;
}

Tables with_equals(Tables t) {
    for (size_t k = 0; k < t.loads.count; k++) {
        t.loads.items[k].power = (uint16_t)(t.loads.items[k].power % 4 * 10);
        t.loads.items[k].worth %= 2;
    }
    return t;
}

Tables with_kinds(Tables t) {
    for (size_t k = 0; k < t.loads.count; k++)
        t.loads.items[k].kind = (uint8_t)(k % 2);
    for (size_t j = 0; j < t.book.load_rules.count; j++)
        t.book.load_rules.items[j].kind = (uint8_t)(j / t.book.states % 2);
    return t;
}

Tables with_watts(Tables t) {
    for (size_t k = 0; k < t.loads.count; k++)
        t.loads.items[k].power = 1;
    return t;
}

size_t cells_of(const Tables *t) {
    return HULMEIDE_CELLS_NEEDED(t->loads.count, t->book.states, t->book.stages, t->budget);
}
