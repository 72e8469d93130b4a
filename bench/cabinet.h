// The cabinets that are planned, with tables laid out as the static library has them, beside them the outcome that it stores, and the plans
// that are compared.
#pragma once
#include "hulmeide.h"
#include <stdbool.h>

typedef struct hulmeide_rule Transition;
typedef struct hulmeide_rules TransitionList;
typedef struct hulmeide_load Load;
typedef struct hulmeide_planner Tables;

// A caterpillar is a chain, its spine, whose loads each have a leaf too, after the next load of the spine.
typedef enum { RANDOM, STAR, CHAIN, CATERPILLAR, SHAPES } Shape;

extern const char *const shape_names[SHAPES];

// What a random cabinet is made of. There are as many load rules as row rules, and as many states as stages.
typedef struct { Shape shape; int loads, states, rules, budget; } Cabinet;

// The largest cabinet of a shape.
Cabinet largest(Shape shape);

Tables tables_of(Cabinet c);

// The same cabinet, but its loads draw 0, 10, 20 or 30 watts and are worth 0 or 1: many sets are equal in worth, and many in power too.
Tables with_equals(Tables t);

// The same cabinet, but its loads are of kinds 0 and 1 in turn, and so are the load rules of each state.
Tables with_kinds(Tables t);

// The same cabinet, but each load draws 1 watt, so that the greatest budget carries all of them.
Tables with_watts(Tables t);

void add_rules(TransitionList *list, int rules, int states, bool of_loads, unsigned seed);
size_t cells_of(const Tables *t);

// A state, a load rule and a row rule for each load, and the loads that are on, as the static library stores them. What stands past the last
// load is 0.
typedef struct hulmeide_run Run;
typedef struct { bool found; Run run; } Outcome;

// A plan shows the best allowed set within the budget, and leaves the cells that it worked in at 0.
Outcome plain_c_plan(const Tables *t, uint32_t *work);
Outcome same_ideas_plan(const Tables *t, uint32_t *work);
void plain_rust_plan(const Tables *t, uint32_t *work, size_t cells, Outcome *out);

// What the static library answers to a line, a save too; proved.c.
typedef struct { struct hulmeide_reply reply; uint8_t text[HULMEIDE_SAVE_BYTES]; } Answer;

void answer_line(Tables *t, const char *line, uint32_t *work, Answer *answer);

// The next portion of a plan, of so many cells, and the count that it filled. Where it filled none it has answered as a line is answered.
size_t fill_portion(Tables *t, size_t most, uint32_t *work, Answer *answer);

Outcome shown(const Answer *answer);
