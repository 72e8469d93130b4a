// Times of the four plans by tree, loads, rules and budget, and on cabinets that tell which of equal plans each shows; and those of a page, of a
// changeover, of `need` and of portions.
#include "measure.h"
#include <stdio.h>
#include <stdlib.h>
#include <string.h>

static void print_trees(void) {
    print_head("Trees: 8 states, 8 stages, 32 + 32 rules, budget 500", "tree", "loads");
    for (int shape = 0; shape < SHAPES; shape++)
        for (int loads = 8; loads <= HULMEIDE_MAX_LOADS; loads *= 2) {
            Cabinet c = largest(shape);
            c.loads = loads;
            print_row(shape_names[shape], loads, tables_of(c));
        }
}

static void print_growth(void) {
    print_head("Growth with loads: random tree, 4 states, 4 stages, 32 + 32 rules, budget 250", "", "loads");
    for (int loads = 8; loads <= HULMEIDE_MAX_LOADS; loads *= 2)
        print_row("loads", loads, tables_of((Cabinet){RANDOM, loads, 4, HULMEIDE_MAX_RULES, 250}));
    print_head("Growth with rules of each sort: random tree of the most loads, 4 states, 4 stages, budget 250", "", "rules");
    for (int rules = 8; rules <= HULMEIDE_MAX_RULES; rules += 8)
        print_row("rules", rules, tables_of((Cabinet){RANDOM, HULMEIDE_MAX_LOADS, 4, rules, 250}));
    print_head("Growth with the budget: random tree of the most loads, 4 states, 4 stages, 32 + 32 rules", "", "watts");
    for (int budget = 125; budget <= HULMEIDE_MAX_BUDGET; budget += 125)
        print_row("budget", budget, tables_of((Cabinet){RANDOM, HULMEIDE_MAX_LOADS, 4, HULMEIDE_MAX_RULES, budget}));
}

static void print_equals(void) {
    print_head("Many equals: the most loads, of 0, 10, 20 or 30 watts and worth 0 or 1, 8 states, 8 stages, 32 + 32 rules", "tree", "watts");
    for (int shape = 0; shape < SHAPES; shape++)
        for (int budget = 125; budget <= HULMEIDE_MAX_BUDGET; budget += 125) {
            Cabinet c = largest(shape);
            c.budget = budget;
            print_row(shape_names[shape], budget, with_equals(tables_of(c)));
        }
}

static void print_kinds(void) {
    print_head("Two kinds of load in turn: the most loads, 8 states, 8 stages, 32 + 32 rules, 2 for each state and kind", "tree", "watts");
    for (int shape = 0; shape < SHAPES; shape++)
        for (int budget = 125; budget <= HULMEIDE_MAX_BUDGET; budget += 125) {
            Cabinet c = largest(shape);
            c.budget = budget;
            print_row(shape_names[shape], budget, with_kinds(tables_of(c)));
        }
}

// ---- pages

enum { LAST, DRAWING, STRETCH, ASKED, TURNS = 1000 };

static Tables planned;
static uint32_t work[HULMEIDE_MAX_CELLS];
static Answer answer;
static uint8_t page[HULMEIDE_PAGE_BYTES], glass[HULMEIDE_PAGE_BYTES];
static uint32_t number;
static struct hulmeide_part stretch;

static void ask(int what) {
    if (what == LAST)
        answer_line(&planned, "last", work, &answer);
    else if (what == DRAWING)
        number = hulmeide_draw(&planned, 1, page, sizeof page);
    else
        stretch = hulmeide_stretch(glass, sizeof glass, page, sizeof page);
}

static double time_asked(int what) {
    double began = seconds();
    for (int turn = 0; turn < TURNS; turn++)
        ask(what);
    return (seconds() - began) / TURNS;
}

static void print_page(Shape shape) {
    double best[ASKED] = {1, 1, 1};
    planned = tables_of(largest(shape));
    answer_line(&planned, "plan", work, &answer);
    for (int round = 0; round < ROUNDS * ASKED; round++) {
        double time = time_asked(round % ASKED);
        if (time < best[round % ASKED])
            best[round % ASKED] = time;
    }
    if (number != HULMEIDE_ACCEPTED || stretch.count != sizeof page) {
        printf("no page was drawn\n");
        exit(1);
    }
    printf("%-11s  %8.3f %8.3f %8.3f  %5.3f\n", shape_names[shape], 1e6 * best[LAST], 1e6 * best[DRAWING], 1e6 * best[STRETCH],
        best[DRAWING] / best[LAST]);
}

static void print_pages(void) {
    printf("\nA page of the largest cabinet: processor time in microseconds, best of %d rounds; the drawing over `last`\n", ROUNDS);
    printf("%-11s  %8s %8s %8s  %5s\n", "tree", "last", "drawing", "stretch", "/last");
    for (Shape shape = 0; shape < SHAPES; shape++)
        print_page(shape);
}

// ---- changeovers

// What is timed: `last`, and the changeovers from all loads off to all on, back, and from all on to the same.
enum { SHOWN, ALL_ON, ALL_OFF, SAME, SWITCHED };

static uint8_t off[HULMEIDE_MAX_LOADS], on[HULMEIDE_MAX_LOADS];
static struct hulmeide_step list[HULMEIDE_MAX_LOADS];

static struct hulmeide_steps change_over(const uint8_t *from, const uint8_t *to) {
    return hulmeide_changeover(&planned, from, planned.loads.count, to, planned.loads.count, list, HULMEIDE_MAX_LOADS);
}

// The number of steps is looked at after the turns.
static double time_switched(int what) {
    struct hulmeide_steps steps = {0, 0};
    double began = seconds();
    for (int turn = 0; turn < TURNS; turn++)
        if (what == SHOWN)
            answer_line(&planned, "last", work, &answer);
        else
            steps = change_over(what == ALL_ON ? off : on, what == ALL_OFF ? off : on);
    double time = (seconds() - began) / TURNS;
    size_t expected = what == ALL_ON || what == ALL_OFF ? planned.loads.count : 0;
    if (steps.number != HULMEIDE_ACCEPTED || steps.count != expected) {
        printf("number %u, and %zu steps in the place of %zu\n", steps.number, steps.count, expected);
        exit(1);
    }
    return time;
}

static void print_changeover(Shape shape) {
    double best[SWITCHED] = {1, 1, 1, 1};
    planned = with_watts(tables_of(largest(shape)));
    answer_line(&planned, "plan", work, &answer);
    for (int round = 0; round < ROUNDS * SWITCHED; round++) {
        double time = time_switched(round % SWITCHED);
        if (time < best[round % SWITCHED])
            best[round % SWITCHED] = time;
    }
    printf("%-11s  %8.3f %8.3f %8.3f %8.3f  %5.3f\n", shape_names[shape], 1e6 * best[SHOWN], 1e6 * best[ALL_ON], 1e6 * best[ALL_OFF],
        1e6 * best[SAME], best[ALL_ON] / best[SHOWN]);
}

static void print_changeovers(void) {
    printf("\nA changeover of the largest cabinet, each load of 1 W: processor time in microseconds, best of %d rounds; from all off to all on, from\n"
           "all on to all off, and from all on to all on, which has no step; the first over `last`\n", ROUNDS);
    printf("%-11s  %8s %8s %8s %8s  %5s\n", "tree", "last", "all on", "all off", "no step", "/last");
    memset(off, '0', sizeof off);
    memset(on, '1', sizeof on);
    for (Shape shape = 0; shape < SHAPES; shape++)
        print_changeover(shape);
}

// ---- needs

// What is timed: the plan, the need of its worth, which looks at every budget below its power, and that of the greatest worth, which is refused.
enum { PLAN, NEED, TOO_POOR, SEARCHES };

typedef struct { char line[HULMEIDE_LINE_BYTES]; uint32_t number; char text[HULMEIDE_LINE_BYTES]; } Search;

// Each line with its number and the begin of its answer. The least budget for the worth of a plan is its power.
static void set_searches(Search searches[SEARCHES]) {
    unsigned worth = 0, power = 0;
    answer_line(&planned, "plan", work, &answer);
    answer.text[answer.reply.count] = '\0';
    sscanf((const char *)answer.text, "plan,%u,%u,", &worth, &power);
    searches[PLAN] = (Search){"plan", HULMEIDE_ACCEPTED, ""};
    searches[NEED] = (Search){"", HULMEIDE_ACCEPTED, ""};
    searches[TOO_POOR] = (Search){"", HULMEIDE_TOO_POOR, ""};
    snprintf(searches[PLAN].text, HULMEIDE_LINE_BYTES, "plan,%u,%u,", worth, power);
    snprintf(searches[NEED].line, HULMEIDE_LINE_BYTES, "need,%u", worth);
    snprintf(searches[NEED].text, HULMEIDE_LINE_BYTES, "need,%u\n", power);
    snprintf(searches[TOO_POOR].line, HULMEIDE_LINE_BYTES, "need,%d", HULMEIDE_MAX_NEED);
    snprintf(searches[TOO_POOR].text, HULMEIDE_LINE_BYTES, "no,%d\n", HULMEIDE_TOO_POOR);
}

// The time of a line over so many turns. Its answer is looked at after them.
static double time_of_line(const Search *search, int turns) {
    double began = seconds();
    for (int turn = 0; turn < turns; turn++)
        answer_line(&planned, search->line, work, &answer);
    double time = (seconds() - began) / turns;
    if (answer.reply.number != search->number || memcmp(answer.text, search->text, strlen(search->text)) != 0) {
        printf("another answer than %s: %s\n", search->text, search->line);
        exit(1);
    }
    return time;
}

static void print_need(Shape shape, Tables t) {
    Search searches[SEARCHES];
    double best[SEARCHES];
    planned = t;
    set_searches(searches);
    for (int i = 0; i < SEARCHES; i++)
        best[i] = time_of_line(&searches[i], 1);
    int turns = 1 + (int)(1e-3 / best[PLAN]);
    for (int round = 0; round < ROUNDS * SEARCHES; round++) {
        double time = time_of_line(&searches[round % SEARCHES], turns);
        if (time < best[round % SEARCHES])
            best[round % SEARCHES] = time;
    }
    printf("%-11s  %8.4f %8.4f %8.4f  %5.3f  %5.3f  %.*s\n", shape_names[shape], 1e3 * best[PLAN], 1e3 * best[NEED], 1e3 * best[TOO_POOR],
        best[NEED] / best[PLAN], best[TOO_POOR] / best[PLAN], (int)strlen(searches[NEED].text) - 1, searches[NEED].text);
}

static void print_needs(void) {
    printf("\n`need` on the largest cabinet, and on that of many equals: processor time in milliseconds, best of %d rounds; of the worth of\n"
           "the plan, and of %d, which is refused, each over `plan`\n", ROUNDS, HULMEIDE_MAX_NEED);
    printf("%-11s  %8s %8s %8s  %5s  %5s  %s\n", "tree", "plan", "need", "refused", "/plan", "/plan", "answer");
    for (Shape shape = 0; shape < SHAPES; shape++)
        print_need(shape, tables_of(largest(shape)));
    for (Shape shape = 0; shape < SHAPES; shape++)
        print_need(shape, with_equals(tables_of(largest(shape))));
}

// ---- portions

// The fewest cells of a portion that is timed, the most calls that a plan by such portions takes, the last of which gives the answer, and how the
// portions grow.
enum { FEWEST_CELLS = 256, CALLS = HULMEIDE_MAX_CELLS / FEWEST_CELLS + 2, GROWTH = 4 };

// The best time of each call.
static double least[CALLS];
static Answer by_portions;

static double lesser(double x, double y) {
    return x < y ? x : y;
}

// A plan by portions, and how many calls it took.
static int plan_by_portions(size_t most) {
    int calls = 1;
    while (fill_portion(&planned, most, work, &by_portions) > 0)
        calls++;
    return calls;
}

static void time_calls(size_t most) {
    size_t filled = 1;
    for (int call = 0; filled > 0; call++) {
        double began = seconds();
        filled = fill_portion(&planned, most, work, &by_portions);
        least[call] = lesser(least[call], seconds() - began);
    }
}

static void compare_portions(void) {
    if (answer.reply.number != by_portions.reply.number || answer.reply.count != by_portions.reply.count
        || memcmp(answer.text, by_portions.text, answer.reply.count) != 0) {
        printf("answers differ: a plan, and one by portions\n");
        exit(1);
    }
}

// Each round times a plan, one by portions, and one by portions call by call.
static void print_portion(Shape shape, int loads, size_t most) {
    double plan = 1, portions = 1, longest = 0;
    int calls = 0;
    for (int call = 0; call < CALLS; call++)
        least[call] = 1;
    for (int round = 0; round < ROUNDS; round++) {
        double began = seconds();
        answer_line(&planned, "plan", work, &answer);
        double between = seconds();
        calls = plan_by_portions(most);
        plan = lesser(plan, between - began);
        portions = lesser(portions, seconds() - between);
        compare_portions();
        time_calls(most);
    }
    for (int call = 0; call < calls - 1; call++)
        longest = least[call] > longest ? least[call] : longest;
    printf("%-11s %5d %6zu  %8.4f %8.4f  %6.3f %6d %9.1f %9.1f\n", shape_names[shape], loads, most, 1e3 * plan, 1e3 * portions, portions / plan, calls,
        1e6 * longest, 1e6 * least[calls - 1]);
    fflush(stdout);
}

static void print_portions(void) {
    printf("\nA plan by portions: 8 states, 8 stages, 32 + 32 rules, budget 500; processor time in milliseconds, best of %d rounds, over `plan`; the\n"
           "calls, and in microseconds the longest of those that fill cells, and the last, which gives the answer\n", ROUNDS);
    printf("%-11s %5s %6s  %8s %8s  %6s %6s %9s %9s\n", "tree", "loads", "cells", "plan", "portions", "/plan", "calls", "longest", "answer");
    for (Shape shape = 0; shape < SHAPES; shape++)
        for (int loads = HULMEIDE_MAX_LOADS / 2; loads <= HULMEIDE_MAX_LOADS; loads *= 2) {
            Cabinet c = largest(shape);
            c.loads = loads;
            planned = tables_of(c);
            for (size_t most = FEWEST_CELLS; most <= HULMEIDE_MAX_PORTION; most *= GROWTH)
                print_portion(shape, loads, most);
        }
}

int main(void) {
    printf("A plan: processor time in milliseconds, best of %d rounds; proved over each other one; the answer that all agree on\n", ROUNDS);
    print_trees();
    print_growth();
    print_equals();
    print_kinds();
    print_pages();
    print_changeovers();
    print_needs();
    print_portions();
    return 0;
}
