// A search for the slowest plan of the proved library: a hill climb over recipes for the largest cabinet.
//
//   worst SECONDS [SEED [NUMBER..]]
//
// The climb takes so many seconds of processor time, and goes by the seed alone, but for the times that it compares. It begins with the
// recipe that the numbers are, or with one by chance. Last it prints the lines that enter the slowest cabinet, to be timed on a switch.
#include "cells.h"
#include "measure.h"
#include <stdio.h>
#include <stdlib.h>
#include <string.h>

// What a recipe's numbers are, and their ranges. Equal recipes have equal tables.
enum { TREE, SIZE, PLACE, POWERS, TOP_POWER, WORTHS, TOP_WORTH, BOOK, END_STAGES, CHANCE, NUMBERS };
enum { LATE, EARLY, ROWS, BALANCED, BUSHES, BROOM, TREES };
enum { ANY, EQUAL, ORDERLY, MANNERS };

typedef struct { int numbers[NUMBERS]; } Recipe;

static const struct { const char *name; int least, most; } ranges[NUMBERS] = {
    [TREE] = {"tree", 0, TREES - 1},
    [SIZE] = {"size", 1, HULMEIDE_MAX_LOADS - 1},
    [PLACE] = {"place", 0, HULMEIDE_MAX_LOADS - 1},
    [POWERS] = {"powers: 0 by chance up to the top, 1 all at the top, 2 powers of two up to the top, in turn", 0, MANNERS - 1},
    [TOP_POWER] = {"top power", 1, HULMEIDE_MAX_POWER},
    [WORTHS] = {"worths: 0 by chance up to the top, 1 all at the top, 2 in proportion to the power", 0, MANNERS - 1},
    [TOP_WORTH] = {"top worth, of the greatest power where in proportion", 1, HULMEIDE_MAX_WORTH},
    [BOOK] = {"book: 0 by chance, 1 even", 0, 1},
    [END_STAGES] = {"end stages", 1, HULMEIDE_MAX_STAGES},
    [CHANCE] = {"seed of what is by chance", 1, 9999},
};

static const char *const tree_names[TREES] = {
    [LATE] = "each load below one of the `size` before it",
    [EARLY] = "each load below one of the first `size`",
    [ROWS] = "rows of `size` loads, each row below the load at `place` in the row before",
    [BALANCED] = "`size` children for each load, level by level",
    [BUSHES] = "a chain of `size` loads, the others below them in turn",
    [BROOM] = "a chain of `size` loads, the others below its last",
};

// ---- the cabinet of a recipe

static int lesser(int x, int y) {
    return x < y ? x : y;
}

// The number of the parent of the load that comes after k others.
static int parent_in(const Recipe *r, int k) {
    int size = r->numbers[SIZE], row = (k - 1) / size;
    switch (r->numbers[TREE]) {
    case LATE:
        return k - rand() % lesser(k, size);
    case EARLY:
        return 1 + rand() % lesser(k, size);
    case ROWS:
        return row == 0 ? 1 : 2 + (row - 1) * size + r->numbers[PLACE] % size;
    case BALANCED:
        return 1 + row;
    case BUSHES:
        return k < size ? k : 1 + (k - size) % size;
    default:
        return lesser(k, size);
    }
}

static int power_in(const Recipe *r, int k) {
    int top = r->numbers[TOP_POWER], digits = 0;
    while (1 << digits <= top)
        digits++;
    return r->numbers[POWERS] == ANY ? rand() % (top + 1) : r->numbers[POWERS] == EQUAL ? top : 1 << k % digits;
}

static int worth_in(const Recipe *r, int power) {
    int top = r->numbers[TOP_WORTH];
    return r->numbers[WORTHS] == ANY ? rand() % (top + 1) : r->numbers[WORTHS] == EQUAL ? top : power * top / HULMEIDE_MAX_POWER;
}

// An even book: each state has two load rules with each mark, and each stage row rules for four states, after which the row stays there.
static void add_even_rules(struct hulmeide_book *book) {
    for (int j = 0; j < HULMEIDE_MAX_RULES; j++) {
        int x = j % HULMEIDE_MAX_STATES, turn = j / HULMEIDE_MAX_STATES;
        uint8_t from = (uint8_t)(1 + x), mark = (uint8_t)(turn % 2);
        book->load_rules.items[j] = (Transition){from, mark, (uint8_t)(1 + (x + turn / 2) % HULMEIDE_MAX_STAGES), 0};
        book->row_rules.items[j] = (Transition){from, (uint8_t)(1 + (x + turn) % HULMEIDE_MAX_STATES), from, 0};
    }
    book->load_rules.count = book->row_rules.count = HULMEIDE_MAX_RULES;
}

static Tables tables_by(const Recipe *r) {
    Cabinet c = largest(RANDOM);
    c.rules = 0;
    Tables t = tables_of(c);
    unsigned chance = (unsigned)r->numbers[CHANCE];
    t.book.ends = (uint8_t)((1 << r->numbers[END_STAGES]) - 1);
    if (r->numbers[BOOK] == 0) {
        add_rules(&t.book.load_rules, HULMEIDE_MAX_RULES, c.states, true, chance);
        add_rules(&t.book.row_rules, HULMEIDE_MAX_RULES, c.states, false, chance);
    } else
        add_even_rules(&t.book);
    srand(chance);
    for (int k = 0; k < c.loads; k++) {
        int parent = k == 0 ? 0 : parent_in(r, k);
        int power = power_in(r, k);
        t.loads.items[k] = (Load){(uint8_t)parent, 0, (uint16_t)power, (uint16_t)worth_in(r, power)};
    }
    return t;
}

// ---- the climb

// The climb's own chances; the tables are made with those of rand.
static unsigned chances;

static int up_to(int least, int most) {
    return least + (int)((unsigned)rand_r(&chances) % (unsigned)(most - least + 1));
}

static int any_number(int i) {
    return up_to(ranges[i].least, ranges[i].most);
}

static Recipe any_recipe(void) {
    Recipe r;
    for (int i = 0; i < NUMBERS; i++)
        r.numbers[i] = any_number(i);
    return r;
}

// One to three numbers changed, to any or to the next one up or down.
static Recipe changed(Recipe r) {
    for (int changes = up_to(1, 3); changes > 0; changes--) {
        int i = up_to(0, NUMBERS - 1);
        int next = r.numbers[i] + (up_to(0, 1) ? 1 : -1);
        r.numbers[i] = up_to(0, 1) || next < ranges[i].least || next > ranges[i].most ? any_number(i) : next;
    }
    return r;
}

static void print_recipe(const Recipe *r) {
    for (int i = 0; i < NUMBERS; i++)
        printf(" %d", r->numbers[i]);
    printf("\n");
    fflush(stdout);
}

static double lower(double x, double y) {
    return x < y ? x : y;
}

// Is the new plan slower than the best one, by a hundredth at least? Both are timed in turn, so that other work on the machine meets both,
// and the best of some rounds counts; a plan that is far quicker has one round.
static bool slower(Tables *new, Tables *best, double *new_time) {
    double best_time = time_of(PROVED, best, 1);
    *new_time = time_of(PROVED, new, 1);
    for (int round = 1; round < 6 && *new_time > 0.9 * best_time; round++) {
        best_time = lower(best_time, time_of(PROVED, best, 1));
        *new_time = lower(*new_time, time_of(PROVED, new, 1));
    }
    return *new_time > 1.01 * best_time;
}

// Every tenth recipe tried is a new one by chance.
static Recipe climbed(Recipe best, double till) {
    Tables tables = tables_by(&best);
    int tried = 0;
    for (; seconds() < till; tried++) {
        Recipe r = up_to(0, 9) ? changed(best) : any_recipe();
        Tables t = tables_by(&r);
        double time;
        if (memcmp(&t, &tables, sizeof t) != 0 && slower(&t, &tables, &time)) {
            best = r;
            tables = t;
            printf("%6.0f s %6d tried %8.3f ms:", seconds(), tried + 1, 1e3 * time);
            print_recipe(&best);
        }
    }
    printf("%d recipes tried\n", tried);
    return best;
}

// ---- joins
//
// Nearly all the time goes into joining an allowance for one side, the branch or the rest of its row, at a step of it, with one for the other.

static bool steps_at(const uint32_t *cells, int c) {
    return cells[c] != (c == 0 ? 0 : cells[c - 1]);
}

static int steps_of(const uint32_t *cells, int width) {
    int steps = 0;
    for (int c = 0; c < width; c++)
        steps += steps_at(cells, c);
    return steps;
}

// The joins by the steps of one side: each with every allowance from there on with which the other one has a set.
static size_t joins_by(const uint32_t *leading, const uint32_t *other, int width) {
    size_t joins = 0;
    int first = 0;
    while (first < width && other[first] == 0)
        first++;
    for (int c = 0; c + first < width; c++)
        joins += steps_at(leading, c) ? (size_t)(width - c - first) : 0;
    return joins;
}

// The cells that are filled to count the joins, and lent with a line.
static uint32_t work[HULMEIDE_MAX_CELLS];

// The joins of load k's branch with the rest of its row, if there is one, by a row rule: the side with fewer steps leads.
static size_t joins_at(const Tables *t, int k, Transition r) {
    int next = next_sibling(t, k), width = width_of(t);
    if (next == NONE)
        return 0;
    const uint32_t *branch = branch_cells(t, work, k, r.label), *later = row_cells(t, work, next, r.to);
    bool swap = steps_of(later, width) < steps_of(branch, width);
    return swap ? joins_by(later, branch, width) : joins_by(branch, later, width);
}

static size_t joins_of(const Tables *t) {
    size_t joins = 0;
    same_ideas_fill(t, work);
    for (int k = 0; k < (int)t->loads.count; k++)
        for (size_t j = 0; j < t->book.row_rules.count; j++)
            joins += joins_at(t, k, t->book.row_rules.items[j]);
    return joins;
}

// The most that there can be of them where the side that leads has so many loads: a step for each of its sets, since each is to another worth.
// A few loads have more sets than there are allowances.
static size_t most_joins_by(int loads) {
    size_t width = HULMEIDE_MAX_BUDGET + 1, sets = (size_t)1 << lesser(loads, 16), joins = 0;
    for (size_t c = 0; c < width && c < sets; c++)
        joins += width - c;
    return joins;
}

// The most in any cabinet: by one row rule trees[n] in a tree of n loads, and rows[n] in a row of trees that have n loads together.
static size_t most_joins(void) {
    size_t trees[HULMEIDE_MAX_LOADS + 1] = {0}, rows[HULMEIDE_MAX_LOADS + 1] = {0};
    for (int n = 1; n <= HULMEIDE_MAX_LOADS; n++) {
        trees[n] = rows[n] = rows[n - 1];
        for (int first = 1; first < n; first++) {
            size_t joins = trees[first] + most_joins_by(lesser(first, n - first)) + rows[n - first];
            rows[n] = joins > rows[n] ? joins : rows[n];
        }
    }
    return HULMEIDE_MAX_RULES * trees[HULMEIDE_MAX_LOADS];
}

// ---- what is printed

// The lines that enter these tables into a planner, as `save` writes them, and ask for the plan.
static void print_lines(Tables *t) {
    Answer answer;
    answer_line(t, "save", work, &answer);
    printf("%.*splan\n", (int)answer.reply.count, (const char *)answer.text);
}

static void print_slowest(const Recipe *r, Tables *t) {
    print_head("The slowest plan found, beside the trees of times: 8 states, 8 stages, 32 + 32 rules, budget 500", "tree", "loads");
    print_row("random", HULMEIDE_MAX_LOADS, tables_of(largest(RANDOM)));
    print_row("caterpillar", HULMEIDE_MAX_LOADS, tables_of(largest(CATERPILLAR)));
    print_row("slowest", HULMEIDE_MAX_LOADS, *t);
    printf("\nIts joins: %zu, and in no cabinet more than %zu\n", joins_of(t), most_joins());
    printf("Its tree: %s\n", tree_names[r->numbers[TREE]]);
    for (int i = 0; i < NUMBERS; i++)
        printf("%5d %s\n", r->numbers[i], ranges[i].name);
    printf("Measured again by: worst 0 1");
    print_recipe(r);
    printf("\n");
}

// The words as numbers, in the place of the recipe's own. Is each in its range?
static bool take_numbers(Recipe *r, int count, char **words) {
    bool in_range = count == 0 || count == NUMBERS;
    for (int i = 0; in_range && i < count; i++) {
        r->numbers[i] = atoi(words[i]);
        in_range = r->numbers[i] >= ranges[i].least && r->numbers[i] <= ranges[i].most;
    }
    return in_range;
}

int main(int count, char **words) {
    chances = count > 2 ? (unsigned)atoi(words[2]) : 1;
    Recipe r = any_recipe();
    if (count < 2 || !take_numbers(&r, count > 3 ? count - 3 : 0, words + lesser(count, 3))) {
        printf("worst SECONDS [SEED [NUMBER..]], with %d numbers in their ranges\n", NUMBERS);
        return 1;
    }
    r = climbed(r, seconds() + atof(words[1]));
    Tables t = tables_by(&r);
    print_slowest(&r, &t);
    print_lines(&t);
    return 0;
}
