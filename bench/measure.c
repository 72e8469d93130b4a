// The answers are compared before a time is printed; if one differs, it ends.
#include "measure.h"
#include <stdio.h>
#include <stdlib.h>
#include <string.h>
#include <time.h>

static const char *const names[WAYS] = {"proved", "plain C", "plain Rust", "same ideas"};

static uint32_t work[HULMEIDE_MAX_CELLS];

// What the last plan gave: the proved one gives a text, and each other one an outcome.
static Answer answer;
static Outcome outcome;

static void plan(int way, Tables *t) {
    switch (way) {
    case PROVED:
        answer_line(t, "plan", work, &answer);
        break;
    case PLAIN_C:
        outcome = plain_c_plan(t, work);
        break;
    case PLAIN_RUST:
        plain_rust_plan(t, work, cells_of(t), &outcome);
        break;
    case SAME_IDEAS:
        outcome = same_ideas_plan(t, work);
        break;
    }
}

// ---- answers

// The worth, the power and the number of the loads that are on.
typedef struct { unsigned worth, power, on; } Figures;

static Figures figures_of(const Tables *t, struct hulmeide_load_set set) {
    Figures figures = {0, 0, 0};
    for (size_t k = 0; k < t->loads.count; k++)
        if (hulmeide_has_load(set, k + 1)) {
            figures.worth += t->loads.items[k].worth;
            figures.power += t->loads.items[k].power;
            figures.on++;
        }
    return figures;
}

static bool all_zero(size_t cells) {
    for (size_t i = 0; i < cells; i++)
        if (work[i] != 0)
            return false;
    return true;
}

static bool same_outcome(const Outcome *x, const Outcome *y) {
    return x->found == y->found && x->run.set.low == y->run.set.low && x->run.set.high == y->run.set.high
        && !memcmp(x->run.states, y->run.states, sizeof x->run.states)
        && !memcmp(x->run.load_rules, y->run.load_rules, sizeof x->run.load_rules)
        && !memcmp(x->run.row_rules, y->run.row_rules, sizeof x->run.row_rules);
}

// Does the proved answer begin with the line that this plan has?
static bool begins_with(const Tables *t, const Outcome *out) {
    Figures figures = figures_of(t, out->run.set);
    char line[HULMEIDE_LINE_BYTES];
    int length = snprintf(line, sizeof line, "plan,%u,%u,%u\n", figures.worth, figures.power, figures.on);
    if (!out->found)
        length = snprintf(line, sizeof line, "no,%d\n", HULMEIDE_NONE_FITS);
    return answer.reply.count >= (size_t)length && !memcmp(answer.text, line, (size_t)length);
}

// The plan that all ways agree on. Each begins with cells that hold rubbish, and leaves them at 0.
static Outcome agreed(Tables *t) {
    Outcome first = {0};
    for (int way = 0; way < WAYS; way++) {
        memset(work, 0xa5, sizeof work);
        plan(way, t);
        if (way == PROVED)
            first = shown(&answer);
        Outcome out = way == PROVED ? first : outcome;
        if (!begins_with(t, &out) || !same_outcome(&first, &out) || !all_zero(cells_of(t))) {
            printf("answers differ: %s and %s\n", names[PROVED], names[way]);
            exit(1);
        }
    }
    return first;
}

static void print_answer(const Tables *t, const Outcome *out) {
    Figures figures = figures_of(t, out->run.set);
    if (out->found)
        printf("  %6u %5u %3u\n", figures.worth, figures.power, figures.on);
    else
        printf("  no plan\n");
}

// ---- times

double seconds(void) {
    struct timespec t;
    clock_gettime(CLOCK_PROCESS_CPUTIME_ID, &t);
    return (double)t.tv_sec + 1e-9 * (double)t.tv_nsec;
}

double time_of(int way, Tables *t, int turns) {
    double began = seconds();
    for (int turn = 0; turn < turns; turn++)
        plan(way, t);
    return (seconds() - began) / turns;
}

// The best time of each way. Every round times each way once, in turns that take about a millisecond.
static void best_times(Tables *t, double best[WAYS]) {
    int turns[WAYS];
    for (int way = 0; way < WAYS; way++) {
        best[way] = time_of(way, t, 1);
        turns[way] = 1 + (int)(1e-3 / best[way]);
    }
    for (int round = 0; round < ROUNDS * WAYS; round++) {
        int way = round % WAYS;
        double time = time_of(way, t, turns[way]);
        if (time < best[way])
            best[way] = time;
    }
}

void print_row(const char *name, int number, Tables t) {
    Outcome out = agreed(&t);
    double best[WAYS];
    best_times(&t, best);
    printf("%-11s %5d  %8.4f %9.4f", name, number, 1e3 * best[PROVED], 1e3 * best[PLAIN_C]);
    printf(" %10.4f %10.4f ", 1e3 * best[PLAIN_RUST], 1e3 * best[SAME_IDEAS]);
    printf("  %5.3f  %5.3f  %5.3f", best[PROVED] / best[PLAIN_C], best[PROVED] / best[PLAIN_RUST], best[PROVED] / best[SAME_IDEAS]);
    print_answer(&t, &out);
    fflush(stdout);
}

void print_head(const char *title, const char *name, const char *number) {
    printf("\n%s\n%-11s %5s  %8s %9s %10s %10s ", title, name, number, names[PROVED], names[PLAIN_C], names[PLAIN_RUST], names[SAME_IDEAS]);
    printf("  %5s  %5s  %5s  %6s %5s %3s\n", "/C", "/Rust", "/same", "worth", "power", "on");
}
