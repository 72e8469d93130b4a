// The proved plan of this archive against that of another one: the answers on cabinets by chance, and then times by tree and loads, and on
// cabinets of many equals. bench/compare links both. Each has a planner of its own, which lines alone change, so that their layouts may differ.
#include "measure.h"
#include <stdio.h>
#include <stdlib.h>
#include <string.h>

// `hulmeide_call`, `hulmeide_fresh` and `hulmeide_version` of the other archive.
extern __typeof__(hulmeide_call) other_call;
extern __typeof__(hulmeide_fresh) other_fresh;
extern __typeof__(hulmeide_version) other_version;

enum { OTHER, THIS, BOTH, CABINETS = 5000, PLANNER_ROOM = 4096 };

// The version before which an archive takes fewer loads, and how many. Every line that enters or checks so many has fewer bytes than such an
// archive takes, and an output that this one needs is long enough for it.
enum { VERSION_OF_MORE = 11000, FEWER_LOADS = 64 };

// The most loads that both archives take.
static int most_loads;

static union { struct hulmeide_planner planner; uint8_t room[PLANNER_ROOM]; } planners[BOTH];
static uint32_t work[HULMEIDE_MAX_CELLS];
static size_t cells;
static Answer answers[BOTH];

static void ask(int which, const char *line, size_t length) {
    Answer *a = &answers[which];
    __typeof__(hulmeide_call) *call = which == OTHER ? other_call : hulmeide_call;
    a->reply = call(&planners[which].planner, (const uint8_t *)line, length, a->text, sizeof a->text, 0, work, cells);
}

static void plan(int which) {
    ask(which, "plan", strlen("plan"));
}

// Both planners hold these tables: this archive writes the lines, in the form that an archive before it takes too.
static void enter(Tables *t) {
    Answer saved;
    answer_line(t, "save1", work, &saved);
    cells = cells_of(t);
    other_fresh(&planners[OTHER].planner);
    hulmeide_fresh(&planners[THIS].planner);
    for (size_t at = 0; at < saved.reply.count;) {
        const char *line = (const char *)saved.text + at;
        size_t length = (size_t)((const char *)memchr(line, '\n', saved.reply.count - at) - line);
        ask(OTHER, line, length);
        ask(THIS, line, length);
        at += length + 1;
    }
}

static double time_of_plan(int which, int turns) {
    double began = seconds();
    for (int turn = 0; turn < turns; turn++)
        plan(which);
    return (seconds() - began) / turns;
}

static bool same_answer(void) {
    const Answer *x = &answers[OTHER], *y = &answers[THIS];
    return x->reply.number == y->reply.number && x->reply.count == y->reply.count && !memcmp(x->text, y->text, x->reply.count);
}

// ---- cabinets by chance

static int up_to(int most) {
    return rand() % (most + 1);
}

// Any tree and any figures, a book of any size, and any marks: where no set fits, refusal 9 is compared.
static Tables tables_by_chance(unsigned seed) {
    srand(seed);
    int states = 1 + up_to(HULMEIDE_MAX_STATES - 1), most = 2 * states * states;
    int rules = 1 + up_to((most < HULMEIDE_MAX_RULES ? most : HULMEIDE_MAX_RULES) - 1);
    Cabinet c = {RANDOM, 1 + up_to(most_loads - 1), states, 0, up_to(HULMEIDE_MAX_BUDGET)};
    int top_power = 1 + up_to(HULMEIDE_MAX_POWER - 1), top_worth = 1 + up_to(HULMEIDE_MAX_WORTH - 1), near = 1 + up_to(most_loads);
    Tables t = tables_of(c);
    add_rules(&t.book.load_rules, rules, states, true, seed);
    add_rules(&t.book.row_rules, states == 1 ? 1 : rules, states, false, seed);
    srand(seed);
    t.book.starts = (uint8_t)(1 + up_to((1 << states) - 2));
    t.book.ends = (uint8_t)(1 + up_to((1 << states) - 2));
    for (int k = 0; k < c.loads; k++) {
        int parent = k == 0 ? 0 : k - up_to((k < near ? k : near) - 1);
        t.loads.items[k] = (Load){(uint8_t)parent, 0, (uint16_t)up_to(top_power), (uint16_t)up_to(top_worth)};
    }
    return t;
}

// A plan, a check of any set, and what is stored then: the answers. Has it a plan?
static bool compare_by_chance(unsigned seed) {
    char check[HULMEIDE_LINE_BYTES + 1] = "check,";
    Tables t = tables_by_chance(seed);
    enter(&t);
    for (size_t k = 0; k < t.loads.count; k++)
        strcat(check, up_to(3) ? "0" : "1");
    const char *lines[] = {"plan", check, "last"};
    for (int i = 0; i < 3; i++) {
        for (int which = OTHER; which < BOTH; which++)
            ask(which, lines[i], strlen(lines[i]));
        if (!same_answer()) {
            printf("answers differ: cabinet %u, %s\n", seed, lines[i]);
            exit(1);
        }
    }
    return answers[THIS].reply.number == HULMEIDE_ACCEPTED;
}

static void compare_answers(void) {
    int planned = 0;
    for (unsigned seed = 1; seed <= CABINETS; seed++)
        planned += compare_by_chance(seed);
    printf("Answers to plans and checks of %d cabinets by chance, of up to %d loads, are equal; %d have a plan\n\n", CABINETS, most_loads, planned);
}

// ---- times

// The answers are compared, and then the best times of either in turns that take about a millisecond.
static void print_both(const char *name, int number, Tables t) {
    double best[BOTH];
    enter(&t);
    for (int which = OTHER; which < BOTH; which++)
        best[which] = time_of_plan(which, 1);
    if (!same_answer()) {
        printf("answers differ: %s, %d\n", name, number);
        exit(1);
    }
    int turns = 1 + (int)(1e-3 / best[THIS]);
    for (int round = 0; round < ROUNDS * BOTH; round++) {
        double time = time_of_plan(round % BOTH, turns);
        if (time < best[round % BOTH])
            best[round % BOTH] = time;
    }
    printf("%-11s %5d  %8.4f %8.4f  %5.3f\n", name, number, 1e3 * best[OTHER], 1e3 * best[THIS], best[THIS] / best[OTHER]);
    fflush(stdout);
}

static void print_title(const char *title, const char *number) {
    printf("\n%s\n%-11s %5s  %8s %8s  %6s\n", title, "tree", number, "other", "this", "/other");
}

int main(void) {
    most_loads = other_version() < VERSION_OF_MORE ? FEWER_LOADS : HULMEIDE_MAX_LOADS;
    compare_answers();
    printf("A plan: processor time in milliseconds, best of %d rounds, in the other archive and in this one\n", ROUNDS);
    print_title("8 states, 8 stages, 32 + 32 rules, budget 500", "loads");
    for (int shape = 0; shape < SHAPES; shape++)
        for (int loads = 8; loads <= most_loads; loads *= 2) {
            Cabinet c = largest(shape);
            c.loads = loads;
            print_both(shape_names[shape], loads, tables_of(c));
        }
    print_title("Many equals: the most loads, of 0, 10, 20 or 30 watts and worth 0 or 1", "watts");
    for (int shape = 0; shape < SHAPES; shape++)
        for (int budget = 125; budget <= HULMEIDE_MAX_BUDGET; budget += 125) {
            Cabinet c = largest(shape);
            c.loads = most_loads;
            c.budget = budget;
            print_both(shape_names[shape], budget, with_equals(tables_of(c)));
        }
    return 0;
}
