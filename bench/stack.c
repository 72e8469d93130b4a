// Bytes of stack that a call on the largest cabinet uses, and bytes of state.
// A call is made in a thread whose stack was painted. The lowest byte that changed tells how deep it went below the function that made it.
#include "cabinet.h"
#include <pthread.h>
#include <stdio.h>
#include <stdlib.h>
#include <string.h>

enum { STACK = 1 << 20, PAINT = 0xa5 };

// ---- depth

// A call to be measured, the stack that it runs on, and the bytes of it that it used.
typedef struct { void (*call)(void); uint8_t *stack; size_t used; } Measured;

static void *measure(void *given) {
    Measured *m = given;
    m->call();
    size_t low = 0;
    while (m->stack[low] == PAINT)
        low++;
    m->used = (size_t)((uint8_t *)__builtin_frame_address(0) - (m->stack + low));
    return NULL;
}

static size_t depth(void (*call)(void)) {
    Measured m = {call, aligned_alloc(4096, STACK), 0};
    memset(m.stack, PAINT, STACK);
    pthread_attr_t attributes;
    pthread_attr_init(&attributes);
    pthread_attr_setstack(&attributes, m.stack, STACK);
    pthread_t thread;
    if (pthread_create(&thread, &attributes, measure, &m) != 0) {
        printf("no thread\n");
        exit(1);
    }
    pthread_join(thread, NULL);
    free(m.stack);
    return m.used;
}

// ---- calls

static uint32_t work[HULMEIDE_MAX_CELLS];
static Tables tables;
static const char *line;
static Answer answer;
static uint32_t run[3 * HULMEIDE_MAX_LOADS];
static struct hulmeide_portion_reply portion;
static uint32_t verdict;
static uint8_t page[HULMEIDE_PAGE_BYTES];
static uint8_t glass[HULMEIDE_PAGE_BYTES];
static uint32_t drawn;
static struct hulmeide_part stretch;
static size_t row;
static uint8_t all_off[HULMEIDE_MAX_LOADS];
static uint8_t all_on[HULMEIDE_MAX_LOADS];
static struct hulmeide_step list[HULMEIDE_MAX_LOADS];
static struct hulmeide_steps steps;
static Outcome outcome;

static void nothing(void) {
}

static void proved_call(void) {
    answer_line(&tables, line, work, &answer);
}

static void proved_portion(void) {
    portion = hulmeide_portion(&tables, HULMEIDE_MAX_PORTION, answer.text, sizeof answer.text, 0, work, cells_of(&tables));
}

static void proved_judge(void) {
    verdict = hulmeide_judge(&tables, run, 3 * tables.loads.count);
}

static void proved_draw(void) {
    drawn = hulmeide_draw(&tables, tables.loads.count, page, sizeof page);
}

static void proved_stretch(void) {
    stretch = hulmeide_stretch(glass, sizeof glass, page, sizeof page);
}

static void proved_stretch_row(void) {
    row = hulmeide_stretch_row(glass, sizeof glass, page, sizeof page);
}

static void proved_changeover(void) {
    steps = hulmeide_changeover(&tables, all_off, sizeof all_off, all_on, sizeof all_on, list, HULMEIDE_MAX_LOADS);
}

static void plain_c(void) {
    outcome = plain_c_plan(&tables, work);
}

static void plain_rust(void) {
    plain_rust_plan(&tables, work, cells_of(&tables), &outcome);
}

// ---- what is printed

static void expect(uint32_t number, uint32_t expected) {
    if (number != expected) {
        printf("number %u in the place of %u\n", number, expected);
        exit(1);
    }
}

static void print_line(const char *name, const char *given, uint32_t number) {
    line = given;
    printf(" %s %zu,", name, depth(proved_call));
    expect(answer.reply.number, number);
}

// A line of the last load: a word, its number, and further fields.
static void print_of_last_load(const char *name, const char *word, const char *fields) {
    char given[HULMEIDE_LINE_BYTES];
    snprintf(given, sizeof given, "%s,%d%s", word, HULMEIDE_MAX_LOADS, fields);
    print_line(name, given, HULMEIDE_ACCEPTED);
}

// The check of the set that was planned, and the judge on its run.
static void print_check_and_judge(void) {
    Run planned = shown(&answer).run;
    char check[HULMEIDE_LINE_BYTES] = "check,";
    for (size_t k = 0; k < tables.loads.count; k++) {
        strcat(check, hulmeide_has_load(planned.set, k + 1) ? "1" : "0");
        run[3 * k] = planned.states[k];
        run[3 * k + 1] = planned.load_rules[k];
        run[3 * k + 2] = planned.row_rules[k];
    }
    print_line("check", check, HULMEIDE_ACCEPTED);
    printf(" judge %zu,", depth(proved_judge));
    expect(verdict, HULMEIDE_ACCEPTED);
}

// The portion of a plan that went deepest, and the call that gives its answer.
static void print_portions(void) {
    size_t deepest = 0, used = depth(proved_portion);
    for (; portion.filled > 0; used = depth(proved_portion))
        deepest = used > deepest ? used : deepest;
    printf(" portion %zu, its answer %zu,", deepest, used);
    expect(portion.number, HULMEIDE_ACCEPTED);
}

// The page of the last load, of the plan that is stored, on a glass that shows nothing of it.
static void print_page(void) {
    printf(" page %zu,", depth(proved_draw));
    expect(drawn, HULMEIDE_ACCEPTED);
    printf(" stretch %zu,", depth(proved_stretch));
    expect((uint32_t)stretch.count, HULMEIDE_PAGE_BYTES);
    printf(" its row %zu,", depth(proved_stretch_row));
    expect((uint32_t)row, 1);
}

// From all loads off to all loads on, in a cabinet that the budget carries whole.
static void print_changeover(Shape shape) {
    tables = with_watts(tables_of(largest(shape)));
    memset(all_off, '0', sizeof all_off);
    memset(all_on, '1', sizeof all_on);
    printf(" changeover %zu,", depth(proved_changeover));
    expect(steps.number, HULMEIDE_ACCEPTED);
    expect((uint32_t)steps.count, HULMEIDE_MAX_LOADS);
}

static void print_calls(Shape shape) {
    tables = tables_of(largest(shape));
    printf("%s:", shape_names[shape]);
    print_line("plan", "plan", HULMEIDE_ACCEPTED);
    print_check_and_judge();
    print_line("last", "last", HULMEIDE_ACCEPTED);
    print_line("need", "need,0", HULMEIDE_ACCEPTED);
    print_portions();
    print_page();
    print_of_last_load("change", "power", ",1");
    print_line("save", "save", HULMEIDE_ACCEPTED);
    print_line("save1", "save1", HULMEIDE_ACCEPTED);
    print_line("refused", "load,1,1,1", HULMEIDE_FULL);
    print_of_last_load("drop", "drop", "");
    print_changeover(shape);
    tables = tables_of(largest(shape));
    printf(" plan in plain C %zu, in plain Rust %zu\n", depth(plain_c), depth(plain_rust));
}

int main(void) {
    printf("\nBytes of stack: %d loads, %d states, %d stages, %d + %d rules, budget %d; ", HULMEIDE_MAX_LOADS, HULMEIDE_MAX_STATES,
        HULMEIDE_MAX_STAGES, HULMEIDE_MAX_RULES, HULMEIDE_MAX_RULES, HULMEIDE_MAX_BUDGET);
    printf("a function that does nothing uses %zu\n", depth(nothing));
    for (Shape shape = 0; shape < SHAPES; shape++)
        print_calls(shape);
    printf("Bytes of state: planner %zu, of which load rules %zu, row rules %zu, loads %zu, outcome %zu; the largest work %zu\n", sizeof tables,
        sizeof tables.book.load_rules, sizeof tables.book.row_rules, sizeof tables.loads, sizeof tables.outcome, sizeof work);
    return 0;
}
