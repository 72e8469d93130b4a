/*
 * The header against the archive: their versions; the layout, for which the planner's fields are read by their names after the lines of
 * paper 01's session, and the memory after the planner must be as it was; what the header's helpers answer; the outcome of the session's plan,
 * as it is stored, shown by `last`, wiped, and out of range; the pages of that plan, and the stretches of every set of rows that differ; the
 * session's saves, with the free bytes that the header names; kinds, in range and out of it; the least budgets for worths, with the cells and
 * the free bytes that the header names; the session's plan by portions, with its cells, its refusals and the count that the planner keeps; the
 * steps from one set of its loads to another, with their refusals and the places that are kept; the places of the loads when one leaves and another
 * comes; sets of loads in their two words, and as they are written; and a cabinet of the most loads, with its plan in both words, the steps to it,
 * and the longest lines. It is C99, C11 and C++11.
 * The last line printed is 'N passed, M failed'.
 */
#include "hulmeide.h"

#include <stdio.h>
#include <string.h>

#define GUARD_BYTES 64
#define GUARD_BYTE 0xa5

/* The cells that the session's plan needs, and those of a plan of the most loads, under the session's book, at budget 0. */
#define SESSION_CELLS 496
#define FULL_CELLS 512

static const char *const lines[] = {
    "book,2,2", "start,1", "start,2", "end,1", "end,2", "rule,1,0,2", "rule,1,1,1", "rule,2,0,2",
    "row,1,1,1", "row,2,2,2", "load,0,10,0", "load,1,15,40", "load,1,5,30", "load,2,7,50", "budget,30",
};

/* The page of the session's plan from load 3 on, and that of a plan that is refused. */
#define BLANK_ROW "                    "
static const char planned_page[] =
    "worth 000070 030W   003 on  005W        004 off 007W        " BLANK_ROW BLANK_ROW BLANK_ROW BLANK_ROW BLANK_ROW;
static const char refused_page[] = "no plan             " BLANK_ROW BLANK_ROW BLANK_ROW BLANK_ROW BLANK_ROW BLANK_ROW BLANK_ROW;

static struct {
    struct hulmeide_planner planner;
    uint8_t guard[GUARD_BYTES];
} kept;

/* A page, and what stands before and behind it. */
static uint8_t around[GUARD_BYTES + HULMEIDE_PAGE_BYTES + GUARD_BYTES];
static uint8_t *const page = around + GUARD_BYTES;

static uint8_t out[HULMEIDE_SAVE_BYTES];
static uint32_t work[FULL_CELLS];
static int passed;
static int failed;

static void expect(const char *what, size_t value, size_t expected)
{
    if (value == expected) {
        passed += 1;
    } else {
        failed += 1;
        printf("%s is %zu, not %zu\n", what, value, expected);
    }
}

static void expect_rule(const char *what, struct hulmeide_rule rule, size_t from, size_t label, size_t to, size_t kind)
{
    expect(what, rule.from, from);
    expect(what, rule.label, label);
    expect(what, rule.to, to);
    expect(what, rule.kind, kind);
}

static void expect_load(const char *what, struct hulmeide_load load, size_t parent, size_t power, size_t worth, size_t kind)
{
    expect(what, load.parent, parent);
    expect(what, load.power, power);
    expect(what, load.worth, worth);
    expect(what, load.kind, kind);
}

static void expect_reply(const char *what, struct hulmeide_reply reply, size_t number, size_t count)
{
    expect(what, reply.number, number);
    expect(what, reply.count, count);
}

/* A line, with no cells lent. */
static void expect_line(const char *line, size_t number, size_t count)
{
    expect_reply(line, hulmeide_call_text(&kept.planner, line, out, sizeof out, 0, NULL, 0), number, count);
}

static void make_planner(void)
{
    memset(&kept, GUARD_BYTE, sizeof kept);
    hulmeide_fresh(&kept.planner);
    for (size_t i = 0; i < sizeof lines / sizeof *lines; i++) {
        expect_line(lines[i], HULMEIDE_ACCEPTED, 3);
    }
}

/* A plan of the session with just the cells that it needs, and with one less; and buffers of length 0 that are null. */
static void expect_helpers(void)
{
    struct hulmeide_planner *planner = &kept.planner;
    size_t cells = hulmeide_cells_needed(planner);
    expect("cells needed", cells, SESSION_CELLS);
    expect_reply("plan", hulmeide_call_text(planner, "plan", out, sizeof out, 0, work, cells), HULMEIDE_ACCEPTED, 53);
    expect_reply("one cell less", hulmeide_call_text(planner, "plan", out, sizeof out, 0, work, cells - 1), HULMEIDE_FEW_CELLS, 5);
    expect_reply("no cells", hulmeide_call_text(planner, "plan", out, sizeof out, 0, NULL, 0), HULMEIDE_FEW_CELLS, 5);
    expect_reply("no line", hulmeide_call_bytes(planner, NULL, 0, out, sizeof out, 0, NULL, 0), HULMEIDE_BAD_FORM, 5);
    expect_reply("no output", hulmeide_call_bytes(planner, NULL, 0, NULL, 0, 0, NULL, 0), HULMEIDE_TURNED_AWAY, 0);
}

/* What is stored of load k: its state, its load rule and its row rule. */
static void expect_entry(const char *what, size_t load, size_t state, size_t load_rule, size_t row_rule)
{
    const struct hulmeide_run *run = &kept.planner.outcome.run;
    expect(what, run->states[load - 1], state);
    expect(what, run->load_rules[load - 1], load_rule);
    expect(what, run->row_rules[load - 1], row_rule);
}

static void expect_set(const char *what, struct hulmeide_load_set set, uint64_t low, uint64_t high)
{
    expect(what, set.low, low);
    expect(what, set.high, high);
}

/* No run: each place of the outcome holds 0, and so does its set. */
static void expect_no_run(const char *what, size_t status)
{
    const struct hulmeide_outcome *outcome = &kept.planner.outcome;
    size_t used = 0;
    for (size_t i = 0; i < HULMEIDE_MAX_LOADS; i++) {
        used += outcome->run.states[i] != 0 || outcome->run.load_rules[i] != 0 || outcome->run.row_rules[i] != 0;
    }
    expect(what, outcome->status, status);
    expect(what, used, 0);
    expect_set(what, outcome->run.set, 0, 0);
}

static void expect_plan(const char *what)
{
    const struct hulmeide_outcome *outcome = &kept.planner.outcome;
    expect(what, outcome->status, HULMEIDE_OUTCOME_PLANNED);
    expect_entry("load 1 of a plan", 1, 1, 2, 0);
    expect_entry("load 2 of a plan", 2, 1, 2, 1);
    expect_entry("load 3 of a plan", 3, 1, 2, 1);
    expect_entry("load 4 of a plan", 4, 1, 1, 1);
    expect_entry("the place after the last load", 5, 0, 0, 0);
    expect_entry("the last place", HULMEIDE_MAX_LOADS, 0, 0, 0);
    expect_set("the set of a plan", outcome->run.set, 7, 0);
}

/* The session's plan is stored and shown, with no cells, until a change is accepted. A budget of 30 is no other budget, but a change. */
static void expect_last(void)
{
    struct hulmeide_planner *planner = &kept.planner;
    char planned[HULMEIDE_RUN_BYTES];
    expect_line("last", HULMEIDE_NO_PLAN, 6);
    expect_no_run("nothing stored", HULMEIDE_OUTCOME_NOTHING);
    expect_reply("plan", hulmeide_call_text(planner, "plan", out, sizeof out, 0, work, SESSION_CELLS), HULMEIDE_ACCEPTED, 53);
    expect_plan("a plan");
    memcpy(planned, out, 53);
    memset(out, 0, sizeof out);
    expect_reply("last", hulmeide_call_text(planner, "last", out, HULMEIDE_RUN_BYTES, 0, NULL, 0), HULMEIDE_ACCEPTED, 53);
    expect("last is another text", memcmp(out, planned, 53) != 0, 0);
    expect_reply("one byte less", hulmeide_call_text(planner, "last", out, HULMEIDE_RUN_BYTES - 1, 0, NULL, 0), HULMEIDE_TURNED_AWAY, 0);
    expect_line("last,1", HULMEIDE_BAD_FORM, 5);
    expect_line("budget,501", HULMEIDE_OUT_OF_RANGE, 5);
    expect_line("plan", HULMEIDE_FEW_CELLS, 5);
    expect_plan("a plan after what was refused");
    expect_line("budget,30", HULMEIDE_ACCEPTED, 3);
    expect_no_run("nothing stored after a change", HULMEIDE_OUTCOME_NOTHING);
    expect_line("last", HULMEIDE_NO_PLAN, 6);
}

/* That no allowed set fits is stored too: with no start state none is allowed. */
static void expect_last_of_none(void)
{
    struct hulmeide_planner *planner = &kept.planner;
    planner->book.starts = 0;
    expect_reply("plan of none", hulmeide_call_text(planner, "plan", out, sizeof out, 0, work, SESSION_CELLS), HULMEIDE_NONE_FITS, 5);
    expect_no_run("no set stored", HULMEIDE_OUTCOME_NO_SET);
    expect_line("last", HULMEIDE_NONE_FITS, 5);
    planner->book.starts = 3;
    expect_line("last", HULMEIDE_NONE_FITS, 5);
    expect_line("start,1", HULMEIDE_ACCEPTED, 3);
    expect_line("last", HULMEIDE_NO_PLAN, 6);
}

/* An outcome out of range turns every call away, and one in range is shown as it is. Bytes of 0 are no current plan. */
static void expect_outcome_tested(void)
{
    const uint32_t run[] = {1, 2, 0, 1, 2, 1, 1, 2, 1, 1, 1, 1};
    struct hulmeide_planner *planner = &kept.planner;
    expect_reply("plan", hulmeide_call_text(planner, "plan", out, sizeof out, 0, work, SESSION_CELLS), HULMEIDE_ACCEPTED, 53);
    planner->outcome.run.set.low = 15;
    expect_line("last", HULMEIDE_ACCEPTED, 54);
    expect("last of all loads", memcmp(out, "plan,120,37,4\n", 14) != 0, 0);
    planner->outcome.run.set.high = 1;
    expect_line("last", HULMEIDE_TURNED_AWAY, 0);
    planner->outcome.run.set.high = 0;
    planner->outcome.run.set.low = 16;
    expect_line("last", HULMEIDE_TURNED_AWAY, 0);
    expect_line("save", HULMEIDE_TURNED_AWAY, 0);
    expect_line("budget,30", HULMEIDE_TURNED_AWAY, 0);
    expect("judge", hulmeide_judge(planner, run, sizeof run / sizeof *run), HULMEIDE_TURNED_AWAY);
    planner->outcome.run.set.low = 7;
    expect("judge", hulmeide_judge(planner, run, sizeof run / sizeof *run), HULMEIDE_ACCEPTED);
    expect_line("last", HULMEIDE_ACCEPTED, 53);
    memset(&planner->outcome, 0, sizeof planner->outcome);
    expect_line("last", HULMEIDE_NO_PLAN, 6);
    expect_line("budget,30", HULMEIDE_ACCEPTED, 3);
}

/* How many bytes are as they were? */
static size_t bytes_kept(const uint8_t *bytes, size_t count)
{
    size_t same = 0;
    for (size_t i = 0; i < count; i++) {
        same += bytes[i] == GUARD_BYTE;
    }
    return same;
}

/* A drawing on rubbish: its number, and the page then, or NULL where every byte must be as it was. */
static void expect_drawing(const char *what, size_t load, size_t length, size_t number, const char *drawn)
{
    memset(around, GUARD_BYTE, sizeof around);
    expect(what, hulmeide_draw(&kept.planner, load, page, length), number);
    expect(what, bytes_kept(around, sizeof around), sizeof around - (drawn == NULL ? 0 : HULMEIDE_PAGE_BYTES));
    if (drawn != NULL) {
        expect(what, memcmp(page, drawn, HULMEIDE_PAGE_BYTES) != 0, 0);
    }
}

/* On a glass on which the rows of a set differ, in one byte each, row k + 1 where bit k is set: are the bytes of the stretch those of the
 * drawn page from the first of them to the last, and do they make the glass the drawn page? */
static int stretch_is_right(const uint8_t *drawn, unsigned rows)
{
    size_t first = 0;
    size_t end = 0;
    memcpy(page, drawn, HULMEIDE_PAGE_BYTES);
    for (size_t row = 0; row < HULMEIDE_PAGE_ROWS; row++) {
        if (rows >> row & 1) {
            page[row * HULMEIDE_ROW_BYTES + (7 * rows + row) % HULMEIDE_ROW_BYTES] ^= 1;
            first = end == 0 ? row : first;
            end = row + 1;
        }
    }
    struct hulmeide_bytes stretch = hulmeide_stretch_bytes(page, HULMEIDE_PAGE_BYTES, drawn, HULMEIDE_PAGE_BYTES);
    size_t row = hulmeide_stretch_row(page, HULMEIDE_PAGE_BYTES, drawn, HULMEIDE_PAGE_BYTES);
    memcpy(page + first * HULMEIDE_ROW_BYTES, stretch.bytes, stretch.count);
    return stretch.bytes == drawn + first * HULMEIDE_ROW_BYTES && stretch.count == (end - first) * HULMEIDE_ROW_BYTES
           && row == (end == 0 ? 0 : first + 1) && memcmp(page, drawn, HULMEIDE_PAGE_BYTES) == 0;
}

static void expect_stretches(void)
{
    const uint8_t *drawn = (const uint8_t *)planned_page;
    size_t right = 0;
    for (unsigned rows = 0; rows < 1u << HULMEIDE_PAGE_ROWS; rows++) {
        right += stretch_is_right(drawn, rows) ? 1 : 0;
    }
    expect("stretches that are right", right, 1u << HULMEIDE_PAGE_ROWS);
    memset(page, GUARD_BYTE, HULMEIDE_PAGE_BYTES);
    expect("every row", hulmeide_stretch(page, HULMEIDE_PAGE_BYTES, drawn, HULMEIDE_PAGE_BYTES).count, HULMEIDE_PAGE_BYTES);
    expect("a shorter glass", hulmeide_stretch_bytes(page, HULMEIDE_PAGE_BYTES - 1, drawn, HULMEIDE_PAGE_BYTES).count, 0);
    expect("a shorter page", hulmeide_stretch_bytes(page, HULMEIDE_PAGE_BYTES, drawn, HULMEIDE_PAGE_BYTES - 1).count, 0);
    expect("a page and itself", hulmeide_stretch_bytes(drawn, HULMEIDE_PAGE_BYTES, drawn, HULMEIDE_PAGE_BYTES).count, 0);
}

/* The session's plan on a page, and each refusal in the order of its tests; then that no allowed set fits. No drawing makes the plan old. */
static void expect_pages(void)
{
    struct hulmeide_planner *planner = &kept.planner;
    expect("the bytes of a page", HULMEIDE_PAGE_BYTES, 160);
    expect_drawing("no plan yet", 1, HULMEIDE_PAGE_BYTES, HULMEIDE_NO_PLAN, NULL);
    expect_drawing("no such load, and no plan", 5, HULMEIDE_PAGE_BYTES, HULMEIDE_OUT_OF_RANGE, NULL);
    expect_reply("plan", hulmeide_call_text(planner, "plan", out, sizeof out, 0, work, SESSION_CELLS), HULMEIDE_ACCEPTED, 53);
    expect_drawing("a page", 3, HULMEIDE_PAGE_BYTES, HULMEIDE_ACCEPTED, planned_page);
    expect_drawing("no such load", 5, HULMEIDE_PAGE_BYTES, HULMEIDE_OUT_OF_RANGE, NULL);
    expect_drawing("load 0", 0, HULMEIDE_PAGE_BYTES, HULMEIDE_OUT_OF_RANGE, NULL);
    planner->outcome.run.set.low = 16;
    expect_drawing("a planner that breaks a limit", 5, HULMEIDE_PAGE_BYTES, HULMEIDE_TURNED_AWAY, NULL);
    expect_drawing("a shorter page", 5, HULMEIDE_PAGE_BYTES - 1, HULMEIDE_NOT_A_PAGE, NULL);
    expect_drawing("a longer page", 5, HULMEIDE_PAGE_BYTES + 1, HULMEIDE_NOT_A_PAGE, NULL);
    planner->outcome.run.set.low = 7;
    expect_line("last", HULMEIDE_ACCEPTED, 53);
    memset(&planner->outcome, 0, sizeof planner->outcome);
    planner->outcome.status = HULMEIDE_OUTCOME_NO_SET;
    expect_drawing("a page of none", 4, HULMEIDE_PAGE_BYTES, HULMEIDE_ACCEPTED, refused_page);
    expect_line("budget,30", HULMEIDE_ACCEPTED, 3);
    expect_drawing("a change", 1, HULMEIDE_PAGE_BYTES, HULMEIDE_NO_PLAN, NULL);
}

/* A save of the session, whose lines stand in the order of a save, with just the free bytes that it needs, and with one less. What is written of
 * a kind, of load rules and of loads, is `kind`. */
static void expect_save(const char *line, const char *kind)
{
    struct hulmeide_planner *planner = &kept.planner;
    char saved[HULMEIDE_SAVE_BYTES] = "clear\n";
    for (size_t i = 0; i < sizeof lines / sizeof *lines; i++) {
        int has_kind = strncmp(lines[i], "rule", 4) == 0 || strncmp(lines[i], "load", 4) == 0;
        strcat(strcat(strcat(saved, lines[i]), has_kind ? kind : ""), "\n");
    }
    expect_line(line, HULMEIDE_ACCEPTED, strlen(saved));
    expect("the save is another text", memcmp(out, saved, strlen(saved)) != 0, 0);
    expect_reply("one byte less", hulmeide_call_text(planner, line, out, sizeof out - 1, 0, NULL, 0), HULMEIDE_TURNED_AWAY, 0);
}

static void expect_saves(void)
{
    expect_save("save", ",0");
    expect_save("save1", "");
    expect_reply("no save", hulmeide_call_text(&kept.planner, "save,", out, HULMEIDE_FREE_BYTES, 0, NULL, 0), HULMEIDE_BAD_FORM, 5);
    expect_reply("no save1", hulmeide_call_text(&kept.planner, "save1,", out, HULMEIDE_FREE_BYTES, 0, NULL, 0), HULMEIDE_BAD_FORM, 5);
}

/* A byte out of its range turns a call away, and so does one in an unused place. Then it is as it was. */
static void expect_tested(const char *what, uint8_t *byte, uint8_t value)
{
    uint8_t before = *byte;
    *byte = value;
    expect_reply(what, hulmeide_call_text(&kept.planner, "save1", out, sizeof out, 0, NULL, 0), HULMEIDE_TURNED_AWAY, 0);
    *byte = before;
}

/* A load of kind 2 has no rule until one of its kind comes, and then `save1` is refused for either. They leave again, with a new book. */
static void expect_kinds(void)
{
    struct hulmeide_planner *planner = &kept.planner;
    struct hulmeide_book before = planner->book;
    expect_line("load,1,0,0,4", HULMEIDE_OUT_OF_RANGE, 5);
    expect_line("load,1,0,0,2", HULMEIDE_ACCEPTED, 3);
    expect_load("a load of kind 2", planner->loads.items[4], 1, 0, 0, 2);
    expect_line("save1", HULMEIDE_KINDS_IN_USE, 6);
    expect_line("check,00000", HULMEIDE_NOT_ALLOWED, 6);
    expect_line("rule,2,0,2,2", HULMEIDE_ACCEPTED, 3);
    expect_line("rule,2,0,2,2", HULMEIDE_SAME_RULE, 5);
    expect_rule("a rule of kind 2", planner->book.load_rules.items[3], 2, 0, 2, 2);
    expect_line("check,00000", HULMEIDE_ACCEPTED, 4 + 5 * 10);
    expect_tested("a load of kind 4", &planner->loads.items[0].kind, HULMEIDE_MAX_KIND + 1);
    expect_tested("a load rule of kind 4", &planner->book.load_rules.items[0].kind, HULMEIDE_MAX_KIND + 1);
    expect_tested("a row rule of kind 1", &planner->book.row_rules.items[0].kind, 1);
    expect_tested("a kind of no load", &planner->loads.items[5].kind, 1);
    expect_tested("a kind of no load rule", &planner->book.load_rules.items[4].kind, 1);
    expect_tested("a kind of no row rule", &planner->book.row_rules.items[2].kind, 1);
    expect_line("drop,5", HULMEIDE_ACCEPTED, 3);
    expect_line("save1", HULMEIDE_KINDS_IN_USE, 6);
    planner->book = before;
    expect_save("save1", "");
}

/* How many cells of the work hold this? */
static size_t cells_with(uint32_t value)
{
    size_t same = 0;
    for (size_t i = 0; i < FULL_CELLS; i++) {
        same += work[i] == value;
    }
    return same;
}

/* Are two planners the same in every field? The padding between the fields may differ. */
static int same_planner(const struct hulmeide_planner *one, const struct hulmeide_planner *other)
{
    const struct hulmeide_book *book = &one->book;
    return memcmp(book, &other->book, offsetof(struct hulmeide_book, ends) + 1) == 0
           && memcmp(&book->load_rules, &other->book.load_rules, sizeof book->load_rules) == 0
           && memcmp(&book->row_rules, &other->book.row_rules, sizeof book->row_rules) == 0
           && memcmp(&one->loads, &other->loads, sizeof one->loads) == 0 && one->budget == other->budget
           && one->outcome.status == other->outcome.status && one->filled == other->filled
           && memcmp(&one->outcome.run, &other->outcome.run, sizeof one->outcome.run) == 0;
}

/* A line on rubbish, with so many free bytes from a place on and so many cells: its number, its text, and how many cells are 0 then. Every other
 * byte and cell, and every field of the planner, must be as it was. */
static void expect_need(const char *line, size_t free_bytes, size_t cells, size_t number, const char *text, size_t zeros)
{
    const size_t place = 7;
    struct hulmeide_planner before = kept.planner;
    memset(out, GUARD_BYTE, sizeof out);
    memset(work, GUARD_BYTE, sizeof work);
    struct hulmeide_reply reply = hulmeide_call_text(&kept.planner, line, out, place + free_bytes, place, work, cells);
    expect_reply(line, reply, number, strlen(text));
    expect("the answer is another text", memcmp(out + place, text, strlen(text)) != 0, 0);
    expect("bytes kept around it", bytes_kept(out, sizeof out), sizeof out - strlen(text));
    expect("cells that are 0", cells_with(0), zeros);
    expect("cells kept", cells_with(0x01010101u * GUARD_BYTE), FULL_CELLS - zeros);
    expect("a planner that differs", !same_planner(&kept.planner, &before), 0);
}

/* The session's plan has worth 70 and draws 30 W. Then its least budgets, each refusal before the one that is told after it, and the latest plan
 * after all of them. */
static void expect_needs(void)
{
    const size_t room = HULMEIDE_FREE_BYTES;
    struct hulmeide_planner *planner = &kept.planner;
    expect("the greatest worth", HULMEIDE_MAX_NEED, 128000);
    expect_reply("plan", hulmeide_call_text(planner, "plan", out, sizeof out, 0, work, SESSION_CELLS), HULMEIDE_ACCEPTED, 53);
    expect_need("need,70", room, SESSION_CELLS, HULMEIDE_ACCEPTED, "need,30\n", SESSION_CELLS);
    expect_need("need,000030", room, SESSION_CELLS, HULMEIDE_ACCEPTED, "need,15\n", SESSION_CELLS);
    expect_need("need,0", room, SESSION_CELLS, HULMEIDE_ACCEPTED, "need,0\n", SESSION_CELLS);
    expect_need("need,71", room, SESSION_CELLS, HULMEIDE_TOO_POOR, "no,15\n", SESSION_CELLS);
    expect_need("need,128000", room, SESSION_CELLS, HULMEIDE_TOO_POOR, "no,15\n", SESSION_CELLS);
    expect_need("need,71", room, SESSION_CELLS - 1, HULMEIDE_FEW_CELLS, "no,8\n", 0);
    expect_need("need,128001", room, 0, HULMEIDE_OUT_OF_RANGE, "no,5\n", 0);
    expect_need("need,0128000", room, 0, HULMEIDE_BAD_FORM, "no,3\n", 0);
    expect_need("need,70", room - 1, SESSION_CELLS, HULMEIDE_TURNED_AWAY, "", 0);
    expect_line("last", HULMEIDE_ACCEPTED, 53);
    expect_plan("the plan after needs");
    planner->book.starts = 0;
    expect_need("need,128000", room, SESSION_CELLS, HULMEIDE_NONE_FITS, "no,9\n", SESSION_CELLS);
    expect_need("need,0", room, SESSION_CELLS - 1, HULMEIDE_FEW_CELLS, "no,8\n", 0);
    planner->book.starts = 3;
    expect_plan("the plan after a need that no set fits");
    expect_line("budget,30", HULMEIDE_ACCEPTED, 3);
    expect_need("need,70", room, SESSION_CELLS, HULMEIDE_ACCEPTED, "need,30\n", SESSION_CELLS);
    expect_no_run("nothing stored by a need", HULMEIDE_OUTCOME_NOTHING);
}

/* A portion, with so many free bytes from a place on and so many cells: its number, the count of cells filled, its text, and the count that the
 * planner keeps then. Every other byte, and every other field of the planner, must be as it was. */
static void expect_portion(const char *what, size_t most, size_t free_bytes, size_t cells, size_t number, size_t filled, const char *text,
                           size_t left)
{
    const size_t place = 7;
    struct hulmeide_planner before = kept.planner;
    memset(out, GUARD_BYTE, sizeof out);
    struct hulmeide_portion_reply reply = hulmeide_portion(&kept.planner, most, out, place + free_bytes, place, work, cells);
    expect(what, reply.number, number);
    expect(what, reply.filled, filled);
    expect(what, reply.count, strlen(text));
    expect("the answer is another text", memcmp(out + place, text, strlen(text)) != 0, 0);
    expect("bytes kept around it", bytes_kept(out, sizeof out), sizeof out - strlen(text));
    expect(what, kept.planner.filled, left);
    before.filled = kept.planner.filled;
    expect("a planner that differs", !same_planner(&kept.planner, &before), 0);
}

/* A count that is out of range turns every call away. One that is all the cells is in range. */
static void expect_count_tested(void)
{
    const uint32_t run[] = {1, 2, 0, 1, 2, 1, 1, 2, 1, 1, 1, 1};
    struct hulmeide_planner *planner = &kept.planner;
    uint32_t before = planner->filled;
    planner->filled = SESSION_CELLS + 1;
    expect_line("save", HULMEIDE_TURNED_AWAY, 0);
    expect_line("budget,30", HULMEIDE_TURNED_AWAY, 0);
    expect("judge", hulmeide_judge(planner, run, sizeof run / sizeof *run), HULMEIDE_TURNED_AWAY);
    expect_drawing("one cell too many", 1, HULMEIDE_PAGE_BYTES, HULMEIDE_TURNED_AWAY, NULL);
    expect_portion("one cell too many", 1, HULMEIDE_RUN_BYTES, FULL_CELLS, HULMEIDE_TURNED_AWAY, 0, "", SESSION_CELLS + 1);
    planner->filled = SESSION_CELLS;
    expect_line("last", HULMEIDE_NO_PLAN, 6);
    expect("judge", hulmeide_judge(planner, run, sizeof run / sizeof *run), HULMEIDE_ACCEPTED);
    expect_drawing("every cell", 1, HULMEIDE_PAGE_BYTES, HULMEIDE_NO_PLAN, NULL);
    planner->filled = before;
}

/* The session's plan by portions, in a work full of rubbish. Load 4, of 7 W and worth 50, has the first cells; load 1's end with its row from
 * stage 2, in which it is off. Then the answer, which `last` does not show, and the next filling, which a change starts over. */
static void expect_portions(void)
{
    const size_t room = HULMEIDE_RUN_BYTES;
    const uint32_t rubbish = 0x01010101u * GUARD_BYTE;
    struct hulmeide_planner fresh;
    hulmeide_fresh(&fresh);
    expect("no cell of a fresh planner", fresh.filled, 0);
    expect("no loads", hulmeide_portion(&fresh, 0, out, room, 0, work, 0).number, HULMEIDE_NO_LOADS);
    expect("the most cells of a portion", HULMEIDE_MAX_PORTION, 16384);
    memset(work, GUARD_BYTE, sizeof work);
    expect_portion("a portion of 1", 1, room, SESSION_CELLS, HULMEIDE_ACCEPTED, 1, "", 1);
    expect_portion("a portion of 99", 99, room, SESSION_CELLS, HULMEIDE_ACCEPTED, 99, "", 100);
    expect("load 4 with 6 W", work[6], 512);
    expect("load 4 with 7 W", work[7], 50 * 512 + 512 - 7);
    expect("cells kept", cells_with(rubbish), FULL_CELLS - 100);
    expect_portion("a portion of 0", 0, room, SESSION_CELLS, HULMEIDE_OUT_OF_RANGE, 0, "", 100);
    expect_portion("too great a portion", HULMEIDE_MAX_PORTION + 1, room, 0, HULMEIDE_OUT_OF_RANGE, 0, "", 100);
    expect_portion("one cell less", 1, room, SESSION_CELLS - 1, HULMEIDE_FEW_CELLS, 0, "", 100);
    expect_portion("one byte less", 0, room - 1, SESSION_CELLS, HULMEIDE_TURNED_AWAY, 0, "", 100);
    expect_line("budget,501", HULMEIDE_OUT_OF_RANGE, 5);
    expect_line("last", HULMEIDE_NO_PLAN, 6);
    expect_count_tested();
    expect("cells kept by what was refused", cells_with(rubbish), FULL_CELLS - 100);
    expect_portion("the rest", HULMEIDE_MAX_PORTION, room, FULL_CELLS, HULMEIDE_ACCEPTED, SESSION_CELLS - 100, "", SESSION_CELLS);
    expect("load 1 off", work[SESSION_CELLS - 1], 512);
    expect("cells kept beyond the plan's", cells_with(rubbish), FULL_CELLS - SESSION_CELLS);
    expect_portion("0 for the answer", 0, room, FULL_CELLS, HULMEIDE_OUT_OF_RANGE, 0, "", SESSION_CELLS);
    expect_portion("one cell less for the answer", 1, room, SESSION_CELLS - 1, HULMEIDE_FEW_CELLS, 0, "", SESSION_CELLS);
    expect_portion("the answer", 1, room, FULL_CELLS, HULMEIDE_ACCEPTED, 0, "plan,70,30,3\n1,1,1,2,0\n2,1,1,2,1\n3,1,1,2,1\n4,0,1,1,1\n", 0);
    expect("cells that are 0", cells_with(0), SESSION_CELLS);
    expect("cells kept by the answer", cells_with(rubbish), FULL_CELLS - SESSION_CELLS);
    expect_line("last", HULMEIDE_NO_PLAN, 6);
    expect_portion("the next filling", 5, room, FULL_CELLS, HULMEIDE_ACCEPTED, 5, "", 5);
    expect_line("budget,30", HULMEIDE_ACCEPTED, 3);
    expect("no cell after a change", kept.planner.filled, 0);
}

/* A changeover on a list of rubbish with so many places: its number, and its steps, each the sign of the mark and the digit of a load. Every other
 * place of the list, and every field of the planner, must be as it was. */
static void expect_changeover(const char *old_set, const char *new_set, size_t places, size_t number, const char *steps)
{
    const size_t count = strlen(steps) / 2;
    struct hulmeide_planner before = kept.planner;
    struct hulmeide_step list[HULMEIDE_MAX_LOADS];
    memset(list, GUARD_BYTE, sizeof list);
    struct hulmeide_steps made = hulmeide_changeover(&kept.planner, (const uint8_t *)old_set, strlen(old_set), (const uint8_t *)new_set,
                                                     strlen(new_set), list, places);
    expect(new_set, made.number, number);
    expect(new_set, made.count, count);
    for (size_t i = 0; i < count; i++) {
        expect("the load of a step", list[i].load, (size_t)(steps[2 * i + 1] - '0'));
        expect("the mark of a step", list[i].mark, steps[2 * i] == '+');
    }
    expect("bytes kept beyond the steps", bytes_kept((const uint8_t *)list, sizeof list), sizeof list - count * sizeof *list);
    expect("a planner that differs", !same_planner(&kept.planner, &before), 0);
}

/* The session's loads draw 10, 15, 5 and 7 W; loads 2 and 3 hang on load 1, and load 4 on load 2. Steps with just the places that they need, and with
 * one less; and each refusal before the one that is told after it. */
static void expect_changeovers(void)
{
    struct hulmeide_planner *planner = &kept.planner;
    expect("the bytes of a step", sizeof(struct hulmeide_step), 2);
    expect_changeover("1110", "1000", 2, HULMEIDE_ACCEPTED, "-3-2");
    expect_changeover("1010", "1100", 2, HULMEIDE_ACCEPTED, "-3+2");
    expect_changeover("0000", "1110", 4, HULMEIDE_ACCEPTED, "+1+2+3");
    expect_changeover("1110", "1110", 0, HULMEIDE_ACCEPTED, "");
    expect_changeover("1110", "0000", 2, HULMEIDE_SHORT_LIST, "");
    expect_changeover("1110", "1101", 0, HULMEIDE_NOT_CARRIED, "");
    expect_changeover("1001", "1000", 0, HULMEIDE_NOT_CARRIED, "");
    expect_changeover("1111", "1111", 0, HULMEIDE_NOT_CARRIED, "");
    expect_changeover("1111", "111", 0, HULMEIDE_OUT_OF_RANGE, "");
    expect_changeover("1112", "1111", 0, HULMEIDE_OUT_OF_RANGE, "");
    expect_changeover("", "1110", 4, HULMEIDE_OUT_OF_RANGE, "");
    planner->budget = HULMEIDE_MAX_BUDGET + 1;
    expect_changeover("1112", "", 0, HULMEIDE_TURNED_AWAY, "");
    planner->budget = 32;
    expect_changeover("1110", "1101", 2, HULMEIDE_ACCEPTED, "-3+4");
    expect_changeover("1101", "1110", HULMEIDE_MAX_LOADS, HULMEIDE_ACCEPTED, "-4+3");
    planner->budget = 30;
}

/* Load 3 leaves: load 4 has its place and number then, the last place is free, and the next load takes it. */
static void expect_drop(void)
{
    const struct hulmeide_loads *loads = &kept.planner.loads;
    expect_line("drop,2", HULMEIDE_HAS_CHILDREN, 6);
    expect_line("drop,5", HULMEIDE_OUT_OF_RANGE, 5);
    expect("loads after refused drops", loads->count, 4);
    expect_line("drop,3", HULMEIDE_ACCEPTED, 3);
    expect("loads after a drop", loads->count, 3);
    expect_load("load 2 after a drop", loads->items[1], 1, 15, 40, 0);
    expect_load("load 3 after a drop", loads->items[2], 2, 7, 50, 0);
    expect_load("the place that is free", loads->items[3], 0, 0, 0, 0);
    expect_line("load,3,5,30,3", HULMEIDE_ACCEPTED, 3);
    expect("loads after another came", loads->count, 4);
    expect_load("load 4 after another came", loads->items[3], 3, 5, 30, 3);
    expect_line("load,1,6,60,1", HULMEIDE_ACCEPTED, 3);
    expect_line("drop,4", HULMEIDE_ACCEPTED, 3);
    expect_load("a kind after a drop", loads->items[3], 1, 6, 60, 1);
    expect_load("the place that is free again", loads->items[4], 0, 0, 0, 0);
}

/* Every number from 0 to two past the most loads, added to the empty set and to that of all loads: which loads are in it, and in which word. */
static void expect_sets(void)
{
    const struct hulmeide_load_set empty = {0, 0};
    const struct hulmeide_load_set all = {~(uint64_t)0, ~(uint64_t)0};
    size_t right = 0;
    for (size_t load = 0; load <= HULMEIDE_MAX_LOADS + 2; load++) {
        int there = load >= 1 && load <= HULMEIDE_MAX_LOADS;
        struct hulmeide_load_set one = hulmeide_with_load(empty, load);
        struct hulmeide_load_set same = hulmeide_with_load(all, load);
        uint64_t low = there && load <= 64 ? (uint64_t)1 << (load - 1) : 0;
        uint64_t high = there && load > 64 ? (uint64_t)1 << (load - 65) : 0;
        right += one.low == low && one.high == high && same.low == all.low && same.high == all.high;
        right += hulmeide_has_load(one, load) == there && hulmeide_has_load(all, load) == there && !hulmeide_has_load(empty, load);
    }
    expect("sets that are right", right, 2 * (HULMEIDE_MAX_LOADS + 3));
    expect("load 1 is in that of load 65", (size_t)hulmeide_has_load(hulmeide_with_load(empty, 65), 1), 0);
    expect("load 65 is in that of load 1", (size_t)hulmeide_has_load(hulmeide_with_load(empty, 1), 65), 0);
}

/* Sets as they are written: loads 2, 64, 65 and 128, of every count of loads, and not a byte more. */
static void expect_written_sets(void)
{
    const struct hulmeide_load_set set = {(uint64_t)1 << 63 | 2, (uint64_t)1 << 63 | 1};
    uint8_t marks[HULMEIDE_MAX_LOADS + 1];
    size_t right = 0;
    for (size_t loads = 0; loads <= HULMEIDE_MAX_LOADS; loads++) {
        memset(marks, GUARD_BYTE, sizeof marks);
        hulmeide_write_set(set, loads, marks);
        for (size_t i = 0; i < sizeof marks; i++) {
            int on = i == 1 || i == 63 || i == 64 || i == 127;
            right += marks[i] == (i < loads ? (on ? '1' : '0') : GUARD_BYTE);
        }
    }
    expect("marks that are right", right, sizeof marks * (HULMEIDE_MAX_LOADS + 1));
}

/* The session's book over the most loads, all below load 1 and worth 1 each. Loads 2, 64, 65 and 128 draw 1 W, the others nothing. */
static void make_full(void)
{
    expect_line("budget,0", HULMEIDE_ACCEPTED, 3);
    while (kept.planner.loads.count > 0) {
        char line[HULMEIDE_LINE_BYTES];
        snprintf(line, sizeof line, "drop,%zu", kept.planner.loads.count);
        expect_line(line, HULMEIDE_ACCEPTED, 3);
    }
    expect_line("load,0,0,1", HULMEIDE_ACCEPTED, 3);
    for (size_t load = 2; load <= HULMEIDE_MAX_LOADS; load++) {
        int draws = load == 2 || load == 64 || load == 65 || load == 128;
        expect_line(draws ? "load,1,1,1" : "load,1,0,1", HULMEIDE_ACCEPTED, 3);
    }
    expect_line("load,1,0,1", HULMEIDE_FULL, 5);
    expect("the most loads", kept.planner.loads.count, 128);
    expect_load("the last load", kept.planner.loads.items[HULMEIDE_MAX_LOADS - 1], 1, 1, 1, 0);
}

/* A line with so many free bytes. */
static void expect_with(size_t free_bytes, const char *line, size_t number, size_t count)
{
    expect_reply(line, hulmeide_call_text(&kept.planner, line, out, free_bytes, 0, work, FULL_CELLS), number, count);
}

/* A `check` with so many bits, all of them 1 but those of the loads that draw. */
static void expect_check(size_t free_bytes, size_t bits, size_t number, size_t count)
{
    char line[2 * HULMEIDE_LINE_BYTES] = "check,";
    memset(line + 6, '1', bits);
    line[6 + 1] = line[6 + 63] = line[6 + 64] = line[6 + 127] = '0';
    expect_with(free_bytes, line, number, count);
}

/* A budget of 0 with so many digits. */
static void expect_zeros(size_t digits, size_t number, size_t count)
{
    char line[2 * HULMEIDE_LINE_BYTES] = "budget,";
    memset(line + 7, '0', digits);
    expect_with(HULMEIDE_FREE_BYTES, line, number, count);
}

/* The steps from no load to the stored plan of the most loads, and back: each load but those that draw has one, in the order of the numbers. */
static void expect_full_changeover(size_t count)
{
    struct hulmeide_step up[HULMEIDE_MAX_LOADS];
    struct hulmeide_step down[HULMEIDE_MAX_LOADS];
    uint8_t dark[HULMEIDE_MAX_LOADS];
    uint8_t planned[HULMEIDE_MAX_LOADS];
    const size_t loads = HULMEIDE_MAX_LOADS;
    size_t right = 0;
    memset(dark, '0', sizeof dark);
    hulmeide_write_set(kept.planner.outcome.run.set, loads, planned);
    expect("steps to a plan", hulmeide_changeover(&kept.planner, dark, loads, planned, loads, up, count).count, count);
    expect("steps from a plan", hulmeide_changeover(&kept.planner, planned, loads, dark, loads, down, count).count, count);
    for (size_t i = 0; i < count; i++) {
        size_t load = i + 1 + (i >= 1) + 2 * (i >= 62);
        right += up[i].load == load && up[i].mark == 1 && down[count - 1 - i].load == load && down[count - 1 - i].mark == 0;
    }
    expect("steps that are right", right, count);
    expect("a place less", hulmeide_changeover(&kept.planner, dark, loads, planned, loads, up, count - 1).number, HULMEIDE_SHORT_LIST);
}

/* The plan of the most loads leaves those off that draw. Its answer has 9 lines of 10 bytes, 90 of 11 and 29 of 12 after its first. */
static void expect_full(void)
{
    const uint64_t low = ~(uint64_t)0 - 2 - ((uint64_t)1 << 63);
    const uint64_t high = ~(uint64_t)0 - 1 - ((uint64_t)1 << 63);
    const size_t rows = 9 * 10 + 90 * 11 + 29 * 12;
    make_full();
    expect("cells of the most loads", hulmeide_cells_needed(&kept.planner), FULL_CELLS);
    expect_with(HULMEIDE_RUN_BYTES - 1, "plan", HULMEIDE_TURNED_AWAY, 0);
    expect_no_run("nothing stored by a plan turned away", HULMEIDE_OUTCOME_NOTHING);
    expect_with(HULMEIDE_RUN_BYTES, "plan", HULMEIDE_ACCEPTED, 15 + rows);
    expect("the plan's first line", memcmp(out, "plan,124,0,124\n", 15) != 0, 0);
    expect_set("the set of the most loads", kept.planner.outcome.run.set, low, high);
    expect_entry("load 127 of the most", 127, 1, 2, 1);
    expect_entry("load 128 of the most", 128, 1, 1, 1);
    expect_full_changeover(124);
    expect_with(HULMEIDE_RUN_BYTES, "last", HULMEIDE_ACCEPTED, 15 + rows);
    expect_with(HULMEIDE_FREE_BYTES, "last", HULMEIDE_TURNED_AWAY, 0);
    expect_check(HULMEIDE_RUN_BYTES, 128, HULMEIDE_ACCEPTED, 4 + rows);
    expect_check(HULMEIDE_RUN_BYTES - 1, 128, HULMEIDE_TURNED_AWAY, 0);
    expect_check(HULMEIDE_RUN_BYTES, HULMEIDE_LINE_BYTES - 6, HULMEIDE_OUT_OF_RANGE, 5);
    expect_check(HULMEIDE_FREE_BYTES, HULMEIDE_LINE_BYTES - 5, HULMEIDE_LONG_LINE, 5);
    expect_with(HULMEIDE_FREE_BYTES, "check,2", HULMEIDE_BAD_FORM, 5);
    expect_with(HULMEIDE_FREE_BYTES, "plan,", HULMEIDE_BAD_FORM, 5);
    expect_with(HULMEIDE_FREE_BYTES, "budget,100000", HULMEIDE_OUT_OF_RANGE, 5);
    expect_zeros(HULMEIDE_MAX_DIGITS + 1, HULMEIDE_BAD_FORM, 5);
    expect_zeros(HULMEIDE_MAX_DIGITS, HULMEIDE_ACCEPTED, 3);
}

/* The tables of the session, field by field. */
static void expect_tables(void)
{
    const struct hulmeide_book *book = &kept.planner.book;
    expect("states", book->states, 2);
    expect("stages", book->stages, 2);
    expect("starts", book->starts, 3);
    expect("ends", book->ends, 3);
    expect("load rules", book->load_rules.count, 3);
    expect_rule("load rule 1", book->load_rules.items[0], 1, 0, 2, 0);
    expect_rule("load rule 3", book->load_rules.items[2], 2, 0, 2, 0);
    expect_rule("load rule 32", book->load_rules.items[HULMEIDE_MAX_RULES - 1], 0, 0, 0, 0);
    expect("row rules", book->row_rules.count, 2);
    expect_rule("row rule 2", book->row_rules.items[1], 2, 2, 2, 0);
    expect("loads", kept.planner.loads.count, 4);
    expect_load("load 1", kept.planner.loads.items[0], 0, 10, 0, 0);
    expect_load("load 4", kept.planner.loads.items[3], 2, 7, 50, 0);
    expect_load("the last place of the loads", kept.planner.loads.items[HULMEIDE_MAX_LOADS - 1], 0, 0, 0, 0);
    expect("budget", kept.planner.budget, 30);
}

int main(void)
{
    expect("the archive's version", hulmeide_version(), HULMEIDE_VERSION);
    make_planner();
    expect_tables();
    expect_last();
    expect_last_of_none();
    expect_outcome_tested();
    expect_pages();
    expect_stretches();
    expect_needs();
    expect_portions();
    expect_changeovers();
    expect_helpers();
    expect_saves();
    expect_kinds();
    expect_drop();
    expect_sets();
    expect_written_sets();
    expect_full();
    expect("bytes kept after the planner", bytes_kept(kept.guard, GUARD_BYTES), GUARD_BYTES);
    printf("%d passed, %d failed\n", passed, failed);
    return failed != 0;
}
