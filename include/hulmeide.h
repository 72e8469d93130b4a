/*
 * The cabinet load planner for the switch's firmware.
 *
 * Link target/staticlib/libhulmeide.a, which `tools/build` proves and writes. It is built for x86-64 and the System V ABI, and
 * needs memcpy and memset, nothing else: no heap, no file, no clock, and no memory of its own between calls. All state is in the planner
 * that the caller keeps, so there may be any number of planners, and any number of threads, each with a planner of its own. On the largest
 * cabinet `check` used 21,768 bytes of stack, every other call on a line at most 10,728, a portion of a plan 10,312, the judge 11,168 and a
 * drawing 3,496, with the archive of the older kit (docs/PERFORMANCE.md).
 *
 * What the caller owes: every pointer is to memory that is there for the length given, aligned for its type and not null, also where the
 * length is 0 (hulmeide_call_bytes and hulmeide_call_text take null there); the planner, the output and the work do not overlap one another
 * or the line, a page that is drawn on does not overlap the planner, and a list of steps overlaps neither the planner nor the two sets; nobody
 * else reads or writes them, or writes the line, the run, the sets or the pages that are only read, during a call. hulmeide_call and
 * hulmeide_portion write the planner even where they refuse, so a planner is in no read-only memory. What portions need besides, so that their
 * answer is a plan, stands at hulmeide_portion.
 * What the bytes are does not matter. A planner, an output, a work, a page, a list and a set may hold anything.
 *
 * What is proved is in crates/hulmeide/src/lib.rt: each function has its promise there, for every planner and all buffers. The lines and
 * the answers are explained in docs/PROTOCOL.md.
 */
#ifndef HULMEIDE_H
#define HULMEIDE_H

#include <stddef.h>
#include <stdint.h>

#ifdef __cplusplus
extern "C" {
#define HULMEIDE_ASSERT(test, message) static_assert(test, message)
#elif defined(__STDC_VERSION__) && __STDC_VERSION__ >= 201112L
#define HULMEIDE_ASSERT(test, message) _Static_assert(test, message)
#else
#define HULMEIDE_ASSERT(test, message) extern char hulmeide_asserted[(test) ? 1 : -1]
#endif

/* The version of this header: major * 10000 + minor * 100 + patch. hulmeide_version returns that of the archive, and they fit where the two
 * are the same. The minor number goes up with each request that changes what lines and functions there are, what they answer, or the layout:
 * 1.1: a number may have zeros in front.
 * 1.2: `save` is a command. It needs HULMEIDE_SAVE_BYTES free bytes, and a caller that lends fewer has it turned away; its other lines go as
 *      before.
 * 1.3: `drop` is a command, and HULMEIDE_HAS_CHILDREN its refusal. It renumbers the loads behind: what a caller keeps by a load's number has
 *      to move with it.
 * 1.4: of sets of equal worth `plan` shows one that draws least. Lines, refusals and layout are those of 1.3.
 * 1.5: `last` is a command, and HULMEIDE_NO_PLAN its refusal. A planner keeps the outcome of its latest plan behind the fields of 1.4, which
 *      stand where they stood: it has 824 bytes. One of 1.4 has 616; with 208 bytes of 0 behind them it is one of 1.5, with no current plan.
 * 1.6: hulmeide_draw draws the latest plan on a page, and HULMEIDE_NOT_A_PAGE is a refusal of it; hulmeide_stretch and hulmeide_stretch_row
 *      say which rows of a page the glass does not show yet. Lines, answers and layout are those of 1.5.
 * 1.8: a load and a load rule have a kind. `load` and `rule` take it as a last field, which may be left out: lines as before mean what they
 *      meant. `save` writes every kind. `save1` is a command, which writes the form of 1.2 that planners before 1.8 take, and
 *      HULMEIDE_KINDS_IN_USE its refusal. A planner has 888 bytes, and its fields stand at other places; the field `kind` of an outcome is
 *      `status` now. There is no 1.7.
 * 1.9: `need` is a command, and HULMEIDE_TOO_POOR its refusal. It works in the cells of a plan. Other lines, answers and layout are those of
 *      1.8.
 * 1.10: a planner takes 128 loads, 64 before. A line has up to 144 bytes, 80 before, and a number up to six digits, five before: one of six was
 *       HULMEIDE_BAD_FORM, and is held to its range now. `need` takes a worth up to 128,000, 64,000 before, and row 1 of a page has six digits of
 *       worth, five before. `plan`, `last` and `check` need HULMEIDE_RUN_BYTES free bytes, 1,024 before, and saves HULMEIDE_SAVE_BYTES, 3,000
 *       before: a caller that lends by numbers of its own has to lend more, or has these lines turned away. Saves of earlier versions are taken
 *       as before. One of more than 64 loads is refused by 1.8 and 1.9, with HULMEIDE_FULL at its sixty-fifth load. The set of a run is a
 *       struct hulmeide_load_set, which hulmeide_has_load reads. A planner has 1,472 bytes, and behind its book another layout.
 * 1.11: hulmeide_portion plans by portions. A planner counts the cells that they have filled, behind the fields of 1.10, which stand where they
 *       stood: it has 1,480 bytes. One of 1.10 with 8 bytes of 0 behind it is one of 1.11, with no cell filled. Lines and answers are those of
 *       1.10.
 * 1.12: hulmeide_changeover gives the steps from one set of loads to another, and HULMEIDE_NOT_CARRIED and HULMEIDE_SHORT_LIST are refusals of it.
 *       Lines, answers and layout are those of 1.11.
 */
#define HULMEIDE_VERSION 11100

/* ---- Sizes ----
 *
 * Each limit stands here, and nowhere else for C; tests/limits.py reads this file for Python, and holds examples/hulmeide.rs to it.
 */

/* A line has at most this many bytes, its line feed not counted. A longer one is HULMEIDE_LONG_LINE. */
#define HULMEIDE_LINE_BYTES 144

/* A number in a line has at most this many digits, zeros in front of it among them: such zeros change nothing. */
#define HULMEIDE_MAX_DIGITS 6

/* So many bytes must be free in the output from the place on, for every line but those of the next two: for changes, for `need`, for a line that
 * breaks its form, and for one over HULMEIDE_LINE_BYTES bytes. No answer to such a line is longer. */
#define HULMEIDE_FREE_BYTES 1024

/* So many must be free for `plan`, `last` and `check`, whose answers have a line for each load, also where they are refused, and for every portion
 * of a plan. None of these answers is longer. A line that only begins like one, as `plan,` and `check,2` do, needs HULMEIDE_FREE_BYTES. */
#define HULMEIDE_RUN_BYTES 2048

/* So many must be free for `save` and for `save1`, and no save is longer: a caller that passes every line on lends this. A line that only begins
 * like one, as `save,1` and `save1,` do, needs HULMEIDE_FREE_BYTES. */
#define HULMEIDE_SAVE_BYTES 4096

/* The line program's number, and no limit of the library: the cells of 32 bits that it lends as work. Another caller lends what its plans
 * need, hulmeide_cells_needed, or HULMEIDE_MAX_CELLS, which is enough for every plan. */
#define HULMEIDE_LINE_PROGRAM_CELLS 16384

/* The largest cabinet. There are at most HULMEIDE_MAX_RULES rules of each sort, load rules of every kind counted together. Power and budget are
 * in watts. A kind is 0 to HULMEIDE_MAX_KIND. */
#define HULMEIDE_MAX_LOADS 128
#define HULMEIDE_MAX_RULES 32
#define HULMEIDE_MAX_STATES 8
#define HULMEIDE_MAX_STAGES 8
#define HULMEIDE_MAX_POWER 500
#define HULMEIDE_MAX_WORTH 1000
#define HULMEIDE_MAX_BUDGET 500
#define HULMEIDE_MAX_KIND 3

/* The loads of one word of a set of loads. */
#define HULMEIDE_WORD_LOADS 64

/* The greatest worth that `need` may be asked for: no set of loads is worth more. */
#define HULMEIDE_MAX_NEED (HULMEIDE_MAX_LOADS * HULMEIDE_MAX_WORTH)

/* A page of the handheld: rows of ASCII bytes, one after the other, with nothing between them and no NUL byte at the end. */
#define HULMEIDE_PAGE_ROWS 8
#define HULMEIDE_ROW_BYTES 20
#define HULMEIDE_PAGE_BYTES (HULMEIDE_PAGE_ROWS * HULMEIDE_ROW_BYTES)

/* The cells that `plan`, `need` and the portions of a plan work in: loads x (states + stages) x (budget + 1), with the budget in force. With fewer
 * it is HULMEIDE_FEW_CELLS. */
#define HULMEIDE_CELLS_NEEDED(loads, states, stages, budget) ((size_t)(loads) * ((size_t)(states) + (stages)) * ((size_t)(budget) + 1))

/* The cells that a plan of the largest cabinet needs. */
#define HULMEIDE_MAX_CELLS HULMEIDE_CELLS_NEEDED(HULMEIDE_MAX_LOADS, HULMEIDE_MAX_STATES, HULMEIDE_MAX_STAGES, HULMEIDE_MAX_BUDGET)

/* A portion may be asked to fill 1 to this many cells. */
#define HULMEIDE_MAX_PORTION 16384

/* ---- Numbers returned ----
 *
 * Of a line, of a portion, of the judge and of a changeover the lowest number that applies is given; a drawing tests 13 first, and then 1, 5 and
 * 12. A refusal leaves the planner as it was, but that 9 of a plan stores its outcome, and that 9 of a portion, which is the answer, starts the
 * filling over. A refusal of a line prints "no,N" and a line feed, but for 1, which writes nothing. Of the refusals of a portion only 9 writes, and
 * of those of a changeover none.
 */
enum hulmeide_number {
    /* A line was accepted. The judge: yes, the numbers are a run. A page was drawn. A portion filled cells, or gave the answer. A changeover has
     * its steps. */
    HULMEIDE_ACCEPTED = 0,
    /* Fewer free bytes from the place on than the line needs (HULMEIDE_SAVE_BYTES for `save` and `save1`, HULMEIDE_RUN_BYTES for `plan`, `last`
     * and `check`, and for a portion, HULMEIDE_FREE_BYTES for every other line), a place past the end, or a planner that breaks a limit, in its
     * tables, in its outcome or by more cells filled than there are (the judge, a drawing and a changeover: only the last). Nothing is written, and
     * everything is left as it was. */
    HULMEIDE_TURNED_AWAY = 1,
    /* A line over HULMEIDE_LINE_BYTES bytes. */
    HULMEIDE_LONG_LINE = 2,
    /* No command of the table, a wrong count of fields, or a field of the wrong form. */
    HULMEIDE_BAD_FORM = 3,
    /* `plan`, `check`, `need`, a portion, the judge or a changeover, with no loads. */
    HULMEIDE_NO_LOADS = 4,
    /* A value out of its range; bits not one for each load; the judge given not three numbers for each load; a drawing from a load that is not
     * there, with no loads too; a portion of 0 cells or of more than HULMEIDE_MAX_PORTION; a changeover with a set that is not a '0' or a '1' for
     * each load. */
    HULMEIDE_OUT_OF_RANGE = 5,
    /* HULMEIDE_MAX_LOADS loads, or HULMEIDE_MAX_RULES rules of that sort, already. */
    HULMEIDE_FULL = 6,
    /* The same rule is in the book already. Two load rules of different kinds are not the same. */
    HULMEIDE_SAME_RULE = 7,
    /* `plan`, `need` or a portion with too few cells of work: those of the whole plan. */
    HULMEIDE_FEW_CELLS = 8,
    /* `plan`, `need` and the answer of portions: no allowed set fits the budget. `last`: the latest plan was refused so, and no change was
     * accepted since. (A drawing shows that, and is not refused.) */
    HULMEIDE_NONE_FITS = 9,
    /* The checked set is not allowed. */
    HULMEIDE_NOT_ALLOWED = 10,
    /* `drop` of a load that has children. */
    HULMEIDE_HAS_CHILDREN = 11,
    /* `last` or a drawing with no current plan: since the last accepted change, or at all, none was shown and none refused with
     * HULMEIDE_NONE_FITS. By lines `last` is this with no loads too, and not 4. */
    HULMEIDE_NO_PLAN = 12,
    /* A drawing on other than HULMEIDE_PAGE_BYTES bytes. */
    HULMEIDE_NOT_A_PAGE = 13,
    /* `save1` while some load or some load rule has a kind other than 0, whether a plan would use it or not. */
    HULMEIDE_KINDS_IN_USE = 14,
    /* `need`: the plan at the budget in force has a worth below the one asked for. */
    HULMEIDE_TOO_POOR = 15,
    /* A changeover with a set, the old one or the new one, that draws more than the budget in force, or that has a load on below one that is
     * off. */
    HULMEIDE_NOT_CARRIED = 16,
    /* A changeover with fewer places in the list than it has steps. */
    HULMEIDE_SHORT_LIST = 17,
    /* The judge: no, the numbers are not a run. This is no refusal, and lies above the numbers of all of them. */
    HULMEIDE_NOT_A_RUN = 255
};

/* ---- The planner ----
 *
 * Make one with hulmeide_fresh, and change it by lines and portions alone. Its fields may be read. One that was changed otherwise, or that comes
 * from a file, is tested at each call: where it breaks a limit the call is turned away (1). The padding between the fields means nothing, and a
 * call may change it.
 */

/* A load rule is (state, mark, stage), a row rule (stage, state, next stage). A load rule serves only the loads of its kind, so that safety
 * readers, say, obey other rules than cameras; in plans, checks and runs that are judged. A row rule has no kind, and holds 0 there. */
struct hulmeide_rule {
    uint8_t from;
    uint8_t label;
    uint8_t to;
    uint8_t kind;
};

/* Rules in order of entry. The first `count` are in use, and the others hold 0. */
struct hulmeide_rules {
    struct hulmeide_rule items[HULMEIDE_MAX_RULES];
    size_t count;
};

/* The number of the parent (0 for load 1), the kind, watts, and worth. No line changes the kind of a load that is there. */
struct hulmeide_load {
    uint8_t parent;
    uint8_t kind;
    uint16_t power;
    uint16_t worth;
};

/* Loads in order of entry: load k is items[k - 1]. The first `count` are in use, and the others hold 0. A `drop` moves each load behind the one
 * that leaves one place to the front, so the place of the last one holds 0 then. */
struct hulmeide_loads {
    struct hulmeide_load items[HULMEIDE_MAX_LOADS];
    size_t count;
};

/* The rule book. State q is a start state where bit q - 1 of `starts` is set, and stage g an end stage where bit g - 1 of `ends` is. */
struct hulmeide_book {
    uint8_t states;
    uint8_t stages;
    uint8_t starts;
    uint8_t ends;
    struct hulmeide_rules load_rules;
    struct hulmeide_rules row_rules;
};

/* What is stored as the outcome of the latest plan: nothing, since no plan is current; that no allowed set fits; or a plan. */
enum hulmeide_outcome_status {
    HULMEIDE_OUTCOME_NOTHING = 0,
    HULMEIDE_OUTCOME_NO_SET = 1,
    HULMEIDE_OUTCOME_PLANNED = 2
};

/* A set of loads in two words: load k is in it where bit k - 1 of `low` is set, or, above HULMEIDE_WORD_LOADS, bit k - 1 - HULMEIDE_WORD_LOADS of
 * `high`. hulmeide_has_load reads it. */
struct hulmeide_load_set {
    uint64_t low;
    uint64_t high;
};

/* A run: the state, the load rule and the row rule of load k at place k - 1 of each list, and the set of the loads that are on. Load 1 has row
 * rule 0. The places beyond the loads hold 0. */
struct hulmeide_run {
    uint8_t states[HULMEIDE_MAX_LOADS];
    uint8_t load_rules[HULMEIDE_MAX_LOADS];
    uint8_t row_rules[HULMEIDE_MAX_LOADS];
    struct hulmeide_load_set set;
};

/* The outcome of the latest plan, an enum hulmeide_outcome_status and the run. Where it is no plan, every place of the run holds 0 and the set
 * is empty. Worth, power and the number of loads on are not stored: `last` and a drawing work them out from the set and the loads. */
struct hulmeide_outcome {
    uint8_t status;
    struct hulmeide_run run;
};

/*
 * The tables, and beside them the outcome of the latest plan. `plan` stores it, with HULMEIDE_NONE_FITS too, and a line that is answered with
 * "ok" wipes it; nothing else does either. `filled` counts the cells that hulmeide_portion has filled of its next answer. A line that is answered
 * with "ok" sets it to 0, and so does that answer; nothing else does.
 *
 * A planner may be copied and handed in again. (To flash write the lines of a `save`, as docs/FIRMWARE.md says: the layout may change with a
 * version.) Its outcome is tested as its tables are, but only for its ranges: a state of the book, rules of the book, no load that is not there.
 * A figure out of range turns every call away (1). That the run is one of these tables, or the best, is not tested: where something else than
 * these functions changed a byte in between, `last` and a drawing may show what no plan has shown, a power above the budget among it. So firmware
 * that cannot trust such a copy asks for a `plan` before it shows either, or keeps the lines of a `save` in the place of the planner: a planner
 * that takes them has no outcome. `filled` is tested too: more than hulmeide_cells_needed turns every call away. That the work holds these cells
 * is not tested: a copy goes on with a copy of the work, or is given a line that is answered with "ok" first.
 */
struct hulmeide_planner {
    struct hulmeide_book book;
    struct hulmeide_loads loads;
    uint16_t budget;
    struct hulmeide_outcome outcome;
    uint32_t filled;
};

/* What a call on a line returns: its number, and the count of bytes written. */
struct hulmeide_reply {
    uint32_t number;
    size_t count;
};

/* What a portion of a plan returns: its number, the count of cells filled, and the count of bytes written. */
struct hulmeide_portion_reply {
    uint32_t number;
    uint32_t filled;
    size_t count;
};

/* A step of a changeover: the number of a load, and its new mark, 0 off or 1 on. */
struct hulmeide_step {
    uint8_t load;
    uint8_t mark;
};

/* What a changeover returns: its number, and the count of steps written. */
struct hulmeide_steps {
    uint32_t number;
    size_t count;
};

/* A part of a page: the place of its first byte, counted from 0, and the count of its bytes. */
struct hulmeide_part {
    size_t start;
    size_t count;
};

/* An output with room for a save has room for every answer, and one with room for a plan for every answer but a save. */
HULMEIDE_ASSERT(HULMEIDE_SAVE_BYTES >= HULMEIDE_RUN_BYTES, "HULMEIDE_SAVE_BYTES");
HULMEIDE_ASSERT(HULMEIDE_RUN_BYTES >= HULMEIDE_FREE_BYTES, "HULMEIDE_RUN_BYTES");

/* The greatest count of cells fits the field that counts the filled ones. */
HULMEIDE_ASSERT(HULMEIDE_MAX_CELLS <= UINT32_MAX, "HULMEIDE_MAX_CELLS");

/* A step names every load. */
HULMEIDE_ASSERT(HULMEIDE_MAX_LOADS <= UINT8_MAX, "HULMEIDE_MAX_LOADS");

/* Two words hold a mark for every load. */
HULMEIDE_ASSERT(HULMEIDE_MAX_LOADS == 2 * HULMEIDE_WORD_LOADS, "HULMEIDE_WORD_LOADS");

/* The layouts are those that the archive was built with. */
HULMEIDE_ASSERT(sizeof(size_t) == 8, "the archive is for x86-64");
HULMEIDE_ASSERT(sizeof(struct hulmeide_rule) == 4, "hulmeide_rule");
HULMEIDE_ASSERT(offsetof(struct hulmeide_rule, label) == 1, "hulmeide_rule.label");
HULMEIDE_ASSERT(offsetof(struct hulmeide_rule, to) == 2, "hulmeide_rule.to");
HULMEIDE_ASSERT(offsetof(struct hulmeide_rule, kind) == 3, "hulmeide_rule.kind");
HULMEIDE_ASSERT(sizeof(struct hulmeide_rules) == 136, "hulmeide_rules");
HULMEIDE_ASSERT(offsetof(struct hulmeide_rules, count) == 128, "hulmeide_rules.count");
HULMEIDE_ASSERT(sizeof(struct hulmeide_load) == 6, "hulmeide_load");
HULMEIDE_ASSERT(offsetof(struct hulmeide_load, kind) == 1, "hulmeide_load.kind");
HULMEIDE_ASSERT(offsetof(struct hulmeide_load, power) == 2, "hulmeide_load.power");
HULMEIDE_ASSERT(offsetof(struct hulmeide_load, worth) == 4, "hulmeide_load.worth");
HULMEIDE_ASSERT(sizeof(struct hulmeide_loads) == 776, "hulmeide_loads");
HULMEIDE_ASSERT(offsetof(struct hulmeide_loads, count) == 768, "hulmeide_loads.count");
HULMEIDE_ASSERT(sizeof(struct hulmeide_book) == 280, "hulmeide_book");
HULMEIDE_ASSERT(offsetof(struct hulmeide_book, stages) == 1, "hulmeide_book.stages");
HULMEIDE_ASSERT(offsetof(struct hulmeide_book, starts) == 2, "hulmeide_book.starts");
HULMEIDE_ASSERT(offsetof(struct hulmeide_book, ends) == 3, "hulmeide_book.ends");
HULMEIDE_ASSERT(offsetof(struct hulmeide_book, load_rules) == 8, "hulmeide_book.load_rules");
HULMEIDE_ASSERT(offsetof(struct hulmeide_book, row_rules) == 144, "hulmeide_book.row_rules");
HULMEIDE_ASSERT(sizeof(struct hulmeide_load_set) == 16, "hulmeide_load_set");
HULMEIDE_ASSERT(offsetof(struct hulmeide_load_set, high) == 8, "hulmeide_load_set.high");
HULMEIDE_ASSERT(sizeof(struct hulmeide_run) == 400, "hulmeide_run");
HULMEIDE_ASSERT(offsetof(struct hulmeide_run, load_rules) == 128, "hulmeide_run.load_rules");
HULMEIDE_ASSERT(offsetof(struct hulmeide_run, row_rules) == 256, "hulmeide_run.row_rules");
HULMEIDE_ASSERT(offsetof(struct hulmeide_run, set) == 384, "hulmeide_run.set");
HULMEIDE_ASSERT(sizeof(struct hulmeide_outcome) == 408, "hulmeide_outcome");
HULMEIDE_ASSERT(offsetof(struct hulmeide_outcome, run) == 8, "hulmeide_outcome.run");
HULMEIDE_ASSERT(sizeof(struct hulmeide_planner) == 1480, "hulmeide_planner");
HULMEIDE_ASSERT(offsetof(struct hulmeide_planner, loads) == 280, "hulmeide_planner.loads");
HULMEIDE_ASSERT(offsetof(struct hulmeide_planner, budget) == 1056, "hulmeide_planner.budget");
HULMEIDE_ASSERT(offsetof(struct hulmeide_planner, outcome) == 1064, "hulmeide_planner.outcome");
HULMEIDE_ASSERT(offsetof(struct hulmeide_planner, filled) == 1472, "hulmeide_planner.filled");
HULMEIDE_ASSERT(sizeof(struct hulmeide_reply) == 16, "hulmeide_reply");
HULMEIDE_ASSERT(offsetof(struct hulmeide_reply, count) == 8, "hulmeide_reply.count");
HULMEIDE_ASSERT(sizeof(struct hulmeide_portion_reply) == 16, "hulmeide_portion_reply");
HULMEIDE_ASSERT(offsetof(struct hulmeide_portion_reply, filled) == 4, "hulmeide_portion_reply.filled");
HULMEIDE_ASSERT(offsetof(struct hulmeide_portion_reply, count) == 8, "hulmeide_portion_reply.count");
HULMEIDE_ASSERT(sizeof(struct hulmeide_step) == 2, "hulmeide_step");
HULMEIDE_ASSERT(offsetof(struct hulmeide_step, mark) == 1, "hulmeide_step.mark");
HULMEIDE_ASSERT(sizeof(struct hulmeide_steps) == 16, "hulmeide_steps");
HULMEIDE_ASSERT(offsetof(struct hulmeide_steps, count) == 8, "hulmeide_steps.count");
HULMEIDE_ASSERT(sizeof(struct hulmeide_part) == 16, "hulmeide_part");
HULMEIDE_ASSERT(offsetof(struct hulmeide_part, count) == 8, "hulmeide_part.count");

/* ---- Functions ---- */

/* The version of the archive. Compare it with HULMEIDE_VERSION before anything else is called. */
uint32_t hulmeide_version(void);

/* Makes the planner fresh, whatever it held: no book, no rules, no loads, budget 0, no current plan, and no cell filled. */
void hulmeide_fresh(struct hulmeide_planner *planner);

/*
 * Handles one line, given without its line feed. The answer is written from out + place on, and `count` says how many bytes it has; the
 * bytes before the place and after the answer keep their values. `plan` and `need` fill the cells that a plan needs at the start of the work,
 * and leave 0 in them, after HULMEIDE_NONE_FITS and HULMEIDE_TOO_POOR too; all other cells, and all cells after any other line or any other
 * refusal, keep their values.
 * `last` shows the outcome of the latest plan as `plan` printed it, HULMEIDE_NONE_FITS as well, without planning anew. It changes nothing and
 * needs no work: a display may ask as often as it likes. Once a change was accepted it is HULMEIDE_NO_PLAN until the next plan.
 * `need`, as in "need,70", prints the least budget, at most the one in force, whose plan has that worth or more, as "need,30". "need,0" prints the
 * least budget that has a plan at all. It changes nothing: the tables, the budget in force and the latest plan stay.
 * `save` changes nothing and writes lines, each with its line feed, that rebuild the tables: any planner that breaks no limit accepts them one
 * by one, and has these tables then. `save1` writes them without kinds, for a planner before 1.8, where every kind is 0, and is
 * HULMEIDE_KINDS_IN_USE otherwise. It changes nothing either.
 * `load` and `rule` may have a kind as a last field, as in "load,1,5,30,2" and "rule,1,1,1,2"; without it the kind is 0.
 * `drop` takes out a load that has no children. The numbers above its own fall by one, in parents too; the order of the loads stays, and the
 * place that is free then can be filled again, however often.
 */
struct hulmeide_reply hulmeide_call(struct hulmeide_planner *planner, const uint8_t *line, size_t line_length, uint8_t *out,
                                    size_t out_length, size_t place, uint32_t *work, size_t work_length);

/*
 * Plans by portions, for a main loop that a whole plan would hold too long. While cells of the plan are open, a call fills the next `most` of
 * them, 1 to HULMEIDE_MAX_PORTION, or those that are left where they are fewer, and returns 0, how many it filled, and 0 bytes: nothing is
 * written. The call after the last cell fills none and gives the answer: number, count and bytes are those that `plan` would give,
 * HULMEIDE_NONE_FITS with "no,9" among them. So a reply with cells filled says: call again. With no book there are no cells, and the first call
 * gives the answer.
 *
 * A call changes no cell of the work but those it fills, from cell number `filled` of the planner on; the answer leaves 0 in all cells of the
 * plan, and starts the filling over. An accepted change starts it over too, and nothing else: no other line and no refusal. No table changes. The
 * answer is not stored, and what is stored stays: `last` and a drawing show what `plan` found.
 *
 * Each cell holds the best of its branch or row with an allowance, as worth x 512 + 512 - power, or 0 where nothing is allowed. They stand in the
 * work from its start: loads from the last to load 1, of each its states and then its stages, of each the allowances from 0 to the budget. The
 * cell of a load and a stage is for the row from that load onward; load 1 is a row of itself.
 *
 * HULMEIDE_TURNED_AWAY, HULMEIDE_NO_LOADS, HULMEIDE_OUT_OF_RANGE for `most` and HULMEIDE_FEW_CELLS, tested in this order and on the answering call
 * too, fill nothing and write nothing; planner, output and work are as they were. HULMEIDE_RUN_BYTES must be free on every call, and the work has
 * the cells of the whole plan.
 *
 * What the caller owes so that cells and answer are right: only these functions change the planner, from hulmeide_fresh on; and each portion gets
 * the work as the last one left it, but the first of a filling, which takes any. `plan` and `need` leave 0 in the work that they are lent, so lend
 * them other work while a filling is open. Where that was not kept, the calls still end and do nothing undefined, but what they fill and answer
 * may be anything.
 */
struct hulmeide_portion_reply hulmeide_portion(struct hulmeide_planner *planner, size_t most, uint8_t *out, size_t out_length, size_t place,
                                               uint32_t *work, size_t work_length);

/*
 * Are these numbers a run? They are three for each load in load order: its state, its load rule, which is of the load's kind, and its row rule
 * (0 for load 1).
 * Returns HULMEIDE_ACCEPTED for yes, HULMEIDE_NOT_A_RUN for no, or HULMEIDE_TURNED_AWAY, HULMEIDE_NO_LOADS or HULMEIDE_OUT_OF_RANGE.
 */
uint32_t hulmeide_judge(const struct hulmeide_planner *planner, const uint32_t *run, size_t run_length);

/*
 * Draws the latest plan on a page, for the electrician's handheld. Row 1 has the worth and the power of the plan. Each row below it has a
 * load, from the one asked for on: its number, `on` or `off`, and its own power, whether it is on or off. Every row is filled with blanks:
 *
 *     worth 000070 030W
 *     003 on  005W
 *     004 off 007W
 *
 * A row for which there is no load is blank. After HULMEIDE_NONE_FITS row 1 is `no plan`, and the others are blank.
 * Returns HULMEIDE_ACCEPTED, or, tested in this order, HULMEIDE_NOT_A_PAGE, HULMEIDE_TURNED_AWAY, HULMEIDE_OUT_OF_RANGE or
 * HULMEIDE_NO_PLAN; then the page is as it was. The planner is only read.
 * A planner that is handed in may have an outcome that no plan stored, and its set may draw more than 999 W: then the last three digits are
 * shown.
 */
uint32_t hulmeide_draw(const struct hulmeide_planner *planner, size_t load, uint8_t *page, size_t page_length);

/*
 * What of a page just drawn does the glass not show yet? The stretch of the drawn page from the first row that differs to the last that
 * does, whole rows. Put on the glass at the same place, as memcpy(glass + start, drawn + start, count) does, or at the row of
 * hulmeide_stretch_row, it makes the glass the drawn page. It is empty, 0 and 0, where no row differs, and where either is not of
 * HULMEIDE_PAGE_BYTES bytes. Both are only read, and may be the same memory.
 */
struct hulmeide_part hulmeide_stretch(const uint8_t *glass, size_t glass_length, const uint8_t *drawn, size_t drawn_length);

/* The row at which that stretch begins, from 1 to HULMEIDE_PAGE_ROWS, or 0 where it is empty. */
size_t hulmeide_stretch_row(const uint8_t *glass, size_t glass_length, const uint8_t *drawn, size_t drawn_length);

/*
 * Writes the steps by which the cabinet goes from the old set of loads to the new one, to the start of the list, and returns 0 and how many they
 * are. A set is written as for `check`: a byte '0' or '1' for each load, load 1 first; hulmeide_write_set writes that of a plan. The loads that go
 * off come first, highest number first, and then those that go on, lowest number first. Every load in which the sets differ has one step, and no
 * other load has one. List places beyond the steps keep their values. Two equal sets have no step, and a list of length 0 will do; one of
 * HULMEIDE_MAX_LOADS places has room for every changeover.
 *
 * Proved: where the loads that are on are the old set and the steps are taken one by one, then after every one of them the set that is on draws at
 * most the budget and each load that is on, but load 1, has its parent on; and after the last it is the new set.
 *
 * Refused are, tested in this order, HULMEIDE_TURNED_AWAY, where the planner breaks a limit; HULMEIDE_NO_LOADS, whatever the sets are;
 * HULMEIDE_OUT_OF_RANGE, where a set is empty, of another length or has another byte; HULMEIDE_NOT_CARRIED, where a set draws more than the budget,
 * or has a load other than load 1 on whose parent is off; and HULMEIDE_SHORT_LIST, where the list has fewer places than there are steps. Both sets
 * are looked at, also where they are equal. A refusal returns 0 steps and writes nothing.
 *
 * The budget is the one in force, for the old set as well. Once a lower budget is in force, the set that is on may be over it, and the steps away
 * from it are refused then. So plan with the lower budget in a copy of the planner, and ask the one that still has the greater budget, as
 * examples/changeover.c does. Book, rules and the latest plan play no part: a set need not be allowed. The planner is only read. The two sets may be
 * the same memory, and are only read; the list does not overlap them or the planner.
 */
struct hulmeide_steps hulmeide_changeover(const struct hulmeide_planner *planner, const uint8_t *old_set, size_t old_length,
                                          const uint8_t *new_set, size_t new_length, struct hulmeide_step *list, size_t list_length);

/* ---- What callers would write ---- */

/* The cells that a plan of this planner needs, as it stands, whole or by portions, and `need` too. */
static inline size_t hulmeide_cells_needed(const struct hulmeide_planner *planner)
{
    return HULMEIDE_CELLS_NEEDED(planner->loads.count, planner->book.states, planner->book.stages, planner->budget);
}

/* Is this load in the set? 1 or 0; and 0 for a number outside 1 to HULMEIDE_MAX_LOADS. */
static inline int hulmeide_has_load(struct hulmeide_load_set set, size_t load)
{
    if (load == 0 || load > HULMEIDE_MAX_LOADS) {
        return 0;
    }
    uint64_t word = load <= HULMEIDE_WORD_LOADS ? set.low : set.high;
    return (int)(word >> ((load - 1) % HULMEIDE_WORD_LOADS) & 1);
}

/* The set with this load in it. A number outside 1 to HULMEIDE_MAX_LOADS changes nothing. */
static inline struct hulmeide_load_set hulmeide_with_load(struct hulmeide_load_set set, size_t load)
{
    uint64_t mark = (uint64_t)1 << ((load - 1) % HULMEIDE_WORD_LOADS);
    if (load >= 1 && load <= HULMEIDE_WORD_LOADS) {
        set.low |= mark;
    } else if (load > HULMEIDE_WORD_LOADS && load <= HULMEIDE_MAX_LOADS) {
        set.high |= mark;
    }
    return set;
}

/* Writes the marks of loads 1 to `loads`, a byte '0' or '1' each, as `check` and hulmeide_changeover take a set. */
static inline void hulmeide_write_set(struct hulmeide_load_set set, size_t loads, uint8_t *marks)
{
    for (size_t load = 1; load <= loads; load++) {
        marks[load - 1] = (uint8_t)(hulmeide_has_load(set, load) ? '1' : '0');
    }
}

/* As hulmeide_call, but a line, an output or a work of length 0 may be null. */
static inline struct hulmeide_reply hulmeide_call_bytes(struct hulmeide_planner *planner, const uint8_t *line, size_t line_length,
                                                        uint8_t *out, size_t out_length, size_t place, uint32_t *work, size_t work_length)
{
    uint8_t no_bytes = 0;
    uint32_t no_cells = 0;
    return hulmeide_call(planner, line_length == 0 ? &no_bytes : line, line_length, out_length == 0 ? &no_bytes : out, out_length, place,
                         work_length == 0 ? &no_cells : work, work_length);
}

/* As hulmeide_call_bytes, with the line as a C string, without its line feed. */
static inline struct hulmeide_reply hulmeide_call_text(struct hulmeide_planner *planner, const char *line, uint8_t *out, size_t out_length,
                                                       size_t place, uint32_t *work, size_t work_length)
{
    size_t length = 0;
    while (line[length] != '\0') {
        length += 1;
    }
    return hulmeide_call_bytes(planner, (const uint8_t *)line, length, out, out_length, place, work, work_length);
}

/* Bytes that are kept elsewhere. */
struct hulmeide_bytes {
    const uint8_t *bytes;
    size_t count;
};

/* The stretch of hulmeide_stretch, as bytes of the drawn page: they are there for as long as that is. */
static inline struct hulmeide_bytes hulmeide_stretch_bytes(const uint8_t *glass, size_t glass_length, const uint8_t *drawn, size_t drawn_length)
{
    struct hulmeide_part part = hulmeide_stretch(glass, glass_length, drawn, drawn_length);
    struct hulmeide_bytes stretch = {drawn + part.start, part.count};
    return stretch;
}

#ifdef __cplusplus
}
#endif

#endif
