/*
 * The planner in a switch's main loop: bytes come in from a line port, each line is answered as soon as it is complete, a plan switches
 * the power of the cabinet's ports, the port of a load that leaves goes off, a display polls the latest plan, and an energy manager is told how
 * little supply would do. When the budget changes, the switch plans by itself: a portion in each turn of the loop, between two polls of the port,
 * so that its plan does not hold the loop. Lines that come in meanwhile are answered at once.
 *
 * Here the line port is standard input and output (port.h), the cabinet's ports are an array, and the display is a struct. A switch has its own
 * functions in the place of those of the port, set_port and show. Nothing is allocated: the planner and the buffers that it is lent are static.
 *
 * With SWITCH_LOG in the environment each plan and each drop leaves a line on standard error that names the ports that are on, and so does
 * whatever is new on the display. Each plan that a line asked for leaves one more, for the energy manager. Before those of the switch's own plan
 * stands a line with the number of its answer.
 *
 * Every run that the planner shows is handed to the judge before it is sent. That is not needed, since the planner is proved; it shows how
 * the judge is called.
 */
#include "hulmeide.h"
#include "port.h"

#include <stdbool.h>
#include <stdio.h>
#include <stdlib.h>
#include <string.h>

const char *const program = "switch";

static struct hulmeide_planner planner;
static uint8_t out[HULMEIDE_SAVE_BYTES]; /* enough for every line */
static uint32_t work[HULMEIDE_LINE_PROGRAM_CELLS];

/* The switch's own plan: is it to be made, and was it made since the last accepted change? Its cells are lent to nothing else, so that each
 * portion finds them as the last one left them. */
#define PORTION_CELLS 256
static bool planning;
static bool planned;
static uint8_t plan_out[HULMEIDE_RUN_BYTES];
static uint32_t plan_work[HULMEIDE_LINE_PROGRAM_CELLS];

/* Is the port of load k, port_on[k - 1], switched on? */
static bool port_on[HULMEIDE_MAX_LOADS];

/* What stands on the display: the number of the latest plan's answer, and the worth, the power and the number of loads on that it shows. */
struct display {
    uint32_t number;
    uint32_t worth;
    uint32_t power;
    uint32_t on;
};

static struct display display = {HULMEIDE_NO_PLAN, 0, 0, 0};
static unsigned long lines_answered;
static uint8_t polled[HULMEIDE_RUN_BYTES]; /* enough for `last` and `need` */

/* What an answer shows: the set of loads that are on, and the run, three numbers for each load. */
struct shown {
    struct hulmeide_load_set set;
    uint32_t run[3 * HULMEIDE_MAX_LOADS];
    size_t length;
};

/* ---- The cabinet's ports ---- */

/* Switches the port of a load. Here a port has the number of its load. A switch goes through a table from loads to ports, and forget_port moves
 * the entries of that table too. */
static void set_port(size_t load, bool on)
{
    port_on[load - 1] = on;
}

static void log_ports(void)
{
    if (getenv("SWITCH_LOG") == NULL) {
        return;
    }
    fputs("ports on:", stderr);
    for (size_t load = 1; load <= HULMEIDE_MAX_LOADS; load++) {
        if (port_on[load - 1]) {
            fprintf(stderr, " %zu", load);
        }
    }
    fputs("\n", stderr);
}

/* Switches every port that is not as the set has it. Those that go off go first, so that the supply never carries the old loads and the new
 * ones together; the highest number goes first, so that none is on below one that went off. The others go on from the lowest number up. That is the
 * order of hulmeide_changeover. It is not asked here: lines may change book, loads and budget between two plans, and it refuses a set that the
 * tables of today do not carry. changeover.c asks it. */
static void switch_ports(struct hulmeide_load_set set)
{
    for (size_t load = HULMEIDE_MAX_LOADS; load >= 1; load--) {
        if (port_on[load - 1] && !hulmeide_has_load(set, load)) {
            set_port(load, false);
        }
    }
    for (size_t load = 1; load <= HULMEIDE_MAX_LOADS; load++) {
        if (!port_on[load - 1] && hulmeide_has_load(set, load)) {
            set_port(load, true);
        }
    }
    log_ports();
}

/* A load has left, for good. Its port goes off, and every port behind it is from now on that of the load with one number less. A switch that
 * keeps more by the number of a load, as the port that it is plugged into, closes the gap there too. */
static void forget_port(size_t load)
{
    set_port(load, false);
    for (size_t next = load + 1; next <= HULMEIDE_MAX_LOADS; next++) {
        port_on[next - 2] = port_on[next - 1];
    }
    port_on[HULMEIDE_MAX_LOADS - 1] = false;
    log_ports();
}

/* ---- Texts ---- */

/* The number that begins at `at`. It ends before a comma or a line feed, and `at` is left behind that. */
static uint32_t next_number(const uint8_t *text, size_t count, size_t *at)
{
    uint32_t number = 0;
    while (*at < count && text[*at] >= '0' && text[*at] <= '9') {
        number = number * 10 + (uint32_t)(text[*at] - '0');
        *at += 1;
    }
    *at += 1;
    return number;
}

/* Where the second line of a text begins. */
static size_t second_line(const uint8_t *text, size_t count)
{
    size_t at = 0;
    while (at < count && text[at] != '\n') {
        at += 1;
    }
    return at + 1;
}

/* ---- The display ---- */

static void log_display(void)
{
    if (getenv("SWITCH_LOG") == NULL) {
        return;
    }
    if (display.number == HULMEIDE_ACCEPTED) {
        fprintf(stderr, "display: worth %u, %u W, %u on\n", display.worth, display.power, display.on);
    } else {
        fprintf(stderr, "display: %s\n", display.number == HULMEIDE_NONE_FITS ? "no set fits" : "no current plan");
    }
}

/* Shows an answer of `plan`, of `last` or of the switch's own plan. */
static void show(uint32_t number, const uint8_t *text, size_t count)
{
    struct display next = {number, 0, 0, 0};
    size_t at = sizeof "plan," - 1;
    if (number == HULMEIDE_ACCEPTED) {
        next.worth = next_number(text, count, &at);
        next.power = next_number(text, count, &at);
        next.on = next_number(text, count, &at);
    }
    if (memcmp(&display, &next, sizeof display) != 0) {
        display = next;
        log_display();
    }
}

/* The display asks for the latest plan. `last` plans nothing anew and needs no work, so it may ask as often as it likes. From an accepted
 * change to the next plan there is none to show. `last` does not know the switch's own plan, which stays on the display until a change. */
static void poll_display(void)
{
    struct hulmeide_reply reply = hulmeide_call_text(&planner, "last", polled, sizeof polled, 0, NULL, 0);
    if (reply.number != HULMEIDE_NO_PLAN || !planned) {
        show(reply.number, polled, reply.count);
    }
}

/* ---- The energy manager ---- */

/* How little supply would do for a worth that the latest plan has? `need` works in a plan's cells, and changes nothing: the ports, the display and
 * the budget in force stay. */
static uint32_t supply_for(uint32_t worth)
{
    char line[HULMEIDE_LINE_BYTES];
    size_t at = sizeof "need," - 1;
    snprintf(line, sizeof line, "need,%u", worth);
    struct hulmeide_reply reply = hulmeide_call_text(&planner, line, polled, sizeof polled, 0, work, HULMEIDE_LINE_PROGRAM_CELLS);
    return next_number(polled, reply.count, &at);
}

/* The energy manager asks for the worth of the plan on the display, which needs the plan's power, and for half of it. */
static void log_supply(void)
{
    if (getenv("SWITCH_LOG") != NULL) {
        uint32_t half = supply_for((display.worth + 1) / 2);
        fprintf(stderr, "supply: %u W for this worth, %u W for half of it\n", supply_for(display.worth), half);
    }
}

/* ---- Answers ---- */

/* Reads what is shown off an answer with one line "load,mark,state,load rule,row rule" for each load. */
static void read_shown(const uint8_t *text, size_t count, struct shown *shown)
{
    const struct hulmeide_load_set empty = {0, 0};
    size_t at = second_line(text, count);
    shown->set = empty;
    shown->length = 0;
    while (at < count && shown->length < 3 * HULMEIDE_MAX_LOADS) {
        uint32_t load = next_number(text, count, &at);
        if (next_number(text, count, &at) == 1) {
            shown->set = hulmeide_with_load(shown->set, load);
        }
        for (size_t end = shown->length + 3; shown->length < end; shown->length++) {
            shown->run[shown->length] = next_number(text, count, &at);
        }
    }
}

static void judge_shown(const struct shown *shown)
{
    if (hulmeide_judge(&planner, shown->run, shown->length) != HULMEIDE_ACCEPTED) {
        stop("the planner showed what is no run");
    }
}

/* Judges the run that a plan shows, and switches the ports by it. */
static void switch_by(const uint8_t *text, size_t count)
{
    struct shown shown;
    read_shown(text, count, &shown);
    judge_shown(&shown);
    switch_ports(shown.set);
}

/* ---- The switch's own plan ---- */

static void log_own_plan(uint32_t number)
{
    if (getenv("SWITCH_LOG") != NULL) {
        fprintf(stderr, "own plan after line %lu: number %u\n", lines_answered, number);
    }
}

/* The next portion of the switch's own plan. As long as portions fill cells, there is more to do; the planner counts them, and begins anew where a
 * change was accepted meanwhile. Then comes the answer. With no loads or too few cells there is none, and the ports stay as they are. */
static void plan_on(void)
{
    struct hulmeide_portion_reply reply =
        hulmeide_portion(&planner, PORTION_CELLS, plan_out, sizeof plan_out, 0, plan_work, HULMEIDE_LINE_PROGRAM_CELLS);
    if (reply.filled > 0) {
        return;
    }
    planning = false;
    planned = reply.number == HULMEIDE_ACCEPTED || reply.number == HULMEIDE_NONE_FITS;
    log_own_plan(reply.number);
    if (reply.number == HULMEIDE_ACCEPTED) {
        switch_by(plan_out, reply.count);
    }
    if (planned) {
        show(reply.number, plan_out, reply.count);
    }
}

/* ---- Lines ---- */

/* The load that an accepted "drop,k" took out. */
static size_t dropped_load(const struct line *line)
{
    size_t at = sizeof "drop," - 1;
    return next_number(line->bytes, line->length, &at);
}

/* A change was accepted. A plan of the switch's own that was made is old then, and one that is being made begins anew. A `budget` asks for one: it
 * is the last line of a save, so a cabinet that is fed in is planned for when it is whole. Of the commands only `budget` begins with bu, and only
 * `drop` with a d. */
static void follow_change(const struct line *line)
{
    planned = false;
    if (line->bytes[0] == 'b' && line->bytes[1] == 'u') {
        planning = true;
    } else if (line->bytes[0] == 'd') {
        forget_port(dropped_load(line));
    }
}

/* Judges the run that an accepted line shows, if it shows one, and switches the ports by a plan. The first lines of such answers are
 * "plan,worth,power,n", of `last` too, and "yes"; that of a change is "ok". A refused `plan` leaves the ports as they are, and so does `last`:
 * they are switched already. Of the commands that show a run only `plan` begins with a p. */
static void follow(const struct line *line, size_t count)
{
    struct shown shown;
    if (out[0] == 'o') {
        follow_change(line);
    } else if (line->bytes[0] == 'p') {
        switch_by(out, count);
    } else if (out[0] == 'p' || out[0] == 'y') {
        read_shown(out, count, &shown);
        judge_shown(&shown);
    }
}

/* A line is answered at once, whether a plan of the switch's own is being made or not: it is lent other cells. `plan` and `need` hold the loop for
 * a whole plan; a switch that cannot have that lends lines no cells, and they are refused with HULMEIDE_FEW_CELLS.
 * Here the display polls after each line. That of a switch has a clock of its own, but polls between two calls, since each call writes the
 * planner. */
static void answer(const struct line *line)
{
    struct hulmeide_reply reply = hulmeide_call(&planner, line->bytes, line->length, out, sizeof out, 0, work, HULMEIDE_LINE_PROGRAM_CELLS);
    bool accepted = reply.number == HULMEIDE_ACCEPTED;
    lines_answered += 1;
    if (accepted) {
        follow(line, reply.count);
    }
    transmit(out, reply.count);
    poll_display();
    if (accepted && line->bytes[0] == 'p' && out[0] == 'p') {
        log_supply();
    }
}

int main(void)
{
    if (hulmeide_version() != HULMEIDE_VERSION) {
        stop("the archive and the header are of different versions");
    }
    hulmeide_fresh(&planner);
    while (poll_port(!planning, answer)) {
        if (planning) {
            plan_on();
        }
    }
    while (planning) {
        plan_on();
    }
    return 0;
}
