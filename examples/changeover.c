/*
 * Switching over from plan to plan, one port after the other, so that no step asks for more than the greater of the two budgets and no load is on
 * below one that is off. hulmeide_changeover gives the steps.
 *
 * The budget in force holds for both sets, for the one that is on too. When the supply weakens, that set may be over the new budget, and a planner
 * that has the new budget already refuses the steps away from it then (HULMEIDE_NOT_CARRIED). So there are two planners here: `planner` has the
 * budget under which the ports were switched, and `next`, a copy of it, is given the new one and plans. The one with the greater budget carries both
 * sets, and is asked for the steps. The loads that go off go first: after the last of them what is on is a part of the new plan, so the ports draw
 * no more than the new budget from there on. When all steps are taken, `next` becomes `planner`.
 *
 * Each line is printed, after `> `, and its answer after it. After a plan comes a line for each step: the watts of all loads that are on then, and
 * which they are. Where the new budget is the lower one, a line before them has the number that `next` gives.
 */
#include "hulmeide.h"

#include <stdio.h>
#include <stdlib.h>

/* The book keeps a load on only below a load that is on. Below the feed are a switch and a reader, and below the switch a camera. */
static const char *const cabinet[] = {
    "book,2,2", "start,1", "start,2", "end,1", "end,2", "rule,1,0,2", "rule,1,1,1", "rule,2,0,2", "row,1,1,1", "row,2,2,2",
    "load,0,10,0", "load,1,15,40", "load,1,5,30", "load,2,7,50",
};

/* What the supply carries, one after the other: all loads, then less, more and less again, and at last not even the feed with a load. */
static const char *const supplies[] = {"budget,37", "budget,22", "budget,32", "budget,30", "budget,30", "budget,14"};

static struct hulmeide_planner planner;
static uint8_t out[HULMEIDE_RUN_BYTES];
static uint32_t work[HULMEIDE_LINE_PROGRAM_CELLS];

/* The loads whose ports are switched on, as hulmeide_changeover takes a set: '1' at place k - 1 for load k. */
static uint8_t ports[HULMEIDE_MAX_LOADS];

static void stop(const char *message)
{
    fprintf(stderr, "changeover: %s\n", message);
    exit(1);
}

/* Hands a line to a planner, and prints both it and its answer. */
static uint32_t say(struct hulmeide_planner *to, const char *line)
{
    struct hulmeide_reply reply = hulmeide_call_text(to, line, out, sizeof out, 0, work, HULMEIDE_LINE_PROGRAM_CELLS);
    printf("> %s\n%.*s", line, (int)reply.count, (const char *)out);
    return reply.number;
}

/* Switches the port of a load. Here it is a byte; a switch drives its port, and waits until the load draws what it draws. */
static void set_port(struct hulmeide_step step)
{
    ports[step.load - 1] = step.mark == 1 ? '1' : '0';
}

static void print_step(struct hulmeide_step step)
{
    unsigned watts = 0;
    for (size_t k = 0; k < planner.loads.count; k++) {
        watts += ports[k] == '1' ? planner.loads.items[k].power : 0u;
    }
    printf("load %u %s: %u W, %.*s\n", step.load, step.mark == 1 ? "on" : "off", watts, (int)planner.loads.count, (const char *)ports);
}

/* The steps from what is on to the plan that `next` has stored, as one of the two planners gives them. */
static struct hulmeide_steps steps_by(const struct hulmeide_planner *asked, const struct hulmeide_planner *next, struct hulmeide_step *list)
{
    uint8_t planned[HULMEIDE_MAX_LOADS];
    size_t loads = next->loads.count;
    hulmeide_write_set(next->outcome.run.set, loads, planned);
    return hulmeide_changeover(asked, ports, loads, planned, loads, list, HULMEIDE_MAX_LOADS);
}

/* Switches the ports over. Asking `next` where it has the lower budget serves only to show what it says; a switch need not. */
static void switch_over(const struct hulmeide_planner *next)
{
    struct hulmeide_step list[HULMEIDE_MAX_LOADS]; /* room for every changeover */
    struct hulmeide_steps steps = steps_by(next, next, list);
    if (next->budget < planner.budget) {
        printf("with %u W in force: number %u\n", next->budget, steps.number);
        steps = steps_by(&planner, next, list);
    }
    if (steps.number != HULMEIDE_ACCEPTED) {
        stop("the ports cannot be switched over");
    }
    for (size_t i = 0; i < steps.count; i++) {
        set_port(list[i]);
        print_step(list[i]);
    }
}

/* The supply has changed. Where no set fits, what is on stays on: what a switch does then is for its maker to say. */
static void follow_supply(const char *budget)
{
    struct hulmeide_planner next = planner;
    if (say(&next, budget) == HULMEIDE_ACCEPTED && say(&next, "plan") == HULMEIDE_ACCEPTED) {
        switch_over(&next);
        planner = next;
    }
}

int main(void)
{
    if (hulmeide_version() != HULMEIDE_VERSION) {
        stop("the archive and the header are of different versions");
    }
    hulmeide_fresh(&planner);
    for (size_t i = 0; i < sizeof cabinet / sizeof *cabinet; i++) {
        say(&planner, cabinet[i]);
    }
    for (size_t k = 0; k < planner.loads.count; k++) {
        ports[k] = '0';
    }
    for (size_t i = 0; i < sizeof supplies / sizeof *supplies; i++) {
        follow_supply(supplies[i]);
    }
    return 0;
}
