/*
 * Kinds of load: a safety reader obeys other rules than cameras. Cameras are of kind 0, which may be left out of their lines, and may be off
 * below a load that is on. The reader is of kind 1, and has to be on there. So a weakened supply takes cameras off before the reader, and where
 * the feed and the reader are too much for it, the feed goes off with all that is below it.
 *
 * Each line is printed, after `> `, and its answer after it.
 */
#include "hulmeide.h"

#include <stdio.h>

static const char *const lines[] = {
    /* The book: state 1 is below a load that is on, state 2 below one that is off. Rules 1 to 3 are the cameras', and the feed's. */
    "book,2,2", "start,1", "start,2", "end,1", "end,2", "rule,1,0,2", "rule,1,1,1", "rule,2,0,2", "row,1,1,1", "row,2,2,2",
    /* Rules 4 and 5 are the reader's: none of them is for a reader that is off below a load that is on. */
    "rule,1,1,1,1", "rule,2,0,2,1",
    /* The feed, a camera of 15 W, the reader, of 5 W and of no worth by itself, and a camera of 7 W. */
    "load,0,10,0", "load,1,15,40", "load,1,5,0,1", "load,1,7,50",
    /* All of them fit, then one camera with the reader, then not even the feed with the reader. */
    "budget,37", "plan", "budget,30", "plan", "budget,14", "plan",
    /* Both cameras without the reader are not allowed. */
    "check,1101",
    /* `save1` is for planners before 1.8, and refused while some kind is other than 0. `save` writes every kind. */
    "save1", "save",
};

static struct hulmeide_planner planner;
static uint8_t out[HULMEIDE_SAVE_BYTES];
static uint32_t work[HULMEIDE_LINE_PROGRAM_CELLS];

int main(void)
{
    if (hulmeide_version() != HULMEIDE_VERSION) {
        fputs("reader: the archive and the header are of different versions\n", stderr);
        return 1;
    }
    hulmeide_fresh(&planner);
    for (size_t i = 0; i < sizeof lines / sizeof *lines; i++) {
        struct hulmeide_reply reply = hulmeide_call_text(&planner, lines[i], out, sizeof out, 0, work, HULMEIDE_LINE_PROGRAM_CELLS);
        printf("> %s\n%.*s", lines[i], (int)reply.count, (const char *)out);
    }
    return 0;
}
