/*
 * The line port of the examples in C: standard input and output, so that they can be compared with the line program. A switch has its own
 * functions in the place of these. What was interrupted is tried again, and nothing is allocated.
 */
#ifndef PORT_H
#define PORT_H

#include "hulmeide.h"

#include <stdbool.h>

/* A line without its line feed. One byte more than a line may have is kept of it, so that a longer one is refused as too long. */
struct line {
    uint8_t bytes[HULMEIDE_LINE_BYTES + 1];
    size_t length;
};

/* The name of the program, for what it says on standard error. */
extern const char *const program;

/* Says why the program cannot go on, and ends it. */
void stop(const char *message);

void transmit(const uint8_t *bytes, size_t count);

/* Takes the bytes that have come in, and hands each line that is complete to `answer`. Where none have come in it waits for some, or, if it is not
 * to wait, returns at once. False at the end of the port, where a last line that has no line feed is handed over too. */
bool poll_port(bool waits, void (*answer)(const struct line *line));

/* Hands each line that comes in to `answer` as soon as it is complete, to the end of the port. */
void serve(void (*answer)(const struct line *line));

#endif
