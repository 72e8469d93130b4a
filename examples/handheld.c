/*
 * The planner behind an electrician's handheld: lines come in and are answered as the line program answers them, and the glass shows the
 * page of the latest plan. Only the rows that have changed are sent to it. A lamp beside the glass is lit while the plan on it is old.
 *
 * Here the line port is standard input and output (port.h), and the glass is a frame at the top of the terminal, with the word `old` for the
 * lamp; what is typed and answered scrolls below it. Where standard output is no terminal, each row that is sent is a line of text,
 * `|row| number`, and so is each turn of the lamp. A handheld has its own functions in the place of open_glass, send_row, switch_lamp and
 * close_glass. Nothing is allocated.
 *
 * The line `page,K` is the handheld's own, and not the planner's: it scrolls to load K and prints nothing, or, where that page cannot be drawn,
 * `no,N`. The program ends with its input (Ctrl-D at a terminal).
 */
#include "hulmeide.h"
#include "port.h"

#include <stdbool.h>
#include <stdio.h>
#include <stdlib.h>
#include <string.h>
#include <unistd.h>

const char *const program = "handheld";

static struct hulmeide_planner planner;
static uint8_t out[HULMEIDE_SAVE_BYTES]; /* enough for every line */
static uint32_t work[HULMEIDE_LINE_PROGRAM_CELLS];

/* The page that was drawn last, what the glass shows, and the first load on it. */
static uint8_t page[HULMEIDE_PAGE_BYTES];
static uint8_t glass[HULMEIDE_PAGE_BYTES];
static size_t top = 1;

/* ---- The glass and the lamp ---- */

/* The frame goes one row and one column around the glass. After it and an empty row the terminal scrolls. */
#define EDGE "+--------------------+"
#define SIDE "|                    |"
#define FIRST_SCROLLED (HULMEIDE_PAGE_ROWS + 4)
HULMEIDE_ASSERT(sizeof EDGE == HULMEIDE_ROW_BYTES + 3 && sizeof SIDE == sizeof EDGE, "the frame's width");

static bool on_terminal;
static bool lit;

static void send_text(const char *text)
{
    transmit((const uint8_t *)text, strlen(text));
}

/* Text at a place of the terminal, which counts rows and columns from 1. The cursor goes there and back. */
static void send_at(size_t row, size_t column, const char *text, int length)
{
    char sent[64];
    snprintf(sent, sizeof sent, "\0337\033[%zu;%zuH%.*s\0338", row, column, length, text);
    send_text(sent);
}

/* The glass is blank, and the lamp is off. */
static void open_glass(void)
{
    char scrolled[32];
    memset(glass, ' ', sizeof glass);
    on_terminal = isatty(STDOUT_FILENO) == 1;
    if (on_terminal) {
        send_text("\033[2J");
        for (size_t row = 0; row <= HULMEIDE_PAGE_ROWS + 1; row++) {
            send_at(row + 1, 1, row == 0 || row > HULMEIDE_PAGE_ROWS ? EDGE : SIDE, sizeof EDGE - 1);
        }
        snprintf(scrolled, sizeof scrolled, "\033[%dr\033[%dH", FIRST_SCROLLED, FIRST_SCROLLED);
        send_text(scrolled);
    }
}

/* Sends a row to the glass, row one being 1. */
static void send_row(size_t row, const uint8_t *bytes)
{
    char text[64];
    if (on_terminal) {
        send_at(row + 1, 2, (const char *)bytes, HULMEIDE_ROW_BYTES);
    } else {
        snprintf(text, sizeof text, "|%.*s| %zu\n", HULMEIDE_ROW_BYTES, (const char *)bytes, row);
        send_text(text);
    }
}

static void switch_lamp(bool on)
{
    if (on != lit && on_terminal) {
        send_at(1, 4, on ? " old " : "-----", 5);
    } else if (on != lit) {
        send_text(on ? "lamp on\n" : "lamp off\n");
    }
    lit = on;
}

/* The terminal scrolls as a whole again, however the program ends. (It does not go through the port, which may have failed.) */
static void close_glass(void)
{
    if (on_terminal) {
        fputs("\0337\033[r\0338", stdout);
    }
}

/* ---- Pages ---- */

/* Sends what of the page the glass does not show yet, the rows from the first that differs to the last. The glass shows the page then. */
static void update_glass(void)
{
    struct hulmeide_bytes stretch = hulmeide_stretch_bytes(glass, sizeof glass, page, sizeof page);
    size_t row = hulmeide_stretch_row(glass, sizeof glass, page, sizeof page);
    for (size_t sent = 0; sent < stretch.count; sent += HULMEIDE_ROW_BYTES) {
        send_row(row, stretch.bytes + sent);
        row += 1;
    }
    memcpy(glass, page, sizeof glass);
}

/* Shows the latest plan. Where the first load that was shown has left, it begins with load 1. From an accepted change to the next plan
 * nothing can be drawn: the plan on the glass stays, so that the next one sends only what it changes, and the lamp says that it is old.
 * (A glass on which nothing was drawn yet is blank, and nothing on it is old.) */
static void show(void)
{
    uint32_t number = hulmeide_draw(&planner, top, page, sizeof page);
    if (number == HULMEIDE_OUT_OF_RANGE) {
        top = 1;
        number = hulmeide_draw(&planner, top, page, sizeof page);
    }
    if (number == HULMEIDE_ACCEPTED) {
        update_glass();
    }
    switch_lamp(number != HULMEIDE_ACCEPTED && glass[0] != ' ');
}

/* The page begins with this load from now on, if it can be drawn. */
static void scroll(size_t load)
{
    char text[16];
    uint32_t number = hulmeide_draw(&planner, load, page, sizeof page);
    if (number == HULMEIDE_ACCEPTED) {
        top = load;
    } else {
        snprintf(text, sizeof text, "no,%u\n", (unsigned)number);
        send_text(text);
    }
}

/* ---- Lines ---- */

/* Is this `page,K`, with a number as the planner takes it? Any other line is the planner's. */
static bool is_scroll(const struct line *line, size_t *load)
{
    static const char word[] = "page,";
    size_t at = sizeof word - 1;
    if (line->length <= at || line->length > at + HULMEIDE_MAX_DIGITS || memcmp(line->bytes, word, at) != 0) {
        return false;
    }
    for (*load = 0; at < line->length && line->bytes[at] >= '0' && line->bytes[at] <= '9'; at++) {
        *load = *load * 10 + (size_t)(line->bytes[at] - '0');
    }
    return at == line->length;
}

static void answer(const struct line *line)
{
    size_t load;
    if (is_scroll(line, &load)) {
        scroll(load);
    } else {
        struct hulmeide_reply reply = hulmeide_call(&planner, line->bytes, line->length, out, sizeof out, 0, work, HULMEIDE_LINE_PROGRAM_CELLS);
        transmit(out, reply.count);
    }
    show();
}

int main(void)
{
    if (hulmeide_version() != HULMEIDE_VERSION) {
        stop("the archive and the header are of different versions");
    }
    hulmeide_fresh(&planner);
    open_glass();
    atexit(close_glass);
    serve(answer);
    return 0;
}
