/* The line port of the examples in C: port.h says what it does. */
#include "port.h"

#include <errno.h>
#include <poll.h>
#include <stdio.h>
#include <stdlib.h>
#include <unistd.h>

void stop(const char *message)
{
    fprintf(stderr, "%s: %s\n", program, message);
    exit(1);
}

void transmit(const uint8_t *bytes, size_t count)
{
    size_t sent = 0;
    while (sent < count) {
        ssize_t more = write(STDOUT_FILENO, bytes + sent, count - sent);
        if (more >= 0) {
            sent += (size_t)more;
        } else if (errno != EINTR) {
            stop("the port cannot be written");
        }
    }
}

/* Would `receive` return without waiting? */
static bool is_ready(void)
{
    struct pollfd port = {STDIN_FILENO, POLLIN, 0};
    return poll(&port, 1, 0) > 0;
}

/* The bytes that are there, up to `most`, or 0 at the end of the port. A port that fails stops the program: what is held of a line then is
 * not the whole line, and is not answered. */
static size_t receive(uint8_t *bytes, size_t most)
{
    ssize_t count;
    do {
        count = read(STDIN_FILENO, bytes, most);
    } while (count < 0 && errno == EINTR);
    if (count < 0) {
        stop("the port cannot be read");
    }
    return (size_t)count;
}

/* Takes one byte of a line. */
static void take(struct line *line, uint8_t byte, void (*answer)(const struct line *line))
{
    if (byte == '\n') {
        answer(line);
        line->length = 0;
    } else if (line->length < sizeof line->bytes) {
        line->bytes[line->length] = byte;
        line->length += 1;
    }
}

bool poll_port(bool waits, void (*answer)(const struct line *line))
{
    static struct line line;
    uint8_t bytes[256];
    if (!waits && !is_ready()) {
        return true;
    }
    size_t count = receive(bytes, sizeof bytes);
    for (size_t i = 0; i < count; i++) {
        take(&line, bytes[i], answer);
    }
    if (count == 0 && line.length > 0) {
        answer(&line);
    }
    return count > 0;
}

void serve(void (*answer)(const struct line *line))
{
    while (poll_port(true, answer)) {
    }
}
