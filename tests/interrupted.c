/*
 * Loaded before a program (LD_PRELOAD), this interrupts every other read of it and every other write: the call does nothing and fails with
 * EINTR, as it does where a signal comes in.
 */
#include <errno.h>
#include <stdbool.h>
#include <sys/syscall.h>
#include <unistd.h>

static bool read_interrupted;
static bool write_interrupted;

/* Is this call interrupted? It is where the last one was not. */
static bool interrupt(bool *interrupted)
{
    *interrupted = !*interrupted;
    errno = EINTR;
    return *interrupted;
}

ssize_t read(int file, void *bytes, size_t most)
{
    return interrupt(&read_interrupted) ? -1 : syscall(SYS_read, file, bytes, most);
}

ssize_t write(int file, const void *bytes, size_t count)
{
    return interrupt(&write_interrupted) ? -1 : syscall(SYS_write, file, bytes, count);
}
