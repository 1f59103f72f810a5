/* Loaded before the C library: reads and writes that fail or move few bytes.
 * FAIL_WRITE and FAIL_READ number the call on standard output or input that
 * fails, INTERRUPT the one of each that a signal interrupts, FEW bounds the bytes
 * that a call moves, and the file NOTES gets a line for each write to standard
 * output: what it returned. */
#define _GNU_SOURCE
#include <errno.h>
#include <fcntl.h>
#include <stdio.h>
#include <stdlib.h>
#include <sys/syscall.h>
#include <unistd.h>

static long number(const char *name, long otherwise)
{
    const char *text = getenv(name);
    return text ? atol(text) : otherwise;
}

static long moved(long call, const char *fail, int kind, int fd, void *bytes, size_t length)
{
    size_t few = (size_t)number("FEW", 1L << 30);
    if (call == number(fail, 0)) {
        errno = kind == SYS_write ? ENOSPC : EIO;
        return -1;
    }
    if (call == number("INTERRUPT", 0)) {
        errno = EINTR;
        return -1;
    }
    return syscall(kind, fd, bytes, length < few ? length : few);
}

ssize_t read(int fd, void *bytes, size_t length)
{
    static long calls;
    return fd == 0 ? moved(++calls, "FAIL_READ", SYS_read, fd, bytes, length)
                   : syscall(SYS_read, fd, bytes, length);
}

ssize_t write(int fd, const void *bytes, size_t length)
{
    static long calls;
    if (fd != 1) {
        return syscall(SYS_write, fd, bytes, length);
    }
    long result = moved(++calls, "FAIL_WRITE", SYS_write, fd, (void *)bytes, length);
    int error = errno;
    const char *name = getenv("NOTES");
    int notes = name ? open(name, O_WRONLY | O_CREAT | O_APPEND, 0600) : -1;
    if (notes >= 0) {
        char line[32];
        int n = snprintf(line, sizeof line, "%ld\n", result);
        syscall(SYS_write, notes, line, n);
        close(notes);
    }
    errno = error;
    return result;
}
