// A library in front of the C library (LD_PRELOAD) that makes calls on files fail, or do little.
//
// FAIL_CALL=KIND    open, read, write (to a file other than the standard error) or tell (to that)
// FAIL_AT=N         the Nth call of this kind fails, counted from 1 where main begins
// FAIL_ERROR=E      with this number of errno.h
// MOST_READ=N       each read gives N bytes at most
// MOST_WRITTEN=N    each write takes N bytes at most
// CHECK_REPORT=FD   at the end the number of calls of each kind is written there
//
// For programs of one thread that make no file.
#define _GNU_SOURCE
#include <errno.h>
#include <fcntl.h>
#include <stdio.h>
#include <stdlib.h>
#include <string.h>
#include <sys/syscall.h>
#include <unistd.h>

enum kind { OPEN, READ, WRITE, TELL, KINDS };

static const char *const names[KINDS] = {"open", "read", "write", "tell"};
static unsigned long calls[KINDS];
static int begun;
static size_t most_read;
static size_t most_written;
static enum kind failing = KINDS;
static unsigned long fail_at;
static int error;

static unsigned long number_of(const char *variable) {
    const char *text = getenv(variable);
    return text ? strtoul(text, NULL, 10) : 0;
}

__attribute__((constructor)) static void begin(void) {
    const char *name = getenv("FAIL_CALL");
    for (enum kind kind = OPEN; name && kind < KINDS; kind++) {
        if (strcmp(name, names[kind]) == 0) {
            failing = kind;
        }
    }
    fail_at = number_of("FAIL_AT");
    error = (int)number_of("FAIL_ERROR");
    most_read = number_of("MOST_READ");
    most_written = number_of("MOST_WRITTEN");
    begun = 1;
}

__attribute__((destructor)) static void report(void) {
    char text[256];
    int length = snprintf(text, sizeof text, "open %lu read %lu write %lu tell %lu\n", calls[OPEN],
                          calls[READ], calls[WRITE], calls[TELL]);
    int file = (int)number_of("CHECK_REPORT");
    if (file > 0 && syscall(SYS_write, file, text, length) != length) {
        _exit(127);
    }
}

static int fails(enum kind kind) {
    if (!begun) {
        return 0;
    }
    calls[kind]++;
    if (kind != failing || calls[kind] != fail_at) {
        return 0;
    }
    errno = error;
    return 1;
}

// So many bytes, or the most where that is a number.
static size_t within(size_t most, size_t count) {
    return most > 0 && count > most ? most : count;
}

int open(const char *path, int flags, ...) {
    return fails(OPEN) ? -1 : (int)syscall(SYS_openat, AT_FDCWD, path, flags, 0);
}

int openat(int folder, const char *path, int flags, ...) {
    return fails(OPEN) ? -1 : (int)syscall(SYS_openat, folder, path, flags, 0);
}

ssize_t read(int file, void *bytes, size_t count) {
    return fails(READ) ? -1 : syscall(SYS_read, file, bytes, within(most_read, count));
}

ssize_t write(int file, const void *bytes, size_t count) {
    enum kind kind = file == STDERR_FILENO ? TELL : WRITE;
    return fails(kind) ? -1 : syscall(SYS_write, file, bytes, within(most_written, count));
}

// The other names that the C library has for them.
int open64(const char *path, int flags, ...) __attribute__((alias("open")));
int openat64(int folder, const char *path, int flags, ...) __attribute__((alias("openat")));
ssize_t __read(int file, void *bytes, size_t count) __attribute__((alias("read")));
ssize_t __write(int file, const void *bytes, size_t count) __attribute__((alias("write")));
