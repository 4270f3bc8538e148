// A library in front of the system's allocator (LD_PRELOAD) that refuses requests for memory.
//
// REFUSE_AT=N       the Nth request is refused, counted from 1 where main begins
// REFUSE_LATER=1    and all later ones
// CHECK_REPORT=FD   at the end the number of requests is written there
//
// For programs of one thread, over the GNU C library.
#include <errno.h>
#include <stdio.h>
#include <stdlib.h>
#include <unistd.h>

// The allocator itself, by names that the C library has for libraries such as this one.
void *__libc_malloc(size_t size);
void *__libc_calloc(size_t count, size_t size);
void *__libc_realloc(void *block, size_t size);
void *__libc_memalign(size_t alignment, size_t size);

static int begun;
static int refuses_later;
static unsigned long refuse_at;
static unsigned long requests;

static unsigned long number_of(const char *variable) {
    const char *text = getenv(variable);
    return text ? strtoul(text, NULL, 10) : 0;
}

__attribute__((constructor)) static void begin(void) {
    refuse_at = number_of("REFUSE_AT");
    refuses_later = number_of("REFUSE_LATER") != 0;
    begun = 1;
}

__attribute__((destructor)) static void report(void) {
    char text[64];
    int length = snprintf(text, sizeof text, "requests %lu\n", requests);
    int file = (int)number_of("CHECK_REPORT");
    if (file > 0 && write(file, text, (size_t)length) != length) {
        _exit(127);
    }
}

static int is_refused(void) {
    if (!begun) {
        return 0;
    }
    requests++;
    int refused = refuse_at != 0 && (requests == refuse_at || (refuses_later && requests > refuse_at));
    if (refused) {
        errno = ENOMEM;
    }
    return refused;
}

void *malloc(size_t size) {
    return is_refused() ? NULL : __libc_malloc(size);
}

void *calloc(size_t count, size_t size) {
    return is_refused() ? NULL : __libc_calloc(count, size);
}

void *realloc(void *block, size_t size) {
    return is_refused() ? NULL : __libc_realloc(block, size);
}

void *memalign(size_t alignment, size_t size) {
    return is_refused() ? NULL : __libc_memalign(alignment, size);
}

void *aligned_alloc(size_t alignment, size_t size) {
    return memalign(alignment, size);
}

int posix_memalign(void **block, size_t alignment, size_t size) {
    void *found = memalign(alignment, size);
    if (found == NULL) {
        return ENOMEM;
    }
    *block = found;
    return 0;
}
