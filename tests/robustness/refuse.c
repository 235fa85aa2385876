/* Refuses memory: taken in before the C library (LD_PRELOAD), it answers the call of a number, counted from 1,
 * as if there were no memory, and all others as the C library does.
 *
 * REFUSE_AT is the number (0 refuses none). REFUSE_COUNT is a file to which the number of calls is written
 * at the end of the program. */
#define _GNU_SOURCE
#include <errno.h>
#include <fcntl.h>
#include <stdio.h>
#include <stdlib.h>
#include <unistd.h>

void *__libc_malloc(size_t);
void *__libc_calloc(size_t, size_t);
void *__libc_realloc(void *, size_t);
void *__libc_memalign(size_t, size_t);

static unsigned long calls, refuse_at;

static int refused(void) {
    if (++calls != refuse_at) return 0;
    errno = ENOMEM;
    return 1;
}

__attribute__((constructor)) static void begin(void) {
    const char *number = getenv("REFUSE_AT");
    refuse_at = number ? strtoul(number, 0, 10) : 0;
    calls = 0;
}

__attribute__((destructor)) static void end(void) {
    const char *name = getenv("REFUSE_COUNT");
    char text[32];
    int to = name ? open(name, O_WRONLY | O_CREAT | O_TRUNC, 0600) : -1;
    if (to >= 0 && write(to, text, snprintf(text, sizeof text, "%lu\n", calls)) < 0) _exit(125);
}

void *malloc(size_t size) { return refused() ? 0 : __libc_malloc(size); }
void *calloc(size_t count, size_t size) { return refused() ? 0 : __libc_calloc(count, size); }
void *realloc(void *old, size_t size) { return refused() ? 0 : __libc_realloc(old, size); }
void *memalign(size_t align, size_t size) { return refused() ? 0 : __libc_memalign(align, size); }
void *aligned_alloc(size_t align, size_t size) { return refused() ? 0 : __libc_memalign(align, size); }

int posix_memalign(void **to, size_t align, size_t size) {
    void *made = refused() ? 0 : __libc_memalign(align, size);
    if (!made) return ENOMEM;
    *to = made;
    return 0;
}
