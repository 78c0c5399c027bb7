/* Refuses one allocation of a program, or all from one on: a library for LD_PRELOAD.

   REFUSED is the number of the allocation, from 1, or 0 for none; with ALL all after it are refused,
   too. COUNTED is a file that gets the number of allocations there were. */

#include <errno.h>
#include <fcntl.h>
#include <stdio.h>
#include <stdlib.h>
#include <unistd.h>

extern void *__libc_malloc(size_t);
extern void *__libc_calloc(size_t, size_t);
extern void *__libc_realloc(void *, size_t);
extern void *__libc_memalign(size_t, size_t);

static long count, refused = -1;
static int all;

static int is_refused(void) {
    if (refused < 0) {
        const char *told = getenv("REFUSED");
        refused = told ? atol(told) : 0;
        all = getenv("ALL") != NULL;
    }
    count++;
    int is = refused && (count == refused || (all && count > refused));
    if (is) errno = ENOMEM;
    return is;
}

void *malloc(size_t size) { return is_refused() ? NULL : __libc_malloc(size); }

void *calloc(size_t number, size_t size) { return is_refused() ? NULL : __libc_calloc(number, size); }

void *realloc(void *block, size_t size) { return is_refused() ? NULL : __libc_realloc(block, size); }

void *memalign(size_t align, size_t size) { return is_refused() ? NULL : __libc_memalign(align, size); }

void *aligned_alloc(size_t align, size_t size) { return memalign(align, size); }

int posix_memalign(void **block, size_t align, size_t size) {
    *block = memalign(align, size);
    return *block ? 0 : ENOMEM;
}

__attribute__((destructor)) static void tell(void) {
    const char *path = getenv("COUNTED");
    char text[32];
    int stream = path ? open(path, O_WRONLY | O_CREAT | O_TRUNC, 0600) : -1;
    if (stream < 0) return;
    int size = snprintf(text, sizeof text, "%ld", count);
    if (write(stream, text, size) != size) _exit(99);
    close(stream);
}
