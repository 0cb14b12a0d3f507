// Counts the allocations of a program, and refuses one of them. It is loaded before the C library:
//
//     cc -O2 -shared -fPIC -o refuse_memory.so refuse_memory.c
//     REFUSE_AT=5 REFUSE_COUNT=count.txt LD_PRELOAD=./refuse_memory.so PROGRAM ...
//
// The allocation with the number REFUSE_AT, counted from 1, gets no memory; with 0, or without it, none is refused. At
// the end the number of allocations is written to the file that REFUSE_COUNT names, if it is set.
#include <errno.h>
#include <stdatomic.h>
#include <stdio.h>
#include <stdlib.h>
#include <sys/syscall.h>
#include <unistd.h>

extern void *__libc_malloc(size_t size);
extern void *__libc_calloc(size_t count, size_t size);
extern void *__libc_realloc(void *old, size_t size);
extern void *__libc_memalign(size_t alignment, size_t size);

static atomic_long made;
static long refused = -1;

// Whether this allocation is the one that is refused.
static int refuses(void) {
    if (refused < 0) {
        const char *at = getenv("REFUSE_AT");
        refused = at ? strtol(at, NULL, 10) : 0;
    }
    if (atomic_fetch_add(&made, 1) + 1 != refused)
        return 0;
    errno = ENOMEM;
    return 1;
}

void *malloc(size_t size) { return refuses() ? NULL : __libc_malloc(size); }

void *calloc(size_t count, size_t size) { return refuses() ? NULL : __libc_calloc(count, size); }

void *realloc(void *old, size_t size) { return refuses() ? NULL : __libc_realloc(old, size); }

void *aligned_alloc(size_t alignment, size_t size) { return refuses() ? NULL : __libc_memalign(alignment, size); }

int posix_memalign(void **to, size_t alignment, size_t size) {
    void *got = refuses() ? NULL : __libc_memalign(alignment, size);
    if (!got)
        return ENOMEM;
    *to = got;
    return 0;
}

__attribute__((destructor)) static void tell(void) {
    long all = atomic_load(&made);
    const char *place = getenv("REFUSE_COUNT");
    FILE *file = place ? fopen(place, "w") : NULL;
    if (file) {
        fprintf(file, "%ld\n", all);
        fclose(file);
    }
}

// A program with threads ends by this call, which runs no destructor.
void _exit(int status) {
    tell();
    for (;;)
        syscall(SYS_exit_group, status);
}
