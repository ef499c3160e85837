/* Preloaded into the program: refuses the allocation with the number REFUSE_AT, counted from 1, and writes how many it saw to ALLOCATIONS_TO. */
#define _GNU_SOURCE
#include <dlfcn.h>
#include <errno.h>
#include <stdio.h>
#include <stdlib.h>

static long at = -1;
static long seen = 0;

static int refuses(void) {
    if (at < 0) {
        const char *number = getenv("REFUSE_AT");
        at = number ? atol(number) : 0;
    }
    seen += 1;
    if (seen == at) errno = ENOMEM;
    return seen == at;
}

void *malloc(size_t n) {
    static void *(*real)(size_t);
    if (!real) real = dlsym(RTLD_NEXT, "malloc");
    return refuses() ? NULL : real(n);
}

void *realloc(void *p, size_t n) {
    static void *(*real)(void *, size_t);
    if (!real) real = dlsym(RTLD_NEXT, "realloc");
    return refuses() ? NULL : real(p, n);
}

__attribute__((destructor)) static void tell(void) {
    const char *name = getenv("ALLOCATIONS_TO");
    long allocations = seen;
    FILE *file;
    at = 0;
    file = name ? fopen(name, "w") : NULL;
    if (file) {
        fprintf(file, "%ld\n", allocations);
        fclose(file);
    }
}
