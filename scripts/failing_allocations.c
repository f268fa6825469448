/* A malloc, calloc, realloc and aligned_alloc of which the call with the number in FAIL_AT fails, counted from 1, and all later
 * ones where FAIL_ALL is set. At the end it writes the number of calls to the file that COUNT_TO names. It is preloaded by
 * scripts/failing_allocations.py and is no part of the program. */
#define _GNU_SOURCE
#include <dlfcn.h>
#include <errno.h>
#include <stdio.h>
#include <stdlib.h>

static unsigned long calls;

static int fails(void) {
    static long at = -1;
    static int all;
    if (at < 0) {
        const char *text = getenv("FAIL_AT");
        at = text ? atol(text) : 0;
        all = getenv("FAIL_ALL") != NULL;
    }
    calls++;
    return at > 0 && (calls == (unsigned long)at || (all && calls > (unsigned long)at));
}

void *malloc(size_t size) {
    static void *(*real)(size_t);
    if (!real) real = dlsym(RTLD_NEXT, "malloc");
    if (fails()) { errno = ENOMEM; return NULL; }
    return real(size);
}

void *calloc(size_t count, size_t size) {
    static void *(*real)(size_t, size_t);
    if (!real) real = dlsym(RTLD_NEXT, "calloc");
    if (fails()) { errno = ENOMEM; return NULL; }
    return real(count, size);
}

void *realloc(void *old, size_t size) {
    static void *(*real)(void *, size_t);
    if (!real) real = dlsym(RTLD_NEXT, "realloc");
    if (fails()) { errno = ENOMEM; return NULL; }
    return real(old, size);
}

void *aligned_alloc(size_t alignment, size_t size) {
    static void *(*real)(size_t, size_t);
    if (!real) real = dlsym(RTLD_NEXT, "aligned_alloc");
    if (fails()) { errno = ENOMEM; return NULL; }
    return real(alignment, size);
}

int posix_memalign(void **into, size_t alignment, size_t size) {
    static int (*real)(void **, size_t, size_t);
    if (!real) real = dlsym(RTLD_NEXT, "posix_memalign");
    if (fails()) return ENOMEM;
    return real(into, alignment, size);
}

__attribute__((destructor)) static void tell(void) {
    const char *path = getenv("COUNT_TO");
    FILE *file = path ? fopen(path, "w") : NULL;
    if (file) { fprintf(file, "%lu\n", calls); fclose(file); }
}
