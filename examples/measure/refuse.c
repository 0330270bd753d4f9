/* Refuses the Nth allocation of a program, N from REFUSE: LD_PRELOAD=./refuse.so REFUSE=7 kprove ..
   With COUNT=1 it says at the end on standard error how many there were.
   Built by: cc -shared -fPIC -o refuse.so refuse.c -ldl (refuse.py does that) */
#define _GNU_SOURCE
#include <dlfcn.h>
#include <errno.h>
#include <stdio.h>
#include <stdlib.h>

static long left = -1;

static long all = 0;

static int refused(void) {
    all++;
    if (left < 0) {
        const char *text = getenv("REFUSE");
        left = text ? atol(text) : 0;
    }
    return left > 0 && --left == 0;
}

void *malloc(size_t size) {
    static void *(*real)(size_t);
    if (!real) real = dlsym(RTLD_NEXT, "malloc");
    if (refused()) { errno = ENOMEM; return 0; }
    return real(size);
}

void *realloc(void *old, size_t size) {
    static void *(*real)(void *, size_t);
    if (!real) real = dlsym(RTLD_NEXT, "realloc");
    if (refused()) { errno = ENOMEM; return 0; }
    return real(old, size);
}

void *aligned_alloc(size_t align, size_t size) {
    static void *(*real)(size_t, size_t);
    if (!real) real = dlsym(RTLD_NEXT, "aligned_alloc");
    if (refused()) { errno = ENOMEM; return 0; }
    return real(align, size);
}

int posix_memalign(void **out, size_t align, size_t size) {
    static int (*real)(void **, size_t, size_t);
    if (!real) real = dlsym(RTLD_NEXT, "posix_memalign");
    if (refused()) return ENOMEM;
    return real(out, align, size);
}

__attribute__((destructor)) static void tell(void) {
    if (getenv("COUNT")) fprintf(stderr, "allocations: %ld\n", all);
}
