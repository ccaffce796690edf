/* Refuses one allocation of a program: the one numbered REFUSE, counted from 0, on which it writes a mark to descriptor 9.
   Built as a library that is loaded before the C library. */
#define _GNU_SOURCE
#include <dlfcn.h>
#include <errno.h>
#include <stdlib.h>
#include <unistd.h>

static long awaited = -2;

static int refused(void) {
    if (awaited == -2) {
        const char *number = getenv("REFUSE");
        awaited = number ? atol(number) : -1;
    }
    if (awaited < 0) return 0;
    if (awaited-- > 0) return 0;
    ssize_t marked = write(9, "x", 1);
    (void)marked;
    errno = ENOMEM;
    return 1;
}

void *malloc(size_t size) {
    static void *(*next)(size_t);
    if (!next) next = (void *(*)(size_t))dlsym(RTLD_NEXT, "malloc");
    return refused() ? NULL : next(size);
}

void *realloc(void *old, size_t size) {
    static void *(*next)(void *, size_t);
    if (!next) next = (void *(*)(void *, size_t))dlsym(RTLD_NEXT, "realloc");
    return refused() ? NULL : next(old, size);
}

void *calloc(size_t count, size_t size) {
    static void *(*next)(size_t, size_t);
    static char first[4096];
    static size_t used;
    /* dlsym itself may ask for memory before the next calloc is known */
    if (!next) {
        static int asked;
        if (asked) {
            void *place = first + used;
            used += (count * size + 15) & ~(size_t)15;
            return place;
        }
        asked = 1;
        next = (void *(*)(size_t, size_t))dlsym(RTLD_NEXT, "calloc");
    }
    return refused() ? NULL : next(count, size);
}

int posix_memalign(void **place, size_t alignment, size_t size) {
    static int (*next)(void **, size_t, size_t);
    if (!next) next = (int (*)(void **, size_t, size_t))dlsym(RTLD_NEXT, "posix_memalign");
    return refused() ? ENOMEM : next(place, alignment, size);
}

void *aligned_alloc(size_t alignment, size_t size) {
    static void *(*next)(size_t, size_t);
    if (!next) next = (void *(*)(size_t, size_t))dlsym(RTLD_NEXT, "aligned_alloc");
    return refused() ? NULL : next(alignment, size);
}
