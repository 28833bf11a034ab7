/* Stands before malloc and realloc, and gives no memory at the call of which REFUSED is the number, from 1 on, and at no other.
   Writes on descriptor 9 once when it did. */
#define _GNU_SOURCE
#include <dlfcn.h>
#include <stdlib.h>
#include <unistd.h>

static long calls, refused;

static int is_refused(void) {
    if (!refused) {
        const char *number = getenv("REFUSED");
        refused = number ? atol(number) : -1;
    }
    if (++calls != refused) return 0;
    return write(9, "x", 1) >= 0 || 1;
}

void *malloc(size_t size) {
    static void *(*next)(size_t);
    if (!next) next = (void *(*)(size_t))dlsym(RTLD_NEXT, "malloc");
    return is_refused() ? NULL : next(size);
}

void *realloc(void *it, size_t size) {
    static void *(*next)(void *, size_t);
    if (!next) next = (void *(*)(void *, size_t))dlsym(RTLD_NEXT, "realloc");
    return is_refused() ? NULL : next(it, size);
}
