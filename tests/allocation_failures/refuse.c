/* Preloaded into a program, refuses one of its requests for memory: the one whose number, from 1, is in
 * REFUSE. A byte on descriptor 9 says that the request was made. */
#define _GNU_SOURCE
#include <dlfcn.h>
#include <stdlib.h>
#include <unistd.h>

static long requests;

static int is_refused(void) {
    const char *number = getenv("REFUSE");
    if (!number || ++requests != atol(number)) return 0;
    if (write(9, "!", 1) != 1) _exit(5);
    return 1;
}

void *malloc(size_t size) {
    static void *(*next)(size_t);
    if (!next) next = (void *(*)(size_t))dlsym(RTLD_NEXT, "malloc");
    return is_refused() ? NULL : next(size);
}

void *realloc(void *old, size_t size) {
    static void *(*next)(void *, size_t);
    if (!next) next = (void *(*)(void *, size_t))dlsym(RTLD_NEXT, "realloc");
    return is_refused() ? NULL : next(old, size);
}
