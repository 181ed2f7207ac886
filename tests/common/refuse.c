/* Replaces the C library's malloc and realloc, and counts their calls. In each run, the calls from
 * number `first` to number `second` of the turn fail (see turns.h). The shim marks the run when it
 * makes the first of these calls fail. */
#define _GNU_SOURCE
#include <dlfcn.h>
#include <errno.h>
#include <stdlib.h>

#include "turns.h"

static int is_refused(void) {
    static long calls;
    calls++;
    if (calls < turn.first || calls > turn.second) return 0;
    report->is_marked = 1;
    errno = ENOMEM;
    return 1;
}

void *malloc(size_t size) {
    static void *(*real)(size_t);
    if (!real) real = dlsym(RTLD_NEXT, "malloc");
    return is_refused() ? NULL : real(size);
}

void *realloc(void *old, size_t size) {
    static void *(*real)(void *, size_t);
    if (!real) real = dlsym(RTLD_NEXT, "realloc");
    return is_refused() ? NULL : real(old, size);
}
