#define _GNU_SOURCE
#include "fork_mark.h"
#include <stddef.h>
#include <sys/mman.h>

/* The kernel allocates whole pages. The mark is the first byte of a page. */
enum { SIZE = 1 };

void fork_mark_begin(struct fork_mark *mark) {
    void *page = mmap(NULL, SIZE, PROT_READ | PROT_WRITE, MAP_PRIVATE | MAP_ANONYMOUS, -1, 0);
    mark->page = NULL;
    if (page == MAP_FAILED) return;
    if (madvise(page, SIZE, MADV_WIPEONFORK) == 0) {
        mark->page = page;
    } else {
        munmap(page, SIZE);
    }
}

void fork_mark_end(struct fork_mark *mark) {
    if (mark->page) munmap(mark->page, SIZE);
    mark->page = NULL;
}

void fork_mark_set(struct fork_mark *mark) {
    if (mark->page) *mark->page = 1;
}

bool fork_mark_is_here(const struct fork_mark *mark) { return mark->page && *mark->page; }
